"""A copy of a stack or a wire does what one does that was given the same calls, and neither changes the other."""
import importlib

import pytest

from tests.python.package import bsdudp


def state_of(stack):
    """Returns all that can be asked of a stack, without a change."""
    sockets = {
        number: (it.getsockname(), it.waiting, it.getsockopt(1, 6)) for number, it in sorted(stack.sockets.items())
    }
    return dict(stack.counters), stack.mbstat, stack.unfinished, stack.output_len, sockets


def drained(stack):
    """Returns all packets and datagrams of a stack, which it then lacks."""
    packets = [bytes(it) for it in stack.packets()]
    received = []
    for it in stack.readable():
        while it.waiting:
            received.append((it.descriptor, it.recvfrom()))
    return packets, received


@pytest.fixture
def stack():
    with bsdudp.Stack("10.0.0.1") as it:
        yield it


def test_two_futures(stack):
    it = stack.socket()
    it.bind(("", 7))
    it.sendto(b"before", ("10.0.0.1", 7))
    it.sendto(bytes(3000), ("10.0.0.2", 9))
    twin = stack.copy()
    its = twin.sockets[it.descriptor]
    assert twin is not stack and its is not it and its.descriptor == it.descriptor
    assert state_of(twin) == state_of(stack)
    it.sendto(b"here", ("10.0.0.1", 7))
    its.sendto(b"there", ("10.0.0.1", 7))
    its.sendto(b"there too", ("10.0.0.1", 7))
    assert (it.waiting.datagrams, its.waiting.datagrams) == (2, 3)
    assert [it.recv(), it.recv()] == [b"before", b"here"]
    assert [its.recv(), its.recv(), its.recv()] == [b"before", b"there", b"there too"]
    it.close()
    assert its.getsockname() == ("0.0.0.0", 7)
    assert [len(packet) for packet in twin.packets()] == [1500, 1500, 68]
    assert stack.output_len == 3


def test_a_copy_outlives_the_other(stack):
    it = stack.socket()
    it.bind(("", 7))
    twin = stack.copy()
    third = twin.copy()
    stack.end()
    twin.sockets[3].sendto(b"alive", ("10.0.0.1", 7))
    twin.end()
    with pytest.raises(ValueError, match="has ended"):
        twin.tick()
    third.sockets[3].sendto(b"me too", ("10.0.0.1", 7))
    assert third.sockets[3].recv() == b"me too"
    with pytest.raises(ValueError, match="has ended"):
        stack.copy()
    del stack, twin, it
    third.socket().sendto(bytes(9000), ("10.0.0.1", 7))
    assert len(third.sockets[3].recv()) == 9000


def test_a_copy_of_a_host():
    with bsdudp.Host("10.0.0.1", gateway="10.0.0.254") as host:
        host.socket().sendto(b"hi", ("10.0.0.2", 7))
        assert [frame.type for frame in host.frames()] == [0x806, 0x806]  # its announcement, and a request
        twin = host.copy()
        assert (twin.mac, twin.mask, twin.gateway, type(twin)) == (host.mac, host.mask, host.gateway, bsdudp.Host)
        assert twin.neighbours == host.neighbours and len(host.neighbours) == 1
        reply = bytes.fromhex(
            "020000000001 020000000002 0806 0001 0800 0604 0002 020000000002 0a000002 020000000001 0a000001"
        )
        twin.receive(reply)
        assert [frame.type for frame in twin.frames()] == [0x800]
        assert (twin.neighbours[0].mac, host.neighbours[0].mac) == ("02:00:00:00:00:02", None)
        assert host.transmit() is None


def test_a_program_s_own_subclass():
    class Named(bsdudp.Stack):
        def __init__(self, name, **more):
            super().__init__(**more)
            self.name = name

    twin = Named("a", addr="10.0.0.7").copy()
    assert (twin.name, twin.addr, type(twin)) == ("a", "10.0.0.7", Named)


def test_one_thread_at_a_time(stack):
    twin = stack.copy()
    with stack._turn, pytest.raises(RuntimeError, match="or in a copy of it"):
        twin.tick()


def lossy_wire(seed, rounds):
    """Returns a wire with losses, repeats, delays and bursts after some rounds, the sockets of its stacks and what they
    received."""
    stacks = [bsdudp.Stack(f"10.0.0.{at}", mtu=(576, 1500, 296)[at - 1]) for at in (1, 2, 3)]
    for stack in stacks:
        stack.socket().bind(("", 7))
    wire = bsdudp.Wire(stacks, 0.1, 0.1, 0.2, (0, 4), seed)
    wire.sender(stacks[0]).loss = bsdudp.Bursts(0.05, 3, seed)
    wire.sender(stacks[1]).loss = bsdudp.Nth(4, 9, 20, 21)
    return wire, played(wire, range(rounds))


def played(wire, rounds):
    came = []
    for at in rounds:
        wire.stacks[at % 3].sockets[3].sendto(b"%d" % at * (1 + at % 7 * 200), (wire.stacks[(at + 1) % 3].addr, 7))
        wire.advance(3 + at % 5)
        for stack in wire.stacks:
            it = stack.sockets[3]
            while it.waiting:
                came.append((wire.now, stack.addr, it.recvfrom()))
    return came


@pytest.mark.parametrize("seed", range(5))
def test_a_copied_wire_goes_on_as_one_that_ran_alone(seed):
    """The copy and the original take turns, each with its stacks at the same place in memory."""
    alone, before = lossy_wire(seed, 30)
    wire, same = lossy_wire(seed, 30)
    twin = wire.copy()
    assert before == same
    came = ([], [], [])
    for begin in range(30, 90, 10):
        for each, into in zip((alone, wire, twin), came):
            into.extend(played(each, range(begin, begin + 10)))
    assert len(came[0]) > 20 and came[0] == came[1] == came[2]
    assert alone.carried == wire.carried == twin.carried
    assert [state_of(it) for it in alone.stacks] == [state_of(it) for it in twin.stacks]
    assert twin.sender(twin.stacks[2]).loss == 0.1
    assert twin.pcap is None and twin.on_loss is None


def test_two_futures_of_a_wire():
    wire, _ = lossy_wire(1, 10)
    twin = wire.copy()
    twin.loss = 1
    assert wire.sender(wire.stacks[2]).loss == 0.1
    here, there = played(wire, range(10, 40)), played(twin, range(10, 40))
    assert len(here) > len(there)


@pytest.mark.needs("hypothesis")
def test_random_copies():
    """Random calls, each on one of several branches: a branch has the state of a stack that was given its calls
    alone."""
    importlib.import_module("tests.python.random_copies").run()
