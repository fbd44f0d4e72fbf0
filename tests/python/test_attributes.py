"""No attribute is set in silence: it works, or an AttributeError says that it doesn't. And nothing that waits for
descriptors of the operating system takes a socket of a stack for one."""
import asyncio
import errno
import os
import select
import selectors

import pytest

from tests.python.package import bsdudp


def objects():
    """Returns an object of each class of the package, by name."""
    stack, host = bsdudp.Stack("10.0.0.1"), bsdudp.Host("10.0.0.2")
    it = stack.socket()
    it.bind(("", 7))
    it.sendto(bytes(3000), ("10.0.0.2", 7))
    packets = list(stack.packets())
    with bsdudp.Stack("10.0.0.2") as other:
        fate = other.rx(packets[0])
        unfinished = other.unfinished[0]
    it.sendto(b"hi", ("10.0.0.1", 7))
    wire = bsdudp.Wire([stack], delay=(1, 1))
    it.sendto(b"hi", ("10.0.0.2", 7))
    wire.carry()
    host.socket().sendto(b"hi", ("10.0.0.3", 7))
    frame = host.transmit()
    list(host.frames())
    found = [
        stack, host, it, wire, wire.sender(stack), wire.carried, wire.under_way[0], packets[0], unfinished,
        unfinished.ranges[0], it.waiting, stack.counters, stack.mbstat, frame, host.tallies, host.neighbours[0],
        bsdudp.Nth(1), bsdudp.Bursts(0.1, 2), bsdudp.Sent(1, stack, packets[0], 0), fate,
    ]  # fmt: skip
    return {type(each).__name__: each for each in found}


def test_every_class_is_tried():
    kinds = {name for name in bsdudp.__all__ if isinstance(getattr(bsdudp, name), type)}
    assert kinds - set(objects()) == {"CutDatagramWarning", "NoBuffersError"}  # exceptions, which have all attributes


# Each class, with the attributes that can be set.
SETTABLE = {"Wire": {"loss", "repeat", "reorder", "delay", "pcap", "on_loss"}, "Sender": {"loss", "repeat", "reorder", "delay"}}


@pytest.mark.parametrize("name", sorted({
    "Stack", "Host", "Socket", "Wire", "Sender", "Carried", "UnderWay", "Packet", "UnfinishedDatagram", "HeldRange",
    "Waiting", "Counters", "MbStat", "Frame", "Tallies", "Neighbour", "Nth", "Bursts", "Sent", "Fate",
}))  # fmt: skip
def test_no_attribute_is_set_in_silence(name):
    it = objects()[name]
    public = {each for each in dir(it) if not each.startswith("_")}
    assert "no_such_name" not in public
    for each in sorted(public | {"no_such_name"}):
        if each not in SETTABLE.get(name, ()):
            with pytest.raises(AttributeError):
                setattr(it, each, 1)
    assert SETTABLE.get(name, set()) <= public


@pytest.fixture
def it():
    """A socket whose descriptor in its stack is one that the operating system has, too: 3 if it's free here."""
    opened = os.dup(0)
    with bsdudp.Stack() as stack:
        while (it := stack.socket()).descriptor < opened:
            pass
        assert it.descriptor == opened
        yield it
    os.close(opened)


SAYS = r"Socket\.waiting or Stack\.readable\(\).*Socket\.descriptor"


def test_descriptor(it):
    number = it.descriptor
    assert number == min(number, 66) and it._stack.sockets[number] is it
    with pytest.raises(OSError, match=SAYS) as fault:
        it.fileno()
    assert fault.value.errno == errno.EOPNOTSUPP
    it.close()
    assert it.descriptor == -1


def test_select_refuses(it):
    with pytest.raises(OSError, match=SAYS):
        select.select([it], [], [], 0)
    with pytest.raises(OSError, match=SAYS):
        select.poll().register(it, select.POLLIN)


@pytest.mark.parametrize("kind", [selectors.DefaultSelector, selectors.SelectSelector])
def test_selectors_refuse(kind, it):
    with kind() as selector, pytest.raises(OSError, match=SAYS):
        selector.register(it, selectors.EVENT_READ)


def test_asyncio_refuses(it):
    async def receive():
        await asyncio.wait_for(asyncio.get_running_loop().sock_recv(it, 100), 5)

    async def watch():
        asyncio.get_running_loop().add_reader(it, lambda: None)

    for call in (receive, watch):
        with pytest.raises(OSError, match=SAYS):
            asyncio.run(call())
