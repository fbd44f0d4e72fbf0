"""Wires: the random numbers of their choices, what arrives, captures and errors."""
import importlib
import socket as host
import subprocess
import sys

import pytest

from tests.python.lossy import lossy_run
from tests.python.package import bsdudp


def test_numbers():
    """The numbers of PCG's demonstration program, for state 42 and stream 54."""
    random = bsdudp._pcg.Pcg32(42, 54)
    wanted = [0xA15C02B7, 0x7B47F409, 0xBA1D3330, 0x83D2F293, 0xBFA4784B, 0xCBED606E]
    assert [random.next_u32() for _ in range(6)] == wanted


def test_limits():
    limit_of = bsdudp._pcg.limit_of
    assert limit_of("loss", 0.5) == 1 << 31
    assert limit_of("loss", 1) == 1 << 32
    assert limit_of("loss", "0.05") == (1 << 32) // 20
    for wrong in (1.5, -0.1, float("nan"), "much"):
        with pytest.raises(ValueError):
            limit_of("loss", wrong)


@pytest.mark.needs("hypothesis")
def test_what_comes_was_sent():
    importlib.import_module("tests.python.random_wires").what_comes_was_sent()


def test_same_seed_same_choices():
    assert lossy_run(7) == lossy_run(7)
    assert len({lossy_run(seed) for seed in range(5)}) > 1


def test_broadcast():
    stacks = [bsdudp.Stack(f"10.0.0.{at}") for at in (1, 2, 3)]
    sockets = []
    for stack in stacks:
        it = stack.socket()
        it.bind(("", 7))
        sockets.append(it)
    sockets[0].setsockopt(host.SOL_SOCKET, host.SO_BROADCAST, 1)
    sockets[0].sendto(b"all", ("10.0.0.255", 7))
    wire = bsdudp.Wire(stacks)
    assert wire.run()
    assert [it.recv() for it in sockets] == [b"all"] * 3
    assert wire.carried.delivered == 2


def test_nobody_is_there():
    with bsdudp.Stack() as stack:
        stack.socket().sendto(b"hi", ("10.0.0.9", 7))
        wire = bsdudp.Wire([stack])
        assert wire.run()
        assert wire.carried.nobody == 1


def test_arguments():
    with bsdudp.Stack() as stack, bsdudp.Stack() as other:
        for wrong in [{"loss": 2}, {"delay": (3, 1)}, {"seed": -1}]:
            with pytest.raises(ValueError):
                bsdudp.Wire([stack], **wrong)
        with pytest.raises(ValueError):
            bsdudp.Wire([stack, other])
        wire = bsdudp.Wire([stack])
        for name, wrong, kind, message in [
            ("loss", [3], TypeError, "loss must be a number of 0 to 1, or a function of a Sent, .*, not list"),
            ("delay", (-1, 3), ValueError, "the shortest delay must be 0 to 1000000, not -1"),
            ("delay", (5, 1), ValueError, "the longest delay must be 5 to 1000000, not 1"),
        ]:
            with pytest.raises(kind, match=message):
                setattr(wire, name, wrong)
            with pytest.raises(kind, match=message):
                setattr(wire.sender(stack), name, wrong)


def test_tick():
    """A datagram whose last fragment is lost is dropped after 60 ticks of the wire, and not before."""
    with bsdudp.Stack("10.0.0.1") as one, bsdudp.Stack("10.0.0.2") as other:
        one.socket().sendto(bytes(3000), ("10.0.0.2", 7))
        first, second, _ = one.packets()
        other.rx(first)
        other.rx(second)
        wire = bsdudp.Wire([one, other])
        wire.tick(59)
        assert [it.ticks for it in other.unfinished] == [1]
        wire.tick()
        assert other.unfinished == [] and other.counters["ip.fragtimeout"] == 1


@pytest.mark.needs("scapy")
def test_pcap(tmp_path):
    scapy = importlib.import_module("scapy.all")
    path = tmp_path / "wire.pcap"
    with bsdudp.Stack("10.0.0.1") as one, bsdudp.Stack("10.0.0.2") as other:
        wire = bsdudp.Wire([one, other], pcap=str(path))
        assert wire.pcap == str(path) and path.stat().st_size == 24
        one.socket().sendto(bytes(3000), ("10.0.0.2", 7))
        wire.run()
        wire.tick(3)
        other.socket().sendto(b"hi", ("10.0.0.1", 7))
        wire.run()
        wire.pcap = None
        other.socket().sendto(b"not there", ("10.0.0.1", 7))
        wire.run()
    packets = scapy.rdpcap(str(path))
    assert [packet["IP"].frag for packet in packets] == [0, 185, 370, 0]
    assert [float(packet.time) for packet in packets] == [0, 0, 0, 1.5]
    assert all(packet["IP"].chksum == scapy.IP(bytes(packet["IP"])).chksum for packet in packets)


@pytest.mark.needs("tshark")
def test_tshark_reads_a_capture_while_the_wire_is_in_use(tmp_path):
    path = tmp_path / "wire.pcap"
    with bsdudp.Stack("10.0.0.1") as one, bsdudp.Stack("10.0.0.2") as other:
        wire = bsdudp.Wire([one, other], delay=(20, 20))
        it = one.socket()
        it.sendto(b"before", ("10.0.0.2", 7))
        wire.advance(30)
        wire.pcap = str(path)
        for _ in range(2):
            it.sendto(bytes(2000), ("10.0.0.2", 7))
            wire.advance(490)
        fields = [word for name in ("frame.time_epoch", "ip.dst", "frame.len") for word in ("-e", name)]
        words = ["tshark", "-r", path, "-T", "fields", *fields]
        told = subprocess.run(words, capture_output=True, text=True, check=True).stdout
    rows = [line.split() for line in told.splitlines()]
    assert [(float(time), *rest) for time, *rest in rows] == [
        (0.05, "10.0.0.2", "1500"), (0.05, "10.0.0.2", "548"), (0.54, "10.0.0.2", "1500"), (0.54, "10.0.0.2", "548"),
    ]  # fmt: skip


@pytest.fixture
def pair():
    """Two stacks, a socket of the first, and one of the second with port 7."""
    with bsdudp.Stack("10.0.0.1") as one, bsdudp.Stack("10.0.0.2") as other:
        to = other.socket()
        to.bind(("", 7))
        yield one, other, one.socket(), to


def numbers_of(to):
    """Returns the numbers that arrived: each datagram has one."""
    came = []
    while to.waiting:
        came.append(int(to.recv()))
    return came


def send_numbers(it, wire, numbers):
    for number in numbers:
        it.sendto(b"%d" % number, ("10.0.0.2", 7))
        wire.run()


def test_settings_work_at_once(pair):
    one, other, it, to = pair
    wire = bsdudp.Wire([one, other])
    for at, loss in enumerate((0, 1, 0.0, "1", 0)):
        wire.loss = loss
        assert wire.loss == loss
        send_numbers(it, wire, [at])
    assert numbers_of(to) == [0, 2, 4]
    wire.repeat = 1
    send_numbers(it, wire, [5])
    wire.repeat, wire.delay = 0, (2, 2)
    it.sendto(b"6", ("10.0.0.2", 7))
    assert [wire.carry() for _ in range(4)] == [0, 0, 1, 0]
    wire.delay, wire.reorder = (0, 0), 1
    it.sendto(b"7", ("10.0.0.2", 7))
    it.sendto(b"8", ("10.0.0.2", 7))
    wire.run()
    assert numbers_of(to) == [5, 5, 6, 8, 7]
    for name, wrong in [("loss", 2), ("repeat", -1), ("reorder", "x"), ("delay", (3, 1))]:
        with pytest.raises(ValueError):
            setattr(wire, name, wrong)
    for name, wrong in [("loss", None), ("repeat", None), ("delay", 3), ("on_loss", 3)]:
        with pytest.raises(TypeError):
            setattr(wire, name, wrong)
    assert (wire.loss, wire.repeat, wire.reorder, wire.delay) == (0, 0, 1, (0, 0))


def test_settings_for_one_stack(pair):
    one, other, it, to = pair
    wire = bsdudp.Wire([one, other])
    wire.sender(other).loss = 1
    send_numbers(it, wire, range(3))
    to.sendto(b"lost", ("10.0.0.1", 1024))
    wire.run()
    assert numbers_of(to) == [0, 1, 2] and it.waiting is None and wire.carried.lost == 1
    assert wire.sender(other).stack is other and wire.sender(one).loss == 0
    with pytest.raises(ValueError, match="use sender"):
        wire.loss
    with bsdudp.Stack("10.0.0.2") as stranger, pytest.raises(ValueError, match="is not on this wire"):
        wire.sender(stranger)
    with pytest.raises(TypeError, match="must be a Stack, not int"):
        wire.sender(0)


def test_nth_is_lost_and_reported(pair):
    one, other, it, to = pair
    lost = []
    wire = bsdudp.Wire([one, other], loss=bsdudp.Nth(3, 5))
    wire.on_loss = lost.append
    send_numbers(it, wire, range(1, 7))
    assert numbers_of(to) == [1, 2, 4, 6]
    assert [(sent.number, sent.sender, sent.packet[28:]) for sent in lost] == [(3, one, b"3"), (5, one, b"5")]
    with pytest.raises(ValueError):
        bsdudp.Nth(0)


def test_nth_of_one_stack(pair):
    """It counts that stack's packets, and `number` those of the wire."""
    one, other, it, to = pair
    wire, lost = bsdudp.Wire([one, other]), []
    wire.sender(one).loss = bsdudp.Nth(2)
    wire.on_loss = lost.append
    for number in range(4):
        to.sendto(b"hi", ("10.0.0.1", 9))
        send_numbers(it, wire, [number])
    assert numbers_of(to) == [0, 2, 3]
    assert [sent.number for sent in lost] == [3]


def test_bursts_have_their_length_and_rate():
    """The mean length of a burst, and the mean number of packets between two, of 100,000 packets. The former is known
    within 3 % then, the latter within 5 %."""
    rule, runs, before = bsdudp.Bursts(0.02, 5, seed=3), [], None
    for _ in range(100_000):
        lost = rule(None)
        if lost == before:
            runs[-1][1] += 1
        else:
            runs.append([lost, 1])
        before = lost
    lengths = [length for lost, length in runs if lost]
    between = [length for lost, length in runs if not lost]
    assert abs(sum(lengths) / len(lengths) - 5) < 0.4
    assert abs(sum(between) / len(between) - 50) < 5
    for wrong in [(2, 5), (0.1, 0.5), (0.1, float("nan"))]:
        with pytest.raises(ValueError):
            bsdudp.Bursts(*wrong)


def test_by_hand(pair):
    one, other, it, to = pair
    wire = bsdudp.Wire([one, other], delay=(1, 1))
    for number in range(5):
        it.sendto(b"%d" % number, ("10.0.0.2", 7))
    wire.carry()
    wire.drop(1)
    wire.swap(0, 3)
    wire.duplicate(1)
    assert [int(way.packet[28:]) for way in wire.under_way] == [4, 2, 3, 0, 2]
    assert [(way.sender, way.wait) for way in wire.under_way] == [(one, 0)] * wire.in_flight
    assert wire.in_flight == 5
    for call in (wire.drop, wire.duplicate, lambda at: wire.swap(0, at)):
        with pytest.raises(ValueError):
            call(5)
    wire.run()
    assert numbers_of(to) == [4, 2, 3, 0, 2]
    assert wire.carried.lost == 0 and wire.under_way == []
    with pytest.raises(ValueError, match="no packet is in flight"):
        wire.drop(0)


def test_milliseconds(pair):
    """A packet arrives after its delay, each moment is seen once, and ticks fall at 500, 1,000, .. ms."""
    one, other, it, to = pair
    wire, came = bsdudp.Wire([one, other], delay=(20, 20)), []

    def see():
        came.append((wire.now, to.recv()))

    it.sendto(b"first", ("10.0.0.2", 7))
    wire.advance(15)
    it.sendto(b"second", ("10.0.0.2", 7))
    assert wire.now == 15
    wire.advance(10, see)
    wire.advance(475, see)
    assert wire.now == 500
    assert came == [(20, b"first"), (35, b"second")]
    with bsdudp.Stack("10.0.0.9") as far:
        far.socket().sendto(bytes(3000), ("10.0.0.2", 7))
        other.rx(far.tx())
    (held,) = other.unfinished
    wire.advance(499)
    assert other.unfinished[0].ticks == held.ticks
    wire.advance(1)
    assert other.unfinished[0].ticks == held.ticks - 1
    wire.tick()
    assert (wire.now, other.unfinished[0].ticks) == (1500, held.ticks - 2)
    wire.advance(29_000)
    assert other.unfinished == [] and wire.now == 30_500
    assert other.counters["ip.fragtimeout"] == 1


def test_a_reply_leaves_in_the_next_millisecond(pair):
    one, other, it, to = pair
    wire, times = bsdudp.Wire([one, other], delay=(5, 5)), []

    def reply():
        for ready in (*one.readable(), *other.readable()):
            _, sender = ready.recvfrom()
            times.append(wire.now)
            ready.sendto(b"ping", sender)

    it.sendto(b"ping", ("10.0.0.2", 7))
    wire.advance(30, reply)
    assert times == [5, 11, 17, 23, 29]


def test_what_a_wire_joins():
    with pytest.raises(ValueError, match="at least one stack"):
        bsdudp.Wire([])
    with bsdudp.Stack() as one, bsdudp.Stack("10.0.0.2") as other, pytest.raises(TypeError, match=r"Wire\(\[a, b\]\)"):
        bsdudp.Wire(one, other)
    with bsdudp.Host() as host, pytest.raises(TypeError, match="transmit and receive"):
        bsdudp.Wire([host])
    with bsdudp.Stack() as one, bsdudp.Stack() as other, pytest.raises(ValueError, match=r"the address 10\.0\.0\.1"):
        bsdudp.Wire([one, other])
    with pytest.raises(TypeError, match="must join Stacks, not str"):
        bsdudp.Wire(["10.0.0.1"])
    with bsdudp.Stack() as stack:
        assert bsdudp.Wire(iter([stack])).stacks == (stack,)


def test_two_wires_of_one_stack(pair):
    """A packet is on the wire that carries next, also if another one was made later, or is gone."""
    one, other, it, to = pair
    first = bsdudp.Wire([one, other])
    assert bsdudp.Wire([one]).run()
    second = bsdudp.Wire([one, other])
    for at, wire in enumerate((first, second, first)):
        send_numbers(it, wire, [at])
    assert numbers_of(to) == [0, 1, 2]
    assert (first.carried.sent, second.carried.sent) == (2, 1)


def test_packets_before_a_full_queue_are_carried(pair):
    """A send that fails for the output queue has queued its first packets."""
    one, other, it, to = pair
    wire = bsdudp.Wire([one, other])
    wire.run()
    sent = 0
    with pytest.raises(bsdudp.NoBuffersError) as fault:
        for _ in range(60):
            it.sendto(bytes(3000), ("10.0.0.2", 7))
            sent += 1
    assert fault.value.lack == "queue" and one.output_len == 50 and sent == 16
    wire.run()
    assert wire.carried.sent == 50


def calls_of_a_datagram(count, monkeypatch):
    """Returns how many calls of the library a datagram of three fragments and a tick take, on a wire of some stacks."""
    stacks = [bsdudp.Stack(f"10.0.{at >> 8}.{at & 255}", "10.255.255.255", mbufs=64, clusters=8) for at in range(count)]
    wire, it, to = bsdudp.Wire(stacks), stacks[0].socket(), stacks[-1].socket()
    to.bind(("", 7))
    wire.run()
    wire.tick()
    library, calls = bsdudp._library.LIBRARY, []
    call = library.call
    monkeypatch.setattr(library, "call", lambda name, *rest: calls.append(name) or call(name, *rest))
    it.sendto(bytes(3000), (stacks[-1].addr, 7))
    wire.run()
    wire.advance(10_000)
    monkeypatch.undo()
    assert len(to.recv()) == 3000
    return calls


def test_cost_does_not_grow_with_the_stacks(monkeypatch):
    assert calls_of_a_datagram(300, monkeypatch) == calls_of_a_datagram(2, monkeypatch)


def test_every_stack_that_holds_fragments_ages(pair):
    """Also if they came past the wire, or were there before."""
    one, other, it, to = pair
    it.sendto(bytes(2000), ("10.0.0.2", 7))
    first, second = one.packets()
    other.rx(first)
    wire = bsdudp.Wire([one, other])
    wire.tick(59)
    assert [held.ticks for held in other.unfinished] == [1]
    wire.tick()
    assert other.unfinished == []
    wire.tick(5)
    other.rx(second)
    wire.tick(2)
    assert [held.ticks for held in other.unfinished] == [58]
    wire.advance(29_000)
    assert other.unfinished == [] and other.counters["ip.fragtimeout"] == 2


def bound_to(stack, port):
    socket = stack.socket()
    socket.bind(("", port))
    return socket


def bound(stack):
    return bound_to(stack, 7)


def test_ancillary_data_over_a_wire():
    """A datagram that a wire brought has the notes that its socket wants: the time to live of its packet."""
    a, b = bsdudp.Stack("10.0.0.1"), bsdudp.Stack("10.0.0.2")
    wire, socket = bsdudp.Wire([a, b]), bound(b)
    socket.setsockopt(host.IPPROTO_IP, bsdudp.IP_RECVTTL, 1)
    a.socket().sendto(b"hi", ("10.0.0.2", 7))
    assert wire.run()
    data, messages, flags, sender = socket.recvmsg(100, 100)
    assert (data, flags, sender) == (b"hi", 0, ("10.0.0.1", 1024))
    assert messages == [(host.IPPROTO_IP, host.IP_TTL, (64).to_bytes(4, sys.byteorder))]


def test_a_broadcast_and_two_networks():
    """Each stack on the wire gets it. That of another network isn't a router, so it drops and counts it."""
    stacks = [bsdudp.Stack(addr) for addr in ("10.0.0.1", "10.0.0.2", "10.0.1.1")]
    sockets = [bound(stack) for stack in stacks]
    sockets[0].setsockopt(host.SOL_SOCKET, host.SO_BROADCAST, 1)
    sockets[0].sendto(b"all", ("10.0.0.255", 7))
    wire = bsdudp.Wire(stacks)
    assert wire.run()
    assert [socket.waiting is not None for socket in sockets] == [True, True, False]
    assert wire.carried.delivered == 2
    assert [stack.counters["ip.cantforward"] for stack in stacks] == [0, 0, 1]


def test_an_address_that_another_stack_broadcasts_to():
    """It's joined. What the first sends there is a broadcast, which each other stack gets."""
    stacks = [bsdudp.Stack("10.0.0.1", bcast="10.0.0.2"), bsdudp.Stack("10.0.0.2"), bsdudp.Stack("10.0.0.3")]
    to = bound(stacks[1])
    sender = stacks[0].socket()
    sender.setsockopt(host.SOL_SOCKET, host.SO_BROADCAST, 1)
    sender.sendto(b"hi", ("10.0.0.2", 7))
    wire = bsdudp.Wire(stacks)
    assert wire.run()
    assert to.recv() == b"hi"
    assert wire.carried.delivered == 2
    assert stacks[2].counters["ip.cantforward"] == 1


def test_a_subclass_on_a_wire():
    """A wire calls the methods of a subclass for each packet."""

    class Watched(bsdudp.Stack):
        def __init__(self, addr):
            super().__init__(addr)
            self.received, self.sent = [], []

        def rx(self, packet):
            self.received.append(len(packet))
            super().rx(packet)

        def packets(self):
            for packet in super().packets():
                self.sent.append(len(packet))
                yield packet

    a, b = Watched("10.0.0.1"), Watched("10.0.0.2")
    wire, socket = bsdudp.Wire([a, b]), bound(b)
    a.socket().sendto(b"hi", ("10.0.0.2", 7))
    assert wire.run()
    assert socket.recv() == b"hi"
    assert (a.sent, a.received, b.sent, b.received) == ([30], [], [], [30])


def test_a_stack_that_ended_on_a_wire():
    """A packet for it raises the exception that any call on it raises."""
    a, b = bsdudp.Stack("10.0.0.1"), bsdudp.Stack("10.0.0.2")
    wire = bsdudp.Wire([a, b], delay=(1, 1))
    a.socket().sendto(b"hi", ("10.0.0.2", 7))
    assert wire.carry() == 0
    b.end()
    with pytest.raises(ValueError, match="the stack has ended"):
        wire.carry()


def test_ready():
    """The sockets that have a datagram, whatever brought it: the wire, a call of rx, or the stack itself."""
    stacks = [bsdudp.Stack(f"10.0.0.{at}") for at in (1, 2, 3)]
    sockets = [bound(stack) for stack in stacks]
    wire = bsdudp.Wire(stacks)
    assert wire.ready() == []
    sockets[2].sendto(b"over the wire", ("10.0.0.2", 7))
    assert wire.ready() == []
    assert wire.run()
    assert wire.ready() == [sockets[1]]
    sockets[0].sendto(b"to itself", ("10.0.0.1", 7))
    assert wire.ready() == sockets[:2]
    assert [socket.recv() for socket in wire.ready()] == [b"to itself", b"over the wire"]
    assert wire.ready() == []
    sockets[0].sendto(b"by hand", ("10.0.0.3", 7))
    stacks[2].rx(stacks[0].tx())
    second = bound_to(stacks[2], 8)
    sockets[1].sendto(b"again", ("10.0.0.3", 8))
    assert wire.run()
    assert wire.ready() == [sockets[2], second]
    twin = wire.copy()
    assert [socket.recv() for socket in twin.ready()] == [b"by hand", b"again"]
    assert (twin.ready(), wire.ready()) == ([], [sockets[2], second])
    stacks[2].end()
    assert wire.ready() == []


def test_ready_asks_only_stacks_that_received():
    """It's for many stacks: one that received nothing isn't asked again."""
    asked = []

    class Asked(bsdudp.Stack):
        def readable(self):
            asked.append(self.addr)
            return super().readable()

    stacks = [Asked(f"10.0.0.{at}") for at in range(1, 9)]
    sockets = [bound(stack) for stack in stacks]
    wire = bsdudp.Wire(stacks)
    assert (wire.ready(), len(asked)) == ([], 8)
    asked.clear()
    sockets[3].sendto(b"hi", ("10.0.0.2", 7))
    assert wire.run()
    assert wire.ready() == [sockets[1]]
    assert asked == ["10.0.0.2", "10.0.0.4"]
    asked.clear()
    assert wire.ready() == [sockets[1]]
    assert asked == ["10.0.0.2"]
