"""What `Stack.rx` returns. Packets are scapy's; which socket gets a datagram is worked out by hand."""
import socket as host

import pytest

from tests.python.package import bsdudp

pytestmark = pytest.mark.needs("cc", "scapy")


@pytest.fixture
def stack():
    with bsdudp.Stack("10.0.0.1") as it:
        yield it


def datagram(to="10.0.0.1", port=7, data=b"hi", **fields):
    from scapy.all import IP, UDP, Raw  # noqa: PLC0415

    return IP(src="10.0.0.2", dst=to, **fields) / UDP(sport=5000, dport=port) / Raw(data)


def shared(stack, size=None):
    """Opens two sockets with port 7."""
    opened = stack.socket(), stack.socket()
    for it in opened:
        it.setsockopt(host.SOL_SOCKET, host.SO_REUSEPORT, 1)
        if size is not None:
            it.setsockopt(host.SOL_SOCKET, host.SO_RCVBUF, size)
        it.bind(("", 7))
    return opened


def test_delivered(stack):
    """The newer of two sockets gets a datagram, and both get a broadcast."""
    older, newer = shared(stack)
    fate = stack.rx(datagram())
    assert fate == bsdudp.Fate("delivered", got=(newer,))
    assert (fate.cause, fate.counter, fate.completed) == (None, None, False)
    assert repr(fate) == "<Fate: delivered, got by 4>"
    assert stack.rx(datagram("10.0.0.255")).got == (older, newer)


def test_lost(stack):
    """A queue of 200 bytes has room for one datagram of 100 with its sender's 16."""
    older, newer = shared(stack, 200)
    assert stack.rx(datagram(data=bytes(100))).got == (newer,)
    fate = stack.rx(datagram("10.0.0.255", data=bytes(100)))
    assert fate == bsdudp.Fate("delivered", got=(older,), lost=(newer,))
    assert repr(fate) == "<Fate: delivered, got by 3, lost by 4>"


def test_dropped(stack):
    before = stack.counters
    fate = stack.rx(datagram())
    assert fate == bsdudp.Fate("dropped", counter="udp.noport")
    assert stack.why(before) == [fate.cause] and repr(fate) == f"<Fate: dropped, {fate.cause}>"


@pytest.mark.parametrize("is_heard", [True, False])
def test_fragments(stack, is_heard):
    """The fragment that completes a datagram has the datagram's fate."""
    from scapy.all import fragment  # noqa: PLC0415

    it = stack.socket()
    it.bind(("", 7 if is_heard else 8))
    *others, last = fragment(datagram(data=bytes(2000), id=5), 800)
    for piece in others:
        assert stack.rx(piece) == bsdudp.Fate("kept")
    assert stack.rx(others[0]).counter == "ip.fragdropped"
    kind, got, counter = "delivered", (it,), None
    if not is_heard:
        kind, got, counter = "dropped", (), "udp.noport"
    assert stack.rx(last) == bsdudp.Fate(kind, got, counter=counter, completed=True)


def test_ticks_of_a_wire(stack):
    """A wire's ticks reach each stack to which a fragment was passed."""
    from scapy.all import fragment  # noqa: PLC0415

    wire = bsdudp.Wire([stack])
    wire.tick(1)
    stack.rx(fragment(datagram(data=bytes(2000)), 800)[0])
    wire.tick(60)
    assert stack.unfinished == [] and stack.counters["ip.fragtimeout"] == 1


def test_host():
    """A frame with ARP has no fate."""
    from scapy.all import ARP, Ether  # noqa: PLC0415

    with bsdudp.Host("10.0.0.1", mac="02:00:00:00:00:01") as it:
        card = Ether(dst=it.mac, src="02:00:00:00:00:02")
        inbox = it.socket()
        inbox.bind(("", 7))
        assert it.receive(card / ARP(psrc="10.0.0.2", pdst="10.0.0.1")) is None
        assert it.receive(card / datagram()) == bsdudp.Fate("delivered", got=(inbox,))
        assert it.receive(card / datagram(port=9)).counter == "udp.noport"
