"""MSG_PEEK, compared with Linux's own: the same calls on a socket of a stack and on one of Linux's loopback."""
import socket as host
import warnings

import pytest

from tests.python.package import bsdudp

PEEK = host.MSG_PEEK
SENT = (b"hello", b"", bytes(range(250)) * 16, b"end")


def received(it, sender):
    """Peeks at each datagram and takes it, and returns the results."""
    came = []
    for _ in SENT:
        came += [it.recv(2, PEEK), it.recv(5000, PEEK), it.recvfrom(5000, PEEK), it.recvfrom(0, PEEK)]
        for call in (it.recv_into, it.recvfrom_into):
            few, room = bytearray(3), bytearray(b"-" * 5000)
            came += [call(few, 0, PEEK), few, call(room, 4, PEEK), call(room, 0, PEEK), room]
        came.append(it.recvfrom(5000))
    for call in (it.recv, it.recvfrom):
        with pytest.raises(BlockingIOError):
            call(10, PEEK)
    it.close()
    with pytest.raises(OSError):
        it.recv(10, PEEK)
    rows = (row if isinstance(row, tuple) else [row] for row in came)
    return ["the sender" if one == sender else one for row in rows for one in row]


def of_linux():
    with host.socket(host.AF_INET, host.SOCK_DGRAM) as it, host.socket(host.AF_INET, host.SOCK_DGRAM) as other:
        it.setblocking(False)
        for one in (it, other):
            one.bind(("127.0.0.1", 0))
        for data in SENT:
            other.sendto(data, it.getsockname())
        return received(it, other.getsockname())


@pytest.mark.parametrize("mtu", [1500, 120])
def test_as_linux(mtu):
    """The same, also of a datagram that is in many mbufs because it came in many fragments."""
    with bsdudp.Stack("10.0.0.1", mtu=mtu) as first, bsdudp.Stack("10.0.0.2") as second, warnings.catch_warnings():
        warnings.simplefilter("error")  # nothing is lost
        it, other = second.socket(), first.socket()
        it.bind(("10.0.0.2", 7))
        other.bind(("10.0.0.1", 8))
        for data in SENT:
            other.sendto(data, ("10.0.0.2", 7))
            for packet in first.packets():
                second.rx(packet)
        assert received(it, ("10.0.0.1", 8)) == of_linux()
        usage = second.mbstat
        assert (usage.free_mbufs, usage.free_clusters) == (usage.mbufs, usage.clusters)


def test_other_flags():
    with bsdudp.Stack("10.0.0.1") as stack:
        it = stack.socket()
        for call in (it.recv, it.recvfrom):
            with pytest.raises(ValueError, match="MSG_PEEK"):
                call(10, PEEK | 0x20)
