"""Two stacks: the packets of one datagram reach the other last first, each twice."""
import pytest

from tests.python.package import bsdudp

BYTES = bytes(k % 251 for k in range(9216))


def test_packets_that_come_last_first_and_twice():
    """The datagram is received once. The second copies of its later packets are one more datagram, never whole."""
    with bsdudp.Stack("10.0.0.1") as first, bsdudp.Stack("10.0.0.2") as second:
        to = second.socket()
        to.bind(("", 7))
        assert first.socket().sendto(BYTES, ("10.0.0.2", 7)) == len(BYTES)
        packets = list(first.packets())
        assert len(packets) == 7
        for packet in reversed(packets):
            second.rx(packet)
            second.rx(packet)
        counted = {"ip.total": 14, "ip.fragments": 14, "ip.fragdropped": 6, "ip.reassembled": 1}
        assert to.recvfrom(9216) == (BYTES, ("10.0.0.1", 1024))
        assert {name: n for name, n in second.counters.items() if n} == counted
        with pytest.raises(BlockingIOError):
            to.recvfrom()
        second.tick(60)
        assert second.counters["ip.fragtimeout"] == 1
        usage = second.mbstat
        assert (usage.free_mbufs, usage.free_clusters) == (usage.mbufs, usage.clusters)
