"""A flood of one socket that nobody reads: without a size of its queue it silences the whole host, with one it doesn't.
The attacker's packets are whole datagrams, or fragments in packets that are padded, so that each takes a cluster."""
import socket as host

import pytest

from tests.packets import datagram, fragment
from tests.python.package import bsdudp

# The mbufs and clusters of a pool, and the sizes of both queues: of the one that is flooded, and of the one that is
# used. Their bounds, 2 * size / 128 mbufs and 2 * size / 2176 clusters, and the 3 and 1 of a send fit into the pool.
POOLS = {"README's": (64, 16, 1488, 1488), "the device's": (40, 7, 512, 1488), "the default": (512, 64, 8192, 8192)}
LENGTH, TIMES = 400, 1000


def whole(number):
    return [datagram(b"x", ident=number)]


def padded(number):
    packet = datagram(bytes(160), ident=number)
    return [fragment(packet, first, 2) + bytes(256) for first in range(0, 21, 3)]


def silenced(mbufs, clusters, size, own_size, flood):
    """Returns how many sends of another socket are refused, and how many datagrams for it are lost."""
    here, there = bsdudp.Stack("10.0.0.1", mbufs=mbufs, clusters=clusters), bsdudp.Stack("10.0.0.2")
    wire, refused, lost = bsdudp.Wire([here, there]), 0, 0
    unread, good, peer = here.socket(), here.socket(), there.socket()
    for it, port, bytes_of_queue in ((unread, 7, size), (good, 9, own_size), (peer, 5000, None)):
        it.bind(("", port))
        if bytes_of_queue:
            it.setsockopt(host.SOL_SOCKET, host.SO_RCVBUF, bytes_of_queue)
    for number in range(TIMES):
        for packet in flood(number):
            here.rx(packet)
        try:
            good.sendto(bytes(LENGTH), ("10.0.0.2", 5000))
        except bsdudp.NoBuffersError:
            refused += 1
        wire.run()
        while peer.waiting:
            peer.recv()
        peer.sendto(bytes(LENGTH), ("10.0.0.1", 9))
        wire.run()
        lost += good.waiting is None
        while good.waiting:
            good.recv()
    assert size is None or here.counters["udp.fullsock"] > TIMES // 2
    return refused, lost


@pytest.mark.parametrize("flood", [whole, padded])
@pytest.mark.parametrize("pool", POOLS)
def test_a_flood_does_not_silence_a_host(pool, flood):
    assert silenced(*POOLS[pool], flood) == (0, 0)


@pytest.mark.parametrize("flood", [whole, padded])
def test_without_a_size_it_does(flood):
    """So that the test above can fail."""
    assert min(silenced(40, 7, None, None, flood)) > TIMES * 9 // 10
