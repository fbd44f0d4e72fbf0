"""Receive limits in random calls, compared with plain lists: what a queue holds is added up from the sizes of mbufs."""
import random
import socket as host

import pytest

from tests.packets import PEER, datagram
from tests.python.package import bsdudp

STEPS, PORTS = 1500, (7, 8, 9)
LIMITS = [1, 16, 127, 128, 191, 192, 512, 1151, 1152, 1488, 2304, 8192, 41_600, 65_535]
LENGTHS = [0, 1, 72, 73, 171, 172, 179, 180, 181, 400, 1472, 2020, 2021, 4068]


def memory(length):
    """Returns the bytes of the mbufs and clusters that a packet of this length takes when it arrives."""
    taken, room = 0, 100
    while taken == 0 or length > 0:
        taken += 128 + (2048 if length >= 208 else 0)
        length -= 2048 if length >= 208 else min(length, room)
        room = 108
    return taken


def fits(limit, queue, length, own):
    octets = sum(16 + len(data) for data, _ in queue)
    held = sum(it for _, it in queue)
    if limit is None:
        return 16 + length + octets <= 41_600 and 16 + length + held <= 83_200
    return 16 + length + octets <= limit and 128 + own + held <= 2 * limit


def book(limit, queue, length, own):
    """4.4BSD's own test: what a datagram takes itself doesn't count."""
    return fits(limit, queue, length, 16 + length - 128)


def without_address(limit, queue, length, own):
    return fits(limit, queue, length, own - 128)


def one_limit_for_all(limit, queue, length, own):
    return fits(1488, queue, length, own)


def differs(seed, rule):
    """Returns the first step after which a stack and the lists differ, or None."""
    chance = random.Random(seed)
    stack = bsdudp.Stack("10.0.0.1", mbufs=8000, clusters=1000)
    sockets, limits, queues, full = {}, {}, {}, 0

    def opened(port):
        sockets[port], limits[port], queues[port] = stack.socket(), None, []
        sockets[port].bind(("", port))

    for port in PORTS:
        opened(port)
    for step in range(STEPS):
        port, what = chance.choice(PORTS), chance.random()
        if what < 0.04:
            limits[port] = chance.choice(LIMITS)
            sockets[port].setsockopt(host.SOL_SOCKET, host.SO_RCVBUF, limits[port])
        elif what < 0.06:
            sockets[port].close()
            opened(port)
        elif what < 0.2 and queues[port]:
            if sockets[port].recvfrom(65_535) != (queues[port].pop(0)[0], (PEER, 5000)):
                return step
        else:
            data = chance.randbytes(chance.choice(LENGTHS))
            packet = datagram(data, (5000, port), ident=step) + bytes(chance.choice([0, 0, 1, 18, 300, 5000]))
            stack.rx(packet)
            own = memory(len(packet))
            if rule(limits[port], queues[port], len(data), own):
                queues[port].append((data, 128 + own))
            else:
                full += 1
        waiting = sockets[port].waiting
        if (waiting[2] if waiting else 0, stack.counters["udp.fullsock"]) != (len(queues[port]), full):
            return step
    return None


@pytest.mark.parametrize("seed", range(6))
def test_a_queue_holds_what_its_limit_allows(seed):
    assert differs(seed, fits) is None


@pytest.mark.parametrize("rule", [book, without_address, one_limit_for_all])
def test_another_rule_differs(rule):
    assert differs(0, rule) is not None
