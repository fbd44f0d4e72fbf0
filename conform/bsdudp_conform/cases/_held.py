"""Datagrams that wait while no program reads. Their bytes are different, so that each can be recognised."""
from __future__ import annotations

from typing import List, Sequence

from .._addresses import BROADCAST, PEER2
from .._case import Hold, Open, ReadHeld, Send
from .._packets import CLOSED_PORT, packet, pieces, udp
from ._builder import Builder, Given

SECOND = 70
SIZES = (0, 1, 10, 100, 500, 548, 1472)


def add_held(to: Builder) -> None:
    add_one(to)
    add_orders(to)
    add_partial_reads(to)
    add_many(to)


def numbered(to: Builder, count: int, size: int = 10, **fields: int) -> List[bytes]:
    """Whole datagrams of one size, each from another port."""
    return [packet(udp(to.data(size), sport=5000 + it, **fields), id=to.id) for it in range(count)]


def held(steps: Sequence[Given]) -> List[Given]:
    """The first socket is held, the steps follow, and then all is read: up to one more than packets came."""
    return [Hold(0), *steps, ReadHeld(0, 1 + sum(isinstance(it, bytes) for it in steps))]


def add_one(to: Builder) -> None:
    rule = "hold.lost"
    for size in SIZES:
        to.add(rule, f"one datagram of {size} bytes", held(numbered(to, 1, size)))
    to.add(rule, "one in fragments", held(to.halves()))
    to.add(rule, "one, read after 130 s", held([*numbered(to, 1), 130000]))
    to.add(rule, "none, and a read", held([]))
    others: List[Given] = [
        packet(udp(to.data(10), check=0x1111)),
        packet(udp(to.data(10), dport=CLOSED_PORT)),
        *to.halves()[:1],
        packet(udp(to.data(9), dport=SECOND)),
    ]
    to.add(rule, "one, and then packets that aren't for its socket", held([*numbered(to, 1), *others]))
    two: List[Given] = [Open(1, SECOND), *numbered(to, 1), *numbered(to, 3, dport=SECOND)]
    to.add(rule, "one, and then three for another socket, which is read at once", held(two))
    to.add(rule, "one, and then its socket sends", held([*numbered(to, 1), Send(0, PEER2, 6, to.data(20))]))
    to.add(rule, "a broadcast", held([packet(udp(to.data(10), destination=BROADCAST), destination=BROADCAST)]))
    one = numbered(to, 1)
    to.add(rule, "one, a read, and a read of nothing", [*held(one), ReadHeld(0, 2)])
    to.add(rule, "a read of nothing, and then one", [Hold(0), ReadHeld(0, 1), *numbered(to, 1), ReadHeld(0, 2)])


def add_orders(to: Builder) -> None:
    rule = "hold.order"
    for count in (2, 3, 5, 8, 20):
        to.add(rule, f"{count} datagrams of one length", held(numbered(to, count)))
        mixed = [packet(udp(to.data(7 * it % 40), sport=6000 + it), id=to.id) for it in range(count)]
        to.add(rule, f"{count} datagrams of different lengths", held(mixed))
    to.add(rule, "3 without data", held(numbered(to, 3, 0)))
    for size in (1, 200, 1400):
        to.add(rule, f"3 of {size} bytes", held(numbered(to, 3, size)))
    two = numbered(to, 2) + [packet(udp(to.data(10), source=PEER2), source=PEER2, id=to.id) for _ in range(2)]
    to.add(rule, "of two senders in turn", held([two[0], two[2], two[1], two[3]]))
    one, other = to.halves()
    between = held([one, *numbered(to, 1), other])
    to.add(rule, "a whole one between two fragments: the whole one was there first", between)
    both: List[Given] = [Open(1, SECOND), Hold(0), Hold(1)]
    first, second = numbered(to, 3), numbered(to, 3, dport=SECOND)
    for pair in zip(first, second):
        both += pair
    to.add(rule, "two sockets, datagrams for each in turn", [*both, ReadHeld(1, 4), ReadHeld(0, 4)])


def add_partial_reads(to: Builder) -> None:
    rule = "hold.order"
    for take in (1, 2):
        early, late = numbered(to, 3), numbered(to, 3, 10, dport=7)
        steps: List[Given] = [Hold(0), *early, ReadHeld(0, take), *late, ReadHeld(0, 7)]
        to.add(rule, f"3 come, {take} is read, 3 come, all are read", steps)
    in_turn: List[Given] = [Hold(0)]
    for it in numbered(to, 6):
        in_turn += [it, ReadHeld(0, 1)]
    to.add(rule, "6 datagrams, a read after each", in_turn)


def add_many(to: Builder) -> None:
    rule = "hold.many"
    for size, counts in ((0, (100, 400, 1500)), (10, (100, 400)), (1400, (50,))):
        for count in counts:
            steps = [*held(numbered(to, count, size)), *numbered(to, 1), ReadHeld(0, 2)]
            to.add(rule, f"{count} of {size} bytes, then a read, then one more", steps)
