"""Timeouts and floods."""
from __future__ import annotations

from typing import List

from .._addresses import BROADCAST, PEER2, address
from .._freedom import FLOODS, TOGETHER
from .._packets import MORE, even_cuts, packet, pieces, udp, with_checksum
from ._builder import Builder, Given, both_ways


def add_limits(to: Builder) -> None:
    add_ages(to)
    add_ends_of_time(to)
    add_floods(to)


def add_ages(to: Builder) -> None:
    for seconds in (1, 4, 10, 20, 40, 58, 125, 300):
        for how in (0, 1):
            name, (one, other) = both_ways(to.halves())[how]
            rule = "frag.time.keep" if seconds < 60 else "frag.time.drop"
            to.add(rule, f"{seconds} s between the two, {name}", [one, seconds * 1000, other])
    first, second, last = pieces(udp(to.data(40)), [24, 40], id=to.id)
    middle: List[Given] = [second, 20000]
    steps = [first, *middle * 7, last]
    to.add("frag.time.drop", "the second of three each 20 s doesn't keep the first for 140 s", steps)


def add_ends_of_another(to: Builder) -> None:
    """A datagram whose two fragments arrive when another one expires, at each known timeout of stacks. The other one's
    first fragment is missing, so that no ICMP error is due."""
    for seconds in (15, 30, 60, 120):
        for how in (0, 1):
            _, stale = to.halves()
            way, (one, other) = both_ways(to.halves())[how]
            steps: List[Given] = [stale, (seconds - 1) * 1000, one, 1900, other]
            to.add("frag.time.keep", f"another's fragment is {seconds} s old between the two, {way}", steps)


def add_ends_of_several(to: Builder) -> None:
    """Several unfinished datagrams expire at once. Their first fragments are missing, so that no ICMP error is due."""
    for count in (2, 3, 5):
        for seconds in (125, 300):
            begun_ones = [to.halves() for _ in range(count)]
            lasts, firsts = ([it[half] for it in begun_ones] for half in (1, 0))
            name = f"{count} datagrams, {seconds} s between the last and the first of each"
            to.add("frag.time.drop", name, [*lasts, seconds * 1000, *firsts])


def add_ages_after_others(to: Builder) -> None:
    """A datagram's time begins with its first fragment: whatever came before with its identification, and even if
    another one expired before."""
    for seconds in (15, 30, 60, 120):
        id = to.id
        whole = pieces(udp(to.data(40)), [24], id=id)
        for way, (one, other) in both_ways(pieces(udp(to.data(40)), [24], id=id)):
            steps: List[Given] = [*whole, (seconds - 1) * 1000, one, 1900, other]
            to.add("frag.time.keep", f"its identification was another's {seconds - 1} s ago, {way}", steps)
    for seconds in (125, 300):
        (_, stale), (one, other) = to.halves(), to.halves()
        name = f"{seconds} s between the last and the first, after another datagram expired"
        to.add("frag.time.drop", name, [stale, seconds * 1000, other, seconds * 1000, one])


def add_ends_of_time(to: Builder) -> None:
    for name, which, rule in (
        ("the first of two", [0], "icmp.reass"),
        ("the first of three and the last", [0, 2], "icmp.reass"),
        ("the last and then the first of three", [2, 0], "icmp.reass"),
        ("the last of two", [-1], "icmp.reass.none"),
        ("the second of three", [1], "icmp.reass.none"),
    ):
        cuts = [24, 40] if len(which) > 1 or which == [1] else [24]
        made = pieces(udp(to.data(40)), cuts, id=to.id)
        to.add(rule, f"{name}, then 130 s", [*[made[it] for it in which], 130000])
    data = udp(to.data(40), destination=BROADCAST)
    to.add(
        "icmp.never", "reassembly of a broadcast ends", [pieces(data, [24], destination=BROADCAST, id=to.id)[0], 130000]
    )


def begun(to: Builder, count: int, spread: bool = False) -> List[bytes]:
    """First fragments of this many datagrams from another sender, or of one datagram from each of this many senders."""
    one = packet(udp(to.data(40))[:24], flags=MORE, source=PEER2)
    found = []
    for number in range(count):
        id = 0x1000 + number
        made = one[:4] + id.to_bytes(2, "big") + one[6:]
        if spread:
            made = made[:12] + (address("10.0.0.16") + number % 200).to_bytes(4, "big") + made[16:]
        found.append(with_checksum(made))
    return found


def add_floods(to: Builder) -> None:
    for count in FLOODS:
        to.add("frag.many", f"{count} begun, then a whole one", [*begun(to, count), to.whole(id=to.id)])
        to.add("frag.many", f"{count} begun, then two fragments", [*begun(to, count), *to.halves()])
        one, other = to.halves()
        to.add("frag.many", f"a first fragment, {count} others begun, then its last", [one, *begun(to, count), other])
        to.add(
            "frag.many",
            f"{count} begun by as many senders, then a whole one",
            [*begun(to, count, True), to.whole(id=to.id)],
        )
    for count in TOGETHER:
        many = [to.halves() for _ in range(count)]
        steps = [it[0] for it in many] + [it[1] for it in many]
        to.add("frag.many", f"{count} datagrams at once, firsts and then lasts", steps)
        made = udp(to.data(8 * count))
        to.add(
            "frag.many",
            f"one datagram in {count + 1} fragments of 8 bytes",
            pieces(made, even_cuts(len(made), 8), id=to.id),
        )
    for count in (64, 1024):
        good = [step for _ in range(4) for step in (*begun(to, count // 4), to.whole(id=to.id))]
        to.add("frag.many", f"{count} begun, with a whole one after each quarter", good)
