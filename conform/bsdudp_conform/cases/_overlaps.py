"""Fragments that don't fit together: overlaps, odd and empty ones, ends that disagree, bytes beyond 65,535."""
from __future__ import annotations

import itertools
from typing import List, Optional, Tuple

from .._packets import MORE, even_cuts, packet, pieces, udp
from ._builder import Builder, both_ways

# Old and new, in each of the thirteen relations that two intervals can have (Allen 1983).
RELATIONS = [
    ((16, 40), (16, 40)),
    ((16, 40), (24, 48)),
    ((24, 48), (16, 40)),
    ((16, 48), (24, 40)),
    ((24, 40), (16, 48)),
    ((16, 32), (16, 48)),
    ((16, 48), (16, 32)),
    ((32, 48), (16, 48)),
    ((16, 48), (32, 48)),
    ((8, 16), (8, 56)),
    ((48, 56), (8, 56)),
    ((8, 56), (48, 56)),
    ((16, 40), (32, 56)),
]
Span = Tuple[int, int]


def add_overlaps(to: Builder) -> None:
    add_fits(to, None)
    add_novak(to)
    add_odd(to)
    add_empty(to)
    add_ends(to)
    add_beyond(to)


def add_overlaps_without_checksum(to: Builder) -> None:
    """A checksum hides what happened to the bytes: a wrongly reassembled datagram is dropped, and a stack may drop all
    overlaps."""
    add_fits(to, 0)
    add_as_long_as_the_hole(to)


def add_fits(to: Builder, check: Optional[int]) -> None:
    """Overlaps in datagrams with a checksum (None), or without (0)."""
    for differ in (False, True):
        for old, new in RELATIONS:
            for ends_first in (False, True):
                add_relation(to, old, new, differ, ends_first, check)
        for old, new in itertools.product(spans(), spans()):
            if check is None or max(old[0], new[0]) < min(old[1], new[1]):
                add_relation(to, old, new, differ, True, check)
    for number in range(200):
        add_three(to, number, check)
    add_known_attacks(to, check)


def spans() -> List[Span]:
    """All spans of whole eights inside a datagram of 40 bytes, except its first and last eight."""
    return [(begin, end) for begin in range(8, 32, 8) for end in range(begin + 8, 40, 8)]


def swapped(data: bytes) -> bytes:
    """Other bytes with the same sum: whichever bytes are kept, in multiples of 4, the UDP checksum is right."""
    whole = len(data) // 4 * 4
    return b"".join(data[at + 2 : at + 4] + data[at : at + 2] for at in range(0, whole, 4)) + data[whole:]


def rivals(to: Builder, check: Optional[int]) -> Tuple[bytes, bytes]:
    """A datagram of 64 bytes, and other bytes at the same offsets. Without a checksum, each byte of the data differs,
    and the UDP header is the same."""
    base = udp(to.data(56), check=check)
    if check is None:
        return base, swapped(base)
    return base, base[:8] + bytes((it + to.random.randrange(1, 256)) % 256 for it in base[8:])


def without(check: Optional[int]) -> str:
    """The end of a case's title."""
    return "" if check is None else ", no checksum"


def add_relation(to: Builder, old: Span, new: Span, differ: bool, ends_first: bool, check: Optional[int]) -> None:
    base, rival = rivals(to, check)
    other = rival if differ else base
    id = to.id

    def fragment(data: bytes, begin: int, end: int) -> bytes:
        return packet(data[begin:end], offset=begin, flags=MORE if end < 64 else 0, id=id)

    body = [fragment(base, *old), fragment(other, *new)]
    rest = [(0, min(old[0], new[0])), (max(old[1], new[1]), 64)]
    if max(old[0], new[0]) > min(old[1], new[1]):
        rest.append((min(old[1], new[1]), max(old[0], new[0])))
    tail = [fragment(base, begin, end) for begin, end in rest if begin < end]
    steps = tail[::-1] + body if ends_first else body + tail
    rule = "frag.overlap.differ" if differ else "frag.overlap.same"
    when = "first" if ends_first else "last"
    to.add(rule, f"old {old[0]}-{old[1]}, new {new[0]}-{new[1]}, ends {when}{without(check)}", steps)


def add_three(to: Builder, number: int, check: Optional[int]) -> None:
    """Three random overlapping spans, then the ends, all from one datagram or with other bytes."""
    base, rival = rivals(to, check)
    variants = [base, rival] if number % 2 else [base]
    id, picked = to.id, [to.random.choice(spans()) for _ in range(3)]
    body = [packet(to.random.choice(variants)[begin:end], offset=begin, flags=MORE, id=id) for begin, end in picked]
    ends = [
        packet(base[:8], flags=MORE, id=id),
        packet(base[8:40], offset=8, flags=MORE, id=id),
        packet(base[40:], offset=40, id=id),
    ]
    told = ", ".join(f"{begin}-{end}" for begin, end in picked)
    rule = "frag.overlap.differ" if number % 2 else "frag.overlap.same"
    to.add(rule, f"{told}, then all of it{without(check)}", body + ends)


ATTACKS = {
    "new over two old ones": ((8, 24, 0), (24, 40, 0), (0, 8, 0), (16, 32, 1), (40, 64, 0)),
    "new bridges a hole": ((8, 24, 0), (32, 48, 0), (16, 40, 1), (0, 8, 0), (48, 64, 0)),
    "new over all": ((8, 16, 0), (24, 32, 0), (40, 48, 0), (0, 56, 1), (56, 64, 0)),
    "teardrop": ((0, 40, 0), (24, 32, 1), (40, 64, 0)),
    "header overwritten by a later piece": ((0, 8, 0), (0, 16, 1), (8, 64, 0)),
    "offset 8 over the UDP data (RFC 3128)": ((0, 16, 0), (8, 64, 1)),
}


def add_known_attacks(to: Builder, check: Optional[int]) -> None:
    base, rival = rivals(to, check)
    for name, sequence in ATTACKS.items():
        id = to.id
        steps = [
            packet((rival if other else base)[begin:end], offset=begin, flags=MORE if end < 64 else 0, id=id)
            for begin, end, other in sequence
        ]
        to.add("frag.overlap.differ", f"{name}{without(check)}", steps)
    id = to.id
    to.add(
        "frag.overlap.differ",
        f"teardrop, last inside{without(check)}",
        [packet(base[:40], flags=MORE, id=id), packet(rival[24:36], offset=24, id=id)],
    )


def add_novak(to: Builder) -> None:
    id = to.id
    head = udp(bytes(88), check=0)[:8]
    spots = ((0, 24), (32, 48), (48, 72), (8, 40), (48, 72), (72, 96))
    novak = [
        packet(
            (head if not begin else b"") + bytes([0x31 + at]) * (end - begin - (0 if begin else 8)),
            offset=begin,
            flags=MORE if end < 96 else 0,
            id=id,
        )
        for at, (begin, end) in enumerate(spots)
    ]
    to.add("frag.overlap.differ", "six pieces, after Novak's paper on target-based reassembly", novak)


HOLES = {
    "32-48": ((0, 24), (8, 32), (48, 64)),
    "32-48, the second inside": ((0, 32), (8, 24), (48, 64)),
    "24-40": ((0, 24), (40, 64), (40, 56)),
}


def add_as_long_as_the_hole(to: Builder) -> None:
    """The number of bytes that arrive is that of the datagram, but some arrive twice."""
    for name, spots in HOLES.items():
        for order in itertools.permutations(spots):
            id, data = to.id, udp(to.data(56), check=0)
            flags = [MORE if end < 64 else 0 for _, end in order]
            steps = [packet(data[a:b], offset=a, flags=flag, id=id) for (a, b), flag in zip(order, flags)]
            told = ", ".join(f"{begin}-{end}" for begin, end in order)
            to.add("frag.hole", f"an overlap as long as the hole {name}: {told}, no checksum", steps)


def add_odd(to: Builder) -> None:
    for size in (1, 4, 7, 9, 12, 13, 15, 20):
        for lead in (0, 16):
            up, down = -(-size // 8) * 8, size // 8 * 8
            name = f"{'middle' if lead else 'first'} of {size} bytes"
            base = udp(to.data(40), check=None if size % 2 else 0)
            to.add("frag.odd", f"{name}, the next begins at its next multiple of 8", odd(to, base, lead, size, [], up))
            if down or lead:
                to.add("frag.odd", f"{name}, the next begins within", odd(to, base, lead, size, [], down))
            to.add("frag.odd", f"{name}, then a good one in its place", odd(to, base, lead, size, [up], up))


def odd(to: Builder, base: bytes, lead: int, size: int, good: List[int], then: int) -> List[bytes]:
    """An odd piece after `lead` bytes, perhaps a good one in its place, and the last from `then` on."""
    id = to.id
    made = [packet(base[:lead], flags=MORE, id=id)] if lead else []
    made += [packet(base[lead : lead + length], offset=lead, flags=MORE, id=id) for length in [size, *good]]
    return [*made, packet(base[lead + then :], offset=lead + then, id=id)]


def add_empty(to: Builder) -> None:
    for where in (0, 8, 16, 64, 65528):
        for more in (True, False):
            for place in (0, 1, 2):
                if where or more:
                    id = to.id
                    made = pieces(udp(to.data(56)), [24], id=id)
                    made.insert(place, packet(b"", offset=where, flags=MORE if more else 0, id=id))
                    to.add("frag.empty", f"no data at {where}, more {int(more)}, at place {place}", made)


ENDS = {
    "two ends, the greater later": ((0, 24, 1), (48, 56, 0), (24, 48, 0)),
    "two ends, the smaller first": ((24, 40, 0), (40, 64, 0), (0, 24, 1)),
    "the smaller end later": ((0, 24, 1), (40, 64, 0), (24, 40, 0)),
    "the same begin, ends 40 and 64": ((24, 40, 0), (24, 64, 0), (0, 24, 1)),
    "the same begin, ends 64 and 40": ((24, 64, 0), (24, 40, 0), (0, 24, 1)),
    "more after the last": ((24, 40, 0), (40, 64, 1), (0, 24, 1)),
    "more after the last, the last later": ((40, 64, 1), (24, 40, 0), (0, 24, 1)),
    "more after the last, then a greater last": ((24, 40, 0), (40, 56, 1), (56, 64, 0), (0, 24, 1)),
}


def add_ends(to: Builder) -> None:
    for name, sequence in ENDS.items():
        for length in (40, 64):
            for check in (None, 0):
                data = udp(to.data(56), length=length, check=check)
                id = to.id
                steps = [
                    packet(data[begin:end], offset=begin, flags=MORE if more else 0, id=id)
                    for begin, end, more in sequence
                ]
                to.add("frag.ends", f"{name}, UDP length {length}{'' if check is None else ', no checksum'}", steps)
    for size in (8192, 16384):
        id = to.id
        data = udp(to.data(65520), length=65528, check=0)
        steps = [packet(data[8:16], offset=8, id=id)]
        steps += [
            packet(data[at : min(at + size, 65528)], offset=at, flags=MORE, id=id) for at in range(16, 65528, size)
        ]
        steps += [packet(data[:8], flags=MORE, id=id), to.whole(id=to.id)]
        to.add("frag.ends", f"a last at 8-16, then more up to 65,528 by {size}; then a good datagram", steps)


def add_beyond(to: Builder) -> None:
    for offset, size, more in (
        (65528, 1, 0),
        (65528, 7, 0),
        (65528, 8, 0),
        (65528, 8, 1),
        (65528, 1400, 0),
        (65520, 1000, 1),
        (65512, 4, 0),
        (65512, 24, 0),
        (64512, 1480, 0),
        (65528, 40000, 0),
        (65112, 65515, 0),
    ):
        id = to.id
        bad = packet(to.data(size), offset=offset, flags=MORE if more else 0, id=id)
        first = packet(udp(to.data(72), length=65515, check=0), flags=MORE, id=id)
        title = f"{size} bytes at {offset}, more {more}; then a good datagram"
        to.add("frag.beyond", title, [bad, to.whole(id=to.id)])
        to.add("frag.beyond", f"a first fragment, {title}", [first, bad, to.whole(id=to.id)])
    for size in (40, 400):  # ends, or bytes, that a field of 16 bits would bring back to 0
        for how in (0, 1):
            id = to.id
            data = udp(to.data(size - 8), check=0)
            wraps = packet(to.data(8) + data, offset=65528, id=id)
            name, made = both_ways([packet(data, flags=MORE, id=id), wraps])[how]
            to.add("frag.beyond", f"an end that wraps to {size}, {name}", [*made, to.whole(id=to.id)])
            name, made = both_ways([packet(to.data(8) + data, offset=65528, id=to.id), to.whole(id=to.id)])[how]
            to.add("frag.beyond", f"a datagram of {size} in what wraps, {name}", made)
    for size in (1480, 8192, 32760):
        for how in (0, 1):
            id = to.id
            data = udp(to.data(65600), length=65535, check=0)
            name, made = both_ways(pieces(data, even_cuts(len(data), size)[: 65535 // size], id=id)[:-1])[how]
            to.add("frag.beyond", f"ping of death by {size}, {name}; then a good datagram", [*made, to.whole(id=to.id)])
