"""Fragments of one datagram: orders, sizes, holes, repeats, which belong together, and what may differ among them."""
from __future__ import annotations

import itertools
from typing import Any, Dict, List

from .._addresses import BROADCAST, ONES, PEER, PEER2, text_of
from .._packets import DONT_FRAGMENT, MORE, even_cuts, packet, pieces, udp
from ._builder import Builder, both_ways


def add_fragments(to: Builder) -> None:
    add_orders(to)
    add_sizes(to)
    add_holes_and_repeats(to)
    add_keys(to)
    add_split_keys(to)
    add_header_fields(to)
    add_wrong_ones(to)
    add_udp_checks(to)


def add_orders(to: Builder) -> None:
    for count in (2, 3, 4, 5):
        for order in itertools.permutations(range(count)):
            cuts, length = to.cut(count)
            made = pieces(udp(to.data(length - 8)), cuts, id=to.id)
            to.add(
                "frag.order", f"{count} fragments in the order {' '.join(map(str, order))}", [made[it] for it in order]
            )
    for count in (6, 7, 8, 9, 10):
        for _ in range(70):
            cuts, length = to.cut(count)
            shuffled = to.random.sample(range(count), count)
            made = pieces(udp(to.data(length - 8)), cuts, id=to.id)
            to.add(
                "frag.order",
                f"{count} fragments in the order {' '.join(map(str, shuffled))}",
                [made[it] for it in shuffled],
            )
    for count, total in ((2, 556), (3, 556), (5, 556), (2, 100)):
        for how in (0, 1):
            cuts = even_cuts(total, -(-total // count // 8) * 8)
            name, made = both_ways(pieces(udp(to.data(total - 8)), cuts, id=to.id))[how]
            to.add("frag.order", f"{total + 20} bytes in {len(made)} fragments, {name}", made)


def add_sizes(to: Builder) -> None:
    for last in range(1, 17):
        for first in (8, 16, 24):
            for how in (0, 1):
                name, made = both_ways(pieces(udp(to.data(first + last - 8)), [first], id=to.id))[how]
                to.add("frag.sizes", f"first {first}, last {last}, {name}", made)
    for count in (3, 5, 8, 9, 10):
        for how in (0, 1):
            name, made = both_ways(pieces(udp(to.data(8 * count - 8)), even_cuts(8 * count, 8), id=to.id))[how]
            to.add("frag.sizes", f"{count} fragments of 8 bytes, {name}", made)
    for length, size in (
        (600, 304),
        (1472, 744),
        (1400, 128),
        (2000, 64),
        (2952, 1480),
        (9216, 1480),
        (30000, 1480),
        (65507, 8192),
        (65507, 32768),
    ):
        for how in (0, 1):
            data = udp(to.data(length))
            name, made = both_ways(pieces(data, even_cuts(len(data), size), id=to.id))[how]
            to.add("frag.large", f"{length} bytes of data, fragments of {size}, {name}", made)


def add_holes_and_repeats(to: Builder) -> None:
    for count in (2, 3, 4, 5):
        for gone in range(count):
            cuts, length = to.cut(count)
            made = pieces(udp(to.data(length - 8), check=0), cuts, id=to.id)
            rest = made[:gone] + made[gone + 1 :]
            to.add("frag.hole", f"{count} fragments, without number {gone}", rest)
            to.add("frag.hole", f"{count} fragments, without number {gone}, the others twice", rest + rest[::-1])
    for count in (2, 3, 4, 5):
        for again in range(count):
            for place in range(count + 1):
                cuts, length = to.cut(count)
                made = pieces(udp(to.data(length - 8)), cuts, id=to.id)
                steps = made[:place] + [made[again]] + made[place:]
                to.add("frag.dup", f"{count} fragments, number {again} once more at place {place}", steps)
        cuts, length = to.cut(count)
        data = udp(to.data(length - 8))
        twice = [it for it in pieces(data, cuts, id=to.id) for _ in (0, 1)]
        to.add("frag.dup", f"{count} fragments, each twice in a row", twice)
        to.add("frag.dup", f"{count} fragments, then all again", pieces(data, cuts, id=to.id) * 2)
    for count in (2, 3, 5):
        many = [it for _ in range(count) for it in to.halves()]
        to.add("frag.reuse", f"{count} datagrams, one after the other", many)
        id = to.id
        same = [it for _ in range(count) for it in pieces(udp(to.data(40)), [24], id=id)]
        to.add("frag.reuse", f"{count} datagrams with one identification, one after the other", same)


PATTERNS = ("a0 b0 a1 b1", "a0 b0 b1 a1", "a1 b0 a0 b1", "a0 b1 a1 b0", "a1 b1 b0 a0", "b0 a1 b1 a0")
Fields = Dict[str, Any]
OTHER_FIELDS: Dict[str, Fields] = {
    "source": {"source": PEER2},
    "destination": {"destination": BROADCAST},
    "identification": {"id": 0x7777},
}


def in_pattern(pattern: str, a: List[bytes], b: List[bytes]) -> List[bytes]:
    both = {"a": a, "b": b}
    return [both[word[0]][int(word[1])] for word in pattern.split()]


def add_keys(to: Builder) -> None:
    for name, fields in OTHER_FIELDS.items():
        for pattern in PATTERNS:
            key: Fields = {"id": to.id, **fields}
            ends = {end: key[end] for end in ("source", "destination") if end in key}
            a = pieces(udp(to.data(40)), [24], id=to.id if name == "identification" else key["id"])
            b = pieces(udp(to.data(40), **ends), [24], **key)
            to.add("frag.key", f"equal but for the {name}: {pattern}", in_pattern(pattern, a, b))
    for bit in range(16):
        for how in (0, 1):
            id = to.id
            whole, other = udp(to.data(40)), udp(to.data(40))
            stray = packet(whole[24:], offset=24, id=id ^ 1 << bit)
            name, made = both_ways(pieces(other, [24], id=id))[how]
            to.add("frag.key", f"equal but for bit {bit} of the identification, {name}", [stray, *made])
    for protocol in (1, 6, 253):
        for pattern in ("a0 b0 a1 b1", "a0 b1 a1", "b0 a0 a1", "b0 a1 a0 b1", "b1 a0 a1", "a1 b0 a0"):
            id, data = to.id, udp(to.data(40))
            other = data[:24] + bytes(it ^ 0xFF for it in data[24:])  # its second half would have another checksum
            steps = in_pattern(pattern, pieces(data, [24], id=id), pieces(other, [24], id=id, proto=protocol))
            to.add("frag.key", f"equal but for the protocol, {protocol}: {pattern}", steps)
    for where in (0, 1, 2):
        id = to.id
        halves = pieces(udp(to.data(40)), [24], id=id)
        halves.insert(where, packet(udp(to.data(20)), id=id))
        to.add("frag.whole.between", f"at place {where} of two fragments", halves)


def add_split_keys(to: Builder) -> None:
    """Halves that don't belong together: nothing may be delivered."""
    for protocol in (6, 253):
        for how in (0, 1):
            for which in (0, 1):
                id, data = to.id, udp(to.data(40), check=0)
                protocols = [17, 17]
                protocols[which] = protocol
                name, made = both_ways(
                    [
                        packet(data[:24], flags=MORE, id=id, proto=protocols[0]),
                        packet(data[24:], offset=24, id=id, proto=protocols[1]),
                    ]
                )[how]
                to.add("frag.key", f"the {('first', 'last')[which]} half is protocol {protocol}, {name}", made)
    for name, fields in OTHER_FIELDS.items():
        for how in (0, 1):
            data = udp(to.data(40), check=0)
            key: Fields = {"id": to.id}
            way, made = both_ways(
                [packet(data[:24], flags=MORE, **key), packet(data[24:], offset=24, **{**key, **fields})]
            )[how]
            to.add("frag.key", f"halves that differ in the {name}, {way}", made)
    for bit in range(16):
        for how in (0, 1):
            id, data = to.id, udp(to.data(40), check=0)
            way, made = both_ways(
                [packet(data[:24], flags=MORE, id=id), packet(data[24:], offset=24, id=id ^ 1 << bit)]
            )[how]
            to.add("frag.key", f"halves that differ in bit {bit} of the identification, {way}", made)


def add_keys_of_one_sum(to: Builder) -> None:
    """Halves whose keys differ in two fields, by which neither their sum nor their exclusive or changes."""
    pairs: Dict[str, List[Fields]] = {
        "source": [{"source": PEER2}, {"source": PEER}],
        "protocol": [{"proto": 17}, {"proto": 16}],
    }
    for name, (even, odd) in pairs.items():
        for how in (0, 1):
            data, id = udp(to.data(40), check=0), to.id & ~1
            first = packet(data[:24], flags=MORE, id=id, **even)
            way, made = both_ways([first, packet(data[24:], offset=24, id=id + 1, **odd)])[how]
            to.add("frag.key", f"halves that differ in the {name} and the identification, with one sum, {way}", made)


def add_header_fields(to: Builder) -> None:
    fields: Dict[str, List[Fields]] = {
        "time to live": [{"ttl": 9}, {"ttl": 200}],
        "type of service": [{"tos": 0}, {"tos": 0x10}],
        "don't fragment on both": [{"flags": DONT_FRAGMENT}, {"flags": DONT_FRAGMENT}],
        "don't fragment on the first": [{"flags": DONT_FRAGMENT}, {}],
        "don't fragment on the last": [{}, {"flags": DONT_FRAGMENT}],
    }
    fields.update({f"ECN {a} and {b}": [{"tos": a}, {"tos": b}] for a in range(4) for b in range(4) if a != b})
    for name, (first, last) in fields.items():
        for how in (0, 1):
            id, data = to.id, udp(to.data(40))
            one = packet(data[:24], id=id, **{**first, "flags": MORE | first.get("flags", 0)})
            way, made = both_ways([one, packet(data[24:], offset=24, id=id, **last)])[how]
            to.add("frag.ecn" if name.startswith("ECN") else "frag.header", f"{name}, {way}", made)
    for size in (1, 6, 17, 40):
        for how in (0, 1):
            for both in (False, True):
                id, data = to.id, udp(to.data(36))
                one = packet(data[:24], flags=MORE, id=id, pad=to.data(size) if both else b"")
                way, made = both_ways([one, packet(data[24:], offset=24, id=id, pad=to.data(size))])[how]
                to.add("frag.padding", f"{'both' if both else 'the last'} with {size} bytes after it, {way}", made)
    for name, one_has, last_has in (
        ("on both", b"\1\1\1\0", b"\1\1\1\0"),
        ("on the first", b"\1\1\1\0", b""),
        ("on the last", b"", b"\1\1\1\0"),
        ("unknown, copied", b"\x9e\4\1\2", b"\x9e\4\1\2"),
    ):
        for how in (0, 1):
            id, data = to.id, udp(to.data(40))
            one = packet(data[:24], flags=MORE, id=id, options=one_has)
            way, made = both_ways([one, packet(data[24:], offset=24, id=id, options=last_has)])[how]
            to.add("frag.options", f"{name}, {way}", made)


def add_wrong_ones(to: Builder) -> None:
    wrong: Dict[str, Fields] = {
        "checksum": {"chksum": 0x1234},
        "version": {"version": 6},
        "total length": {"len": 1500},
        "header length": {"ihl": 4},
    }
    for name, fields in wrong.items():
        for where in (0, 1):
            id, data = to.id, udp(to.data(40))
            made = pieces(data, [24], id=id)
            mess = bytes(it ^ 0xFF for it in (data[24:] if where else data[:24]))
            bad = packet(mess, offset=24 if where else 0, flags=0 if where else MORE, id=id, **fields)
            to.add("frag.bad", f"a wrong {name} in the place of number {where}, then both", [bad, *made])
            to.add("frag.bad", f"a wrong {name} in the place of number {where}, then the other", [bad, made[1 - where]])


def add_udp_checks(to: Builder) -> None:
    faults: Dict[str, Fields] = {
        "wrong checksum": {"check": 0x1234},
        "length beyond": {"length": 60, "check": 0},
        "length 7": {"length": 7, "check": 0},
        "length 0": {"length": 0, "check": 0},
        "length beyond, checksum over what came": {"length": 60, "summed": 48},
    }
    for name, fields in faults.items():
        for how in (0, 1):
            way, made = both_ways(pieces(udp(to.data(40), **fields), [24], id=to.id))[how]
            to.add("frag.udp", f"{name}, {way}", made)
    for length in (8, 20, 24, 30):
        for name, check in (("no checksum", 0), ("its checksum", None)):
            made = pieces(udp(to.data(40), length=length, check=check), [24], id=to.id)
            to.add("frag.udp", f"length {length} of 48, {name}", made)
    for destination in (BROADCAST, ONES):
        for how in (0, 1):
            data = udp(to.data(40), destination=destination)
            way, made = both_ways(pieces(data, [24], destination=destination, id=to.id))[how]
            to.add("frag.broadcast", f"{text_of(destination)}, {way}", made)
