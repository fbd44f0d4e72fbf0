"""Single packets: the UDP header and its checksum, each length, each bit inverted."""
from __future__ import annotations

import struct
from typing import Dict, List, Tuple

from .._addresses import BROADCAST, HOST, PEER, PEER2
from .._packets import checksum, even_cuts, packet, pieces, udp, with_checksum
from .._read import UDP, fold
from ._builder import Builder

# Each length up to three fragments on an Ethernet, and with --long up to 9,216: 8 KB of a file system with its headers.
WHOLE_DATA = 1472
EACH_LENGTH, LONG_LENGTH, LENGTHS_OF_A_CASE = 4415, 9216, 64


def add_datagrams(to: Builder) -> None:
    add_udp_lengths(to)
    add_checksums(to)
    add_data_and_ports(to)
    add_flips(to)


def add_udp_lengths(to: Builder) -> None:
    data = to.data(10)
    good = udp(data)
    for size in range(8):
        to.one("udp.short", f"{size} bytes", packet(good[:size]))
    sums: Dict[str, Dict[str, int]] = {
        "no checksum": {"check": 0},
        "checksum as by the length": {},
        "checksum over what came": {"summed": 18},
    }
    for length in (*range(8), 19, 20, 26, 100, 1480, 32768, 65535):
        rule = "udp.len.below" if length < 8 else "udp.len.beyond"
        for name, fields in sums.items():
            to.one(rule, f"length {length} of 18, {name}", packet(udp(data, length=length, **fields)))
    for length in (8, 9, 12, 16, 17):
        for name, fields in sums.items():
            to.one("udp.len.trim", f"length {length} of 18, {name}", packet(udp(data, length=length, **fields)))


def add_checksums(to: Builder) -> None:
    for size in (1, 2, 3, 10, 99, 1400):
        made = udp(to.data(size))
        (right,) = struct.unpack(">H", made[6:8])
        wrong = {
            "one more": (right + 1 & 0xFFFF) or 1,
            "complement": (0xFFFF - right) or 1,
            "one bit": right ^ 0x0400 or 1,
        }
        for name, field in wrong.items():
            to.one("udp.checksum", f"{size} bytes, {name}", packet(made[:6] + struct.pack(">H", field) + made[8:]))
        to.one("udp.checksum", f"{size} bytes, the last differs", packet(made[:-1] + bytes([made[-1] ^ 1])))
    data = to.data(10)
    good = udp(data)
    to.one("udp.checksum", "source port differs", packet(b"\x13\x89" + good[2:]))
    to.one("udp.checksum", "another source address", packet(good, source=PEER2))
    to.one("udp.checksum", "another destination address", packet(good, destination=BROADCAST))
    bare = good[:6] + bytes(2) + data
    to.one(
        "udp.checksum", "computed without pseudo header", packet(good[:6] + struct.pack(">H", checksum(bare)) + data)
    )
    to.one("udp.checksum", "ffff where it's wrong", packet(udp(data, check=0xFFFF)))
    for size in (0, 1, 2, 10, 1472):
        to.one("udp.checksum.zero", f"{size} bytes", packet(udp(to.data(size), check=0)))
    for size in (2, 3, 20, 101):
        to.one("udp.checksum.ffff", f"{size} bytes", packet(udp(data_with_sum_zero(size))))


def data_with_sum_zero(
    size: int, source: int = PEER, destination: int = HOST, sport: int = 5000, dport: int = 7
) -> bytes:
    """Data with which the UDP checksum is computed as 0."""
    even = size - size % 2
    data = bytes([1] * (even - 2)) + bytes(2) + bytes([9] * (size % 2))
    length = 8 + size
    head = struct.pack(">IIBBHHHHH", source, destination, 0, UDP, length, sport, dport, length, 0)
    return data[: even - 2] + struct.pack(">H", 0xFFFF - fold(head + data)) + data[even:]


def add_data_and_ports(to: Builder) -> None:
    for size in [*range(500), 547, 548, 549, *range(1000, 1472, 97), 1471, 1472]:
        to.one("udp.data", f"{size} bytes", to.whole(size))
    for size in lengths_of_all_sizes():
        made = udp(to.data(size))
        to.add(
            "frag.large", f"{size} bytes of data, fragments of 1480", pieces(made, even_cuts(len(made), 1480), id=to.id)
        )
    data = to.data(10)
    for port in (0, 1, 7, 1023, 65535):
        to.one("udp.ports", f"source port {port}", packet(udp(data, sport=port)))
    for port in (0, 6, 8, 0x0700, 65535):
        to.one("udp.ports", f"destination port {port}", packet(udp(data, dport=port)))
    for protocol in (0, 1, 6, 16, 18, 136, 255):
        to.one("udp.proto", f"protocol {protocol}", packet(udp(data), proto=protocol))


def add_lengths(to: Builder, most: int = EACH_LENGTH, begin: int = 0) -> None:
    """Data of each length, one after the other on one stack. Neighbouring lengths are in one case."""
    for first in range(begin, most + 1, LENGTHS_OF_A_CASE):
        last = min(first + LENGTHS_OF_A_CASE - 1, most)
        datagrams = [udp(to.data(length)) for length in range(first, last + 1)]
        steps = [it for made in datagrams for it in pieces(made, even_cuts(len(made), 1480), id=to.id)]
        rule = "udp.data" if first < WHOLE_DATA else "frag.large"
        to.add(rule, f"each length from {first} to {last} bytes", steps)


def lengths_of_all_sizes() -> List[int]:
    """Lengths up to 65,507: around multiples of a fragment and powers of two."""
    found = {1473, 65507, 65506, 65500, 41584, 41585, 9216, 9217}
    for base in (2048, 4096, 8192, 16384, 32768):
        found |= {base - 1, base, base + 1}
    for count in (2, 3, 5, 10, 20, 30, 40, 44):
        found |= {count * 1480 - 9, count * 1480 - 8, count * 1480 - 7}
    return sorted(found)


def add_flips(to: Builder) -> None:
    """Each bit of each header: with the sums left wrong, and with them made right."""
    whole = to.whole()
    for bit in range(160):
        for name, made in flipped(whole, bit):
            to.one("ip.flip", f"bit {bit % 8} of byte {bit // 8}, {name}", made)
    data = udp(to.data(10))
    bare = udp(to.data(10), check=0)
    for bit in range(64):
        to.one("udp.flip", f"bit {bit % 8} of byte {bit // 8}", packet(turned(data, bit)))
        if not 48 <= bit < 64:
            to.one("udp.flip", f"bit {bit % 8} of byte {bit // 8}, no checksum", packet(turned(bare, bit)))
    add_fragment_flips(to)


def add_fragment_flips(to: Builder) -> None:
    """Each bit of the header of a first, a last and a middle fragment, with the others before it or after it."""
    for which, name in enumerate(("first", "last")):
        for bit in range(160):
            for kind, order in (
                ("wrong", "alone"),
                ("right", "alone"),
                ("right", "then both"),
                ("right", "after the other"),
            ):
                both = to.halves()
                wrong = flipped(both[which], bit)[kind == "right" and not is_checksum(bit)][1]
                steps = {
                    "alone": [wrong, both[1 - which]],
                    "then both": [wrong, *both],
                    "after the other": [both[1 - which], wrong],
                }
                if kind == "wrong" or not is_checksum(bit):
                    where = f"bit {bit % 8} of byte {bit // 8} of the {name}, checksum {kind}, {order}"
                    to.add("frag.flip", where, steps[order])
    for bit in range(160):
        for at in range(1 if is_checksum(bit) else 2):
            three = pieces(udp(to.data(56)), [24, 40], id=to.id)
            sums, wrong = flipped(three[1], bit)[at]
            to.add(
                "frag.flip", f"bit {bit % 8} of byte {bit // 8} of the middle one, {sums}", [three[0], wrong, three[2]]
            )


def is_checksum(bit: int) -> bool:
    """Whether a bit of an IPv4 header is the checksum's."""
    return 80 <= bit < 96


def turned(data: bytes, bit: int) -> bytes:
    return data[: bit // 8] + bytes([data[bit // 8] ^ 0x80 >> bit % 8]) + data[bit // 8 + 1 :]


def flipped(made: bytes, bit: int) -> List[Tuple[str, bytes]]:
    """A packet with a bit of its header inverted, without and with a corrected checksum."""
    wrong = turned(made, bit)
    if is_checksum(bit):
        return [("checksum wrong", wrong)]
    return [("checksum wrong", wrong), ("checksum right", with_checksum(wrong, max(20, (wrong[0] & 15) * 4)))]
