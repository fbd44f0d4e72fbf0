"""What is unusual about a packet, in words: for the steps of a report, and to name a deviation by its cause."""
from __future__ import annotations

import struct
from typing import Iterator, List, NamedTuple

from ._addresses import BROADCAST, HOST, ONES, OURS, ZERO_BROADCAST, is_multicast, text_of
from ._packets import show
from ._read import ICMP, UDP, fold, sum_with_pseudo_header

OPTION_NAMES = {
    0: "end of list",
    1: "no operation",
    7: "record route",
    0x44: "timestamp",
    0x82: "security",
    0x83: "loose source route",
    0x88: "stream identifier",
    0x89: "strict source route",
    0x94: "router alert",
}


class Oddity(NamedTuple):
    """One thing in which a packet differs from a plain one: its kind, without numbers, and its words."""

    kind: str
    words: str


def oddities(packet: bytes) -> List[Oddity]:
    """All that is unusual, what breaks a rule first."""
    if len(packet) < 20:
        return [Oddity("a packet cut short", f"{len(packet)} bytes")]
    return [*of_header(packet), *of_addresses(packet), *of_fragment(packet), *of_data(packet)]


def of_header(packet: bytes) -> Iterator[Oddity]:
    version, size = packet[0] >> 4, (packet[0] & 15) * 4
    total = int.from_bytes(packet[2:4], "big")
    if version != 4:
        yield Oddity("another version", f"version {version}")
    if size < 20:
        yield Oddity("a header length below 20", f"header length {size}")
    elif size > len(packet):
        yield Oddity("a header beyond the packet", f"header length {size} of {len(packet)} bytes")
    elif total < size:
        yield Oddity("a total length below the header's", f"total length {total}, header length {size}")
    if total > len(packet):
        yield Oddity("a total length above what came", f"total length {total} of {len(packet)}")
    if 20 <= size <= len(packet) and fold(packet[:size]) != 0xFFFF:
        yield Oddity("a wrong header checksum", "wrong header checksum")
    if 20 < size <= len(packet):
        name = OPTION_NAMES.get(packet[20], f"option {packet[20]}")
        yield Oddity("options", f"header length {size}: {name}")
    if size <= total < len(packet):
        yield Oddity("padding", f"{len(packet) - total} bytes after the total length")
    if packet[8] < 2:
        yield Oddity("a time to live of 0 or 1", f"time to live {packet[8]}")
    if packet[1]:
        yield Oddity("a type of service", f"type of service {packet[1]:02x}")
    if packet[6] & 0x80:
        yield Oddity("the reserved flag", "reserved flag")
    if packet[6] & 0x40:
        yield Oddity("don't fragment", "don't fragment")


def kind_of_source(source: int) -> str:
    """The name of an address that is unusual as a source, or nothing."""
    for matches, name in (
        (source == HOST, "the host's own address"),
        (source >> 24 == 0, "an address in 0/8"),
        (source >> 24 == 127, "an address in 127/8"),
        (source in (BROADCAST, ONES), "a broadcast address"),
        (source == ZERO_BROADCAST, "the network's own address"),
        (is_multicast(source), "a multicast address"),
        (0xF0 <= source >> 24 and source != ONES, "an address of class E"),
    ):
        if matches:
            return name
    return ""


def of_addresses(packet: bytes) -> Iterator[Oddity]:
    source, destination = struct.unpack(">II", packet[12:20])
    name = kind_of_source(source)
    if name:
        yield Oddity(f"{name} as source", f"{name} as source")
    for matches, name in (
        (destination in (BROADCAST, ONES), "a broadcast address"),
        (is_multicast(destination), "a multicast address"),
        (destination in (ZERO_BROADCAST, 0), "an old broadcast address"),
        (destination >> 24 == 127, "an address in 127/8"),
    ):
        if matches:
            yield Oddity(f"{name} as destination", f"{name} as destination")
            return
    if destination not in OURS:
        yield Oddity("another host as destination", "another host as destination")


def of_fragment(packet: bytes) -> Iterator[Oddity]:
    begin, more = place_of(packet)
    if begin or more:
        end = begin + max(0, int.from_bytes(packet[2:4], "big") - (packet[0] & 15) * 4)
        yield Oddity("fragments", f"fragment {begin}-{end}{', more follow' if more else ', the last'}")


def place_of(packet: bytes) -> "tuple[int, bool]":
    """The offset of a packet's data, and whether more fragments follow."""
    place = int.from_bytes(packet[6:8], "big")
    return place % 0x2000 * 8, bool(place & 0x2000)


def of_data(packet: bytes) -> Iterator[Oddity]:
    """What is unusual about the UDP header in a whole packet or a first fragment, or about another protocol."""
    size, total, (begin, more) = (packet[0] & 15) * 4, int.from_bytes(packet[2:4], "big"), place_of(packet)
    if packet[9] not in (UDP, ICMP):
        yield Oddity("another protocol", f"protocol {packet[9]}")
    data = packet[size:total]
    if begin or packet[9] != UDP or size < 20:
        return
    if len(data) < 8:
        yield Oddity("less than a UDP header", f"{len(data)} bytes of UDP")
        return
    length, check = struct.unpack(">HH", data[4:8])
    if length < 8:
        yield Oddity("a UDP length below 8", f"UDP length {length}")
    elif not more and length != len(data):
        kind = "a UDP length above what IP carries" if length > len(data) else "bytes after the UDP length"
        yield Oddity(kind, f"UDP length {length} of {len(data)}")
    elif more:
        yield Oddity("", f"UDP length {length}")
    if check == 0:
        yield Oddity("no UDP checksum", "no UDP checksum")
    elif not more and 8 <= length <= len(data):
        source, destination = struct.unpack(">II", packet[12:20])
        if sum_with_pseudo_header(data[:length], source, destination, length) != 0xFFFF:
            yield Oddity("a wrong UDP checksum", "wrong UDP checksum")
    if data[:2] == bytes(2):
        yield Oddity("source port 0", "source port 0")


def described(packet: bytes) -> str:
    """A packet as one line: its ends, and what is unusual about it."""
    if len(packet) < 20:
        return f"{len(packet)} bytes: {packet.hex() or '-'}"
    found = ", ".join(it.words for it in oddities(packet))
    begin, more = place_of(packet)
    if packet[0] >> 4 != 4 or (packet[0] & 15) < 5 or begin or more:
        source, destination = (text_of(int.from_bytes(packet[at : at + 4], "big")) for at in (12, 16))
        name = {UDP: "UDP", ICMP: "ICMP"}.get(packet[9], "IP")
        return f"{name} {source} > {destination}, id {int.from_bytes(packet[4:6], 'big')}: {found}"
    size = max(0, int.from_bytes(packet[2:4], "big") - (packet[0] & 15) * 4 - 8)
    plain = f"{show(packet)}, {size} bytes"
    return f"{plain}: {found}" if found else plain
