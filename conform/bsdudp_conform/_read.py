"""Reads a packet as a careful receiver does (RFC 791 3.1, RFC 768)."""
from __future__ import annotations

import struct
from dataclasses import dataclass
from typing import Optional, Tuple

UDP = 17
ICMP = 1


def fold(data: bytes) -> int:
    """The folded one's complement sum of 16-bit words (RFC 1071): a number's remainder by 65,535, except for 0."""
    number = int.from_bytes(data + b"\0" if len(data) % 2 else data, "big")
    return number if number == 0 else (number - 1) % 0xFFFF + 1


@dataclass(frozen=True)
class Header:
    """A packet with a valid header: its fields, its options, and its data."""

    source: int
    destination: int
    identification: int
    protocol: int
    offset: int
    more: bool
    dont_fragment: bool
    reserved: bool
    tos: int
    ttl: int
    length: int
    options: bytes
    data: bytes

    @property
    def whole(self) -> bool:
        """Whether it isn't a fragment."""
        return self.offset == 0 and not self.more

    @property
    def key(self) -> Tuple[int, int, int, int]:
        """What fragments of one datagram have in common (RFC 791 3.2)."""
        return self.source, self.destination, self.identification, self.protocol

    @property
    def end(self) -> int:
        """The offset after its last byte."""
        return self.offset + len(self.data)


def read(packet: bytes) -> Optional[Header]:
    """The packet's header and data, or None if its version, its lengths or its header checksum is wrong."""
    if len(packet) < 20 or packet[0] >> 4 != 4 or packet[0] & 15 < 5:
        return None
    header = (packet[0] & 15) * 4
    total, identification, place = struct.unpack(">HHH", packet[2:8])
    if len(packet) < header or not header <= total <= len(packet) or fold(packet[:header]) != 0xFFFF:
        return None
    source, destination = struct.unpack(">II", packet[12:20])
    return Header(
        source, destination, identification, packet[9], place % 0x2000 * 8, bool(place & 0x2000), bool(place & 0x4000),
        bool(place & 0x8000), packet[1], packet[8], total, packet[20:header], packet[header:total],
    )


def sum_with_pseudo_header(data: bytes, source: int, destination: int, length: int) -> int:
    """The folded sum of a UDP datagram with its pseudo header (RFC 768): 65,535 if the checksum is right."""
    return fold(struct.pack(">IIBBH", source, destination, 0, UDP, length) + data)


def header_sum_is_wrong(packet: bytes) -> bool:
    """Whether a packet has an IPv4 header, and only its checksum is wrong."""
    size = (packet[0] & 15) * 4 if len(packet) >= 20 and packet[0] >> 4 == 4 else 0
    return 20 <= size <= len(packet) and fold(packet[:size]) != 0xFFFF


def udp_sum_is_wrong(data: bytes, source: int, destination: int) -> bool:
    """Whether a UDP datagram has a length that holds, and a checksum that doesn't."""
    length = int.from_bytes(data[4:6], "big")
    return 8 <= length <= len(data) and read_udp(data, source, destination) is None


@dataclass(frozen=True)
class Udp:
    """A UDP datagram with a right length and a right checksum."""

    source_port: int
    destination_port: int
    checksum: int
    payload: bytes


def read_udp(data: bytes, source: int, destination: int) -> Optional[Udp]:
    """The datagram that IP carries, or None if its length or its checksum is wrong."""
    if len(data) < 8:
        return None
    source_port, destination_port, length, checksum = struct.unpack(">HHHH", data[:8])
    if not 8 <= length <= len(data):
        return None
    if checksum and sum_with_pseudo_header(data[:length], source, destination, length) != 0xFFFF:
        return None
    return Udp(source_port, destination_port, checksum, data[8:length])
