"""Packets with any field wrong, and capture files. A field that is given isn't changed."""
from __future__ import annotations

import pathlib
import struct
from typing import Any, Iterable, List, Optional, Sequence, Tuple

from ._addresses import HOST, PEER, text_of
from ._read import ICMP, UDP, fold, sum_with_pseudo_header

SOURCE_PORT, USER_PORT, CLOSED_PORT = 5000, 7, 9
MORE, DONT_FRAGMENT, RESERVED = 1, 2, 4
PCAP_MAGIC, RAW_IPV4 = 0xA1B2C3D4, 228  # microseconds; LINKTYPE_IPV4


def checksum(data: bytes) -> int:
    """The checksum field that makes the sum of these bytes right."""
    return 0xFFFF - fold(data)


def udp(
    payload: bytes,
    source: int = PEER,
    destination: int = HOST,
    sport: int = SOURCE_PORT,
    dport: int = USER_PORT,
    length: Optional[int] = None,
    summed: Optional[int] = None,
    check: Optional[int] = None,
) -> bytes:
    """A UDP datagram. length: the field. summed: the length that the checksum covers. check: the field."""
    size = 8 + len(payload)
    field = size if length is None else length
    bare = struct.pack(">HHHH", sport, dport, field, 0) + payload
    if check is None:
        over = field if summed is None else summed
        covered = bare[:over] if 8 <= over <= size else bare
        check = 0xFFFF - sum_with_pseudo_header(covered, source, destination, over) or 0xFFFF
    return bare[:6] + struct.pack(">H", check) + payload


def packet(
    data: bytes,
    source: int = PEER,
    destination: int = HOST,
    id: int = 1,
    offset: int = 0,
    flags: int = 0,
    pad: bytes = b"",
    options: bytes = b"",
    sum_over: Optional[int] = None,
    proto: int = UDP,
    **fields: int,
) -> bytes:
    """An IPv4 packet. fields: version, ihl, len, tos, ttl, chksum. offset is in bytes. pad follows the total length. If
    sum_over is given, the header checksum covers that many bytes."""
    first = fields.get("version", 4) << 4 | fields.get("ihl", 5 + len(options) // 4)
    total = fields.get("len", 20 + len(options) + len(data))
    counts = total, id, flags << 13 | offset // 8, fields.get("ttl", 64), proto
    bare = struct.pack(">BBHHHBBHII", first, fields.get("tos", 0), *counts, 0, source, destination) + options
    made = bare[:10] + struct.pack(">H", fields.get("chksum", checksum(bare))) + bare[12:] + data + pad
    if sum_over is not None:
        made = with_checksum(made, sum_over)
    return made


def with_checksum(made: bytes, over: int = 20) -> bytes:
    """The same packet, with the header checksum that is right over its first bytes."""
    bare = made[:10] + b"\0\0" + made[12:]
    return made[:10] + struct.pack(">H", checksum(bare[:over])) + made[12:]


def pieces(data: bytes, cuts: Sequence[int], **fields: Any) -> List[bytes]:
    """The fragments of one datagram, cut at these offsets, which are multiples of 8."""
    flags = fields.pop("flags", 0)
    edges = [0, *cuts, len(data)]
    return [
        packet(data[begin:end], offset=begin, flags=flags | (MORE if end < len(data) else 0), **fields)
        for begin, end in zip(edges, edges[1:])
    ]


def even_cuts(length: int, size: int) -> List[int]:
    """The offsets at which a datagram is cut into fragments of one size, a multiple of 8."""
    return list(range(size, length, size))


def write_capture(path: pathlib.Path, packets: Iterable[Tuple[float, bytes]]) -> None:
    """A capture of raw IPv4 packets with their times in seconds, which Wireshark opens."""
    with open(path, "wb") as file:
        file.write(struct.pack("<IHHiIII", PCAP_MAGIC, 2, 4, 0, 0, 65535, RAW_IPV4))
        for time, made in packets:
            file.write(struct.pack("<IIII", int(time), round(time % 1 * 1_000_000), len(made), len(made)) + made)


def show(made: bytes) -> str:
    """A whole packet as one line: its protocol and its ends."""
    source, destination = (text_of(int.from_bytes(made[at : at + 4], "big")) for at in (12, 16))
    data = made[(made[0] & 15) * 4 :]
    if made[9] == UDP and len(data) >= 4:
        ports = struct.unpack(">HH", data[:4])
        return f"UDP {source}:{ports[0]} > {destination}:{ports[1]}"
    if made[9] == ICMP and len(data) >= 2:
        return f"ICMP {source} > {destination}, type {data[0]} code {data[1]}"
    return f"{ {UDP: 'UDP', ICMP: 'ICMP'}.get(made[9], 'IPv4')} {source} > {destination}"
