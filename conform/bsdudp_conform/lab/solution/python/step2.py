"""Step 2: the checksum."""
from __future__ import annotations

import struct

from lab import UDP, Header


def ones_sum(data: bytes, start: int = 0) -> int:
    data += bytes(len(data) % 2)
    total = start + sum(struct.unpack(f">{len(data) // 2}H", data))
    while total >> 16:
        total = (total & 0xFFFF) + (total >> 16)
    return total


def pseudo_sum(source: int, destination: int, length: int) -> int:
    return ones_sum(struct.pack(">IIHH", source, destination, UDP, length))


def header_sum_holds(packet: bytes) -> bool:
    return ones_sum(packet[: (packet[0] & 15) * 4]) == 0xFFFF


def udp_sum_holds(it: Header, length: int) -> bool:
    if it.data[6:8] == bytes(2):
        return True
    return ones_sum(it.data[:length], pseudo_sum(it.source, it.destination, length)) == 0xFFFF
