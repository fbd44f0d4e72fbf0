"""Step 1: header checks."""
from __future__ import annotations

import struct
from typing import Optional

from lab import BROADCAST, HOST, ONES, Header


def is_host(address: int) -> bool:
    """Whether a host may have this address (RFC 1122 3.2.1.3)."""
    return 0 < address >> 24 < 224 and address >> 24 != 127 and address != BROADCAST


def read_header(packet: bytes) -> Optional[Header]:
    if len(packet) < 20 or packet[0] >> 4 != 4:
        return None
    size = (packet[0] & 15) * 4
    total, identification, place = struct.unpack(">HHH", packet[2:8])
    source, destination = struct.unpack(">II", packet[12:20])
    if size < 20 or not size <= total <= len(packet):
        return None
    if destination not in (HOST, BROADCAST, ONES) or not is_host(source):
        return None
    offset, more = place % 0x2000 * 8, bool(place & 0x2000)
    return Header(source, destination, identification, packet[9], offset, more, packet[size:total], packet)
