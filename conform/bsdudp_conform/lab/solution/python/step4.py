"""Step 4: sending."""
from __future__ import annotations

import struct

from lab import HOST, Header
from step2 import ones_sum, pseudo_sum


def put_ip(it: Header) -> bytes:
    place = it.offset // 8 | (0x2000 if it.more else 0)
    counts = 20 + len(it.data), it.identification, place, 64, it.protocol
    bare = struct.pack(">BBHHHBBHII", 0x45, 0, *counts, 0, it.source, it.destination)
    return bare[:10] + struct.pack(">H", 0xFFFF ^ ones_sum(bare)) + bare[12:]


def put_udp(source_port: int, destination: int, port: int, data: bytes) -> bytes:
    size = 8 + len(data)
    bare = struct.pack(">HHHH", source_port, port, size, 0) + data
    checksum = 0xFFFF ^ ones_sum(bare, pseudo_sum(HOST, destination, size))
    return bare[:6] + struct.pack(">H", checksum or 0xFFFF) + data
