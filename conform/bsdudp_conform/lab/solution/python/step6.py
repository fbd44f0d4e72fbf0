"""Step 6: reassembly with overlaps."""
from __future__ import annotations

from dataclasses import dataclass, field, replace
from typing import Dict, List, Optional, Tuple

from lab import LONGEST, Header, Host

LIFE_MS = 60_000
Key = Tuple[int, int, int, int]


@dataclass
class Unfinished:
    """The fragments of one datagram. The bytes that came first count."""

    born: int
    data: bytearray = field(default_factory=lambda: bytearray(LONGEST))
    there: bytearray = field(default_factory=lambda: bytearray(LONGEST))
    ends: List[int] = field(default_factory=list)
    first: bytes = b""


kept: Dict[Key, Unfinished] = {}


def reassemble(host: Host, it: Header) -> Optional[Header]:
    end = it.offset + len(it.data)
    if not it.data or it.more and len(it.data) % 8 or end > LONGEST:
        return None
    key = it.source, it.destination, it.identification, it.protocol
    old = kept.setdefault(key, Unfinished(host.now))
    for place, byte in enumerate(it.data, it.offset):
        if not old.there[place]:
            old.data[place], old.there[place] = byte, 1
    if not it.more:
        old.ends.append(end)
    if it.offset == 0 and not old.first:
        old.first = it.packet
    if not old.ends or 0 in old.there[: old.ends[0]]:
        return None
    del kept[key]
    return replace(it, offset=0, more=False, data=bytes(old.data[: old.ends[0]]), packet=old.first)


def expire(host: Host) -> None:
    for key in [key for key, it in kept.items() if host.now - it.born >= LIFE_MS]:
        old = kept.pop(key)
        if old.first:
            host.time_exceeded(old.first)
