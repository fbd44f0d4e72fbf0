"""Step 6: reassembly with overlaps. Sources: RFC 791 3.2, RFC 1122 3.3.2."""
from __future__ import annotations

from typing import Optional

from lab import LONGEST, Header, Host  # noqa: F401

LIFE_MS = 60_000  # how long an unfinished datagram is kept, from its first fragment on


def reassemble(host: Host, it: Header) -> Optional[Header]:
    """A fragment arrived at the time host.now, in milliseconds. Fragments belong to one datagram if they have the same
    source, destination, identification and protocol. They come in any order; some come twice, and some overlap: then
    you choose whose bytes count, but no byte may reach a user that no fragment has at that place.

    Drop a fragment without data, one that isn't the last and whose length is no multiple of 8, and one that ends beyond
    LONGEST.

    Returns the datagram if it's whole: a Header with its data, offset 0, more False, and the first fragment's packet.
    Otherwise returns None."""
    return None


def expire(host: Host) -> None:
    """Time passed: forgets the datagrams that are LIFE_MS old. If the first fragment of one is there, calls
    host.time_exceeded with its packet."""
