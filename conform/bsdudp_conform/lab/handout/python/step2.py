"""Step 2: the checksum. Sources: RFC 1071, RFC 768."""
from __future__ import annotations

from lab import UDP, Header  # noqa: F401


def ones_sum(data: bytes, start: int = 0) -> int:
    """Returns the ones' complement sum of 16-bit words in network byte order, added to `start`, with all carries folded
    in. If the length is odd, the last byte is the high byte of a word whose low byte is 0."""
    return 0


def pseudo_sum(source: int, destination: int, length: int) -> int:
    """Returns the sum of UDP's pseudo header (RFC 768), for `start`: both addresses, the protocol, and the length of the
    datagram with its UDP header."""
    return 0


def header_sum_holds(packet: bytes) -> bool:
    """Returns whether the checksum of an IPv4 header with its options is right."""
    return True


def udp_sum_holds(it: Header, length: int) -> bool:
    """Returns whether the checksum of a UDP datagram, the first `length` bytes of it.data, is right, or is 0: then the
    sender computed none."""
    return True
