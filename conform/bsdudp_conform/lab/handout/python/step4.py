"""Step 4: sending. Sources: RFC 791 3.1, RFC 768."""
from __future__ import annotations

from lab import HOST, Header  # noqa: F401
from step2 import ones_sum, pseudo_sum  # noqa: F401


def put_ip(it: Header) -> bytes:
    """Returns the 20 bytes of an IPv4 header: type of service 0, time to live 64, no options, no flag except `more`; the
    total length is that of the header and of it.data."""
    return bytes(20)


def put_udp(source_port: int, destination: int, port: int, data: bytes) -> bytes:
    """Returns a UDP datagram from HOST. A checksum that is computed as 0 is sent as 0xffff."""
    return bytes(8) + data
