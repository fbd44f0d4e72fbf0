"""Addresses as numbers, and the hosts on the wire of a case."""
from __future__ import annotations

import ipaddress
import os

from ._target import TARGET


def address(text: str) -> int:
    """An IPv4 address as a number. ValueError if the text isn't an address."""
    return int(ipaddress.IPv4Address(text))


def text_of(number: int) -> str:
    """An IPv4 address as it's written."""
    return str(ipaddress.IPv4Address(number))


# The hosts on the wire of a case: the stack is HOST, on a /24 network. A device on a wire may have another address than
# 10.0.0.1: `bsdudp-conform wire` sets it in the environment.
HOST = address(os.environ.get(TARGET, "10.0.0.1"))
ZERO_BROADCAST = HOST & 0xFFFFFF00
BROADCAST = ZERO_BROADCAST | 0xFF
_others = [ZERO_BROADCAST + last for last in (2, 3, 4) if ZERO_BROADCAST + last != HOST]
PEER, PEER2, OTHER = _others[0], _others[1], ZERO_BROADCAST + (9 if HOST != ZERO_BROADCAST + 9 else 10)
ONES, LOOPBACK = address("255.255.255.255"), address("127.0.0.1")
OURS = (HOST, BROADCAST, ONES)


def is_multicast(number: int) -> bool:
    """Whether an address is of class D."""
    return 0xE0 <= number >> 24 < 0xF0


def is_host(number: int) -> bool:
    """Whether an address can be one host's (RFC 1122 3.2.2)."""
    return 0 < number >> 24 < 0xE0 and number >> 24 != 127 and number != BROADCAST
