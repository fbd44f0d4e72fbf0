"""Addresses in the form of Python's own `socket`: a pair of a host and a port."""
from __future__ import annotations

import functools
import ipaddress
import operator
from typing import SupportsIndex, Tuple, Union

from ._library import Address as Raw

Host = Union[str, ipaddress.IPv4Address]
# an address as an argument, and as a result
Endpoint = Tuple[Host, SupportsIndex]
Address = Tuple[str, int]

ANY = ""
BROADCAST = "<broadcast>"


def number_of(host: Host) -> int:
    """Returns the number of an IPv4 address: of "10.0.0.1", of an `ipaddress.IPv4Address`, of "" (0.0.0.0) or of
    "<broadcast>" (255.255.255.255). Names are not resolved."""
    if isinstance(host, ipaddress.IPv4Address):
        return int(host)
    if not isinstance(host, str):
        raise TypeError(f"an address must be a str such as '10.0.0.1', not {type(host).__name__}")
    return _parsed(host)


@functools.lru_cache(maxsize=4096)
def _parsed(host: str) -> int:
    """Does the same for a str, and keeps the last results: a simulation names the same hosts again and again."""
    if host == ANY:
        return 0
    if host == BROADCAST:
        return 0xFFFF_FFFF
    try:
        return int(ipaddress.IPv4Address(host))
    except ipaddress.AddressValueError as fault:
        raise ValueError(f"{host!r} isn't an IPv4 address: {fault}") from None


@functools.lru_cache(maxsize=4096)
def text_of(number: int) -> str:
    """Returns an address in dotted decimal form."""
    return str(ipaddress.IPv4Address(number))


def in_range(what: str, value: SupportsIndex, least: int, most: int) -> int:
    """Returns the value as an int. TypeError if it has no `__index__` (numpy's integers have one) or is a bool;
    ValueError if it is not `least` to `most`."""
    if isinstance(value, bool) or not hasattr(value, "__index__"):
        raise TypeError(f"{what} must be an int, not {type(value).__name__}")
    number = operator.index(value)
    if not least <= number <= most:
        raise ValueError(f"{what} must be {least} to {most}, not {number}")
    return number


def raw(address: object) -> Raw:
    """Returns an address with its port, for the library. TypeError or ValueError if it is not an `Endpoint`."""
    if not isinstance(address, tuple) or len(address) != 2:
        raise TypeError("an address must be a tuple of a host and a port, such as ('10.0.0.1', 7)")
    host, port = address
    return Raw(number_of(host), in_range("a port", port, 0, 65_535))
