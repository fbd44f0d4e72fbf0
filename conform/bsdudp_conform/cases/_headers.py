"""Single packets: the IP header and its options."""
from __future__ import annotations

import struct
from typing import Dict

from .._packets import DONT_FRAGMENT, RESERVED, packet, udp, with_checksum
from ._builder import Builder

GOOD_OPTIONS = {
    "no operation, 4 times": b"\1\1\1\1",
    "end of list, 4 times": bytes(4),
    "no operation and end of list": b"\1\1\1\0",
    "40 bytes of no operation": b"\1" * 40,
    "record route": b"\7\7\4\0\0\0\0\0",
    "record route, full": b"\7\7\10\n\0\0\2\0",
    "timestamp": b"\x44\x0c\5\0" + bytes(8),
    "router alert": b"\x94\4\0\0",
    "stream identifier": b"\x88\4\0\1",
    "security (RFC 1108)": b"\x82\3\xab\0",
}
BAD_OPTIONS = {
    "length 0": b"\x19\0\0\0",
    "length 1": b"\x19\1\0\0",
    "length beyond the header": b"\x19\5\0\0",
    "record route, pointer 0": b"\7\7\0\0\0\0\0\0",
    "loose source route at its end": b"\x83\3\4\0",
    "strict source route at its end": b"\x89\7\x08\n\0\0\1\0",
}


def add_headers(to: Builder) -> None:
    data = udp(to.data(10))
    add_versions_and_sums(to, data)
    add_lengths(to, data)
    add_free_fields(to, data)
    add_options(to, data)


def add_versions_and_sums(to: Builder, data: bytes) -> None:
    for version in range(16):
        if version != 4:
            to.one("ip.version", f"version {version}", packet(data, version=version))
    good = packet(data)
    for place in range(2, 20, 2):
        (word,) = struct.unpack(">H", good[place : place + 2])
        for bit in (0x0001, 0x0100, 0x8000):
            turned = good[:place] + struct.pack(">H", word ^ bit) + good[place + 2 :]
            to.one("ip.checksum", f"word {place // 2}, bit {bit:04x} turned over", turned)
    (right,) = struct.unpack(">H", good[10:12])
    fields = {
        "0": 0,
        "ffff": 0xFFFF,
        "one more": right + 1 & 0xFFFF,
        "one less": right - 1 & 0xFFFF,
        "the other order": right >> 8 | (right & 255) << 8,
        "the complement": 0xFFFF - right,
    }
    for name, field in fields.items():
        to.one("ip.checksum", f"checksum field: {name}", packet(data, chksum=field))
    zero = identification_with_sum_zero(data)
    to.one("ip.checksum.forms", "computed and written as 0000", packet(data, id=zero))
    to.one("ip.checksum.forms", "computed as 0000, written as ffff", packet(data, id=zero, chksum=0xFFFF))


def identification_with_sum_zero(data: bytes) -> int:
    """The identification with which the right header checksum is 0."""
    (at_zero,) = struct.unpack(">H", packet(data, id=0)[10:12])
    return int(at_zero)


def add_lengths(to: Builder, data: bytes) -> None:
    good = packet(data)
    for words in range(5):
        to.one("ip.ihl", f"{words} words, checksum over 20 bytes", packet(data, ihl=words))
        if words >= 3:
            to.one("ip.ihl", f"{words} words, checksum over them", with_checksum(packet(data, ihl=words), words * 4))
    for words in range(len(good) // 4 + 1, 16):
        to.one("ip.ihl.beyond", f"{words} words, {len(good)} bytes came", packet(data, ihl=words))
        longer = packet(data, ihl=words, pad=bytes(40), sum_over=words * 4)
        to.one("ip.ihl.beyond", f"{words} words, total length {len(good)}, padded", longer)
    for total in range(20):
        to.one("ip.total.below", f"total length {total}", packet(data, len=total))
    for total in (39, 40, 46, 64, 576, 1500, 32768, 65535):
        to.one("ip.total.beyond", f"total length {total}, {len(good)} bytes came", packet(data, len=total))
    for size in (1, 2, 8, 18, 46, 1000):
        to.one("ip.padding", f"{size} bytes of zero", packet(data, pad=bytes(size)))
        to.one("ip.padding", f"{size} random bytes", packet(data, pad=to.data(size)))
    for size in range(len(good)):
        to.one("ip.runt", f"first {size} bytes", good[:size])


def add_free_fields(to: Builder, data: bytes) -> None:
    for ttl in (0, 1, 2, 63, 255):
        to.one("ip.ttl", f"time to live {ttl}", packet(data, ttl=ttl))
    for tos in (1, 2, 3, 4, 8, 16, 0x28, 0x80, 0xB8, 0xFC, 0xFF):
        to.one("ip.tos", f"type of service {tos:02x}", packet(data, tos=tos))
    for id in (0, 1, 0x7FFF, 0x8000, 0xFFFF):
        to.one("ip.id", f"identification {id:04x}", packet(data, id=id))
    other = udp(to.data(12))
    for id in (0, 0x1234):
        to.add("ip.id", f"two datagrams with identification {id:04x}", [packet(data, id=id), packet(other, id=id)])
        to.add("ip.id", f"one datagram twice, identification {id:04x}", [packet(data, id=id)] * 2)
    to.one("ip.flags.df", "don't fragment", packet(data, flags=DONT_FRAGMENT))
    to.one("ip.flags.reserved", "reserved flag", packet(data, flags=RESERVED))
    to.one("ip.flags.reserved", "reserved flag, don't fragment", packet(data, flags=RESERVED | DONT_FRAGMENT))


def add_options(to: Builder, data: bytes) -> None:
    unknown: Dict[str, bytes] = {
        f"unknown option {kind}{', copied' if kind > 127 else ''}": bytes([kind, size]) + to.data(size - 2)
        for kind, size in ((25, 8), (94, 4), (158, 8), (222, 40))
    }
    for name, options in {**GOOD_OPTIONS, **unknown}.items():
        to.one("ip.options", name, packet(data, options=options))
    for name, options in BAD_OPTIONS.items():
        to.one("ip.options.bad", name, packet(data, options=options))
