"""Echo Requests, and ICMP messages that get no reply. Their bytes count up, as ping's do, so that they use none of the
seed's."""
from __future__ import annotations

import itertools
import struct
from typing import Any, List

from .._addresses import BROADCAST, HOST, LOOPBACK, ONES, OTHER, PEER, PEER2, address, text_of
from .._case import Send
from .._packets import CLOSED_PORT, DONT_FRAGMENT, checksum, even_cuts, packet, pieces, udp
from .._read import ICMP, fold
from ._builder import Builder

SIZES = (*range(18), 31, 32, 33, 55, 56, 57, 99, 256, 511, 512, 547, 548, 549, 1000, 1023, 1024, 1471, 1472)
REQUEST, FIRST_ID = 8, 0x70
UNKNOWN = (1, 2, 7, 19, 44, 127, 252, 255)
REPLIES, QUESTIONS = (0, 14, 16, 18), (15, 17)
ERROR_CODES = ((3, 3), (3, 1), (4, 0), (5, 1), (11, 0), (12, 0))


def data(size: int) -> bytes:
    return bytes(it & 0xFF for it in range(size))


def icmp(kind: int, rest: bytes, code: int = 0) -> bytes:
    """A message: type, code, checksum, and the rest."""
    bare = struct.pack(">BBH", kind, code, 0) + rest
    return bare[:2] + struct.pack(">H", checksum(bare)) + bare[4:]


def ping(size: int = 56, identifier: int = 0x1234, number: int = 1, code: int = 0) -> bytes:
    return icmp(REQUEST, struct.pack(">HH", identifier, number) + data(size), code)


def carried(message: bytes, source: int = PEER, destination: int = HOST, **fields: Any) -> bytes:
    return packet(message, source=source, destination=destination, proto=ICMP, **fields)


def add_pings(to: Builder) -> None:
    add_requests(to)
    add_sums(to)
    add_cut_requests(to)
    add_unanswered(to)


def add_requests(to: Builder) -> None:
    for size in SIZES:
        to.one("icmp.echo", f"{size} bytes", carried(ping(size)))
    for identifier, number in ((0, 0), (0, 1), (1, 0), (0xFFFF, 0xFFFF), (0x8000, 0x0080)):
        to.one("icmp.echo", f"identifier {identifier}, number {number}", carried(ping(8, identifier, number)))
    to.one("icmp.echo", "don't fragment, TOS and TTL", carried(ping(), flags=DONT_FRAGMENT, tos=0x10, ttl=1))
    for size in (0, 1, 9):
        to.one("icmp.echo", f"{size} bytes, padded", packet(ping(size), proto=ICMP, pad=bytes(18 - size)))
    for it in (PEER2, address("8.8.8.8"), address("10.0.1.1")):
        to.one("icmp.echo", f"from {text_of(it)}", carried(ping(), it))
    for it in (BROADCAST, ONES):
        to.one("icmp.echo", f"to {text_of(it)}: may be answered", carried(ping(), PEER, it))
    to.one("icmp.echo", "code 1: may be answered", carried(ping(code=1)))
    damaged = ping()
    to.one("icmp.echo", "a wrong checksum: may be answered", carried(damaged[:-1] + b"\xff"))
    to.add("icmp.echo", "ten in a row", [carried(ping(number=it)) for it in range(10)])
    to.add("icmp.echo", "the same twice", [carried(ping())] * 2)
    datagrams = [packet(udp(data(size))) for size in (9, 8)]
    to.add("icmp.echo", "a datagram, a request, a datagram", [datagrams[0], carried(ping()), datagrams[1]])
    to.add("icmp.echo", "between two sends", [Send(0, PEER, 5000, data(9)), carried(ping()), Send(0, PEER, 5000, b"")])


def add_sums(to: Builder) -> None:
    """Requests whose checksum is computed as 0, or whose reply's is."""
    for words, kind in (("the request's", REQUEST), ("the reply's", 0)):
        for size in (0, 3, 20):
            bare = struct.pack(">BBHHH", kind, 0, 0, 0, 1) + data(size)
            made = ping(size, 0xFFFF - fold(bare))
            to.one("icmp.echo", f"{size} bytes, {words} checksum computed as 0", carried(made))
            if kind == REQUEST:
                to.one("icmp.echo", f"{size} bytes, the same as 0xffff", carried(made[:2] + b"\xff\xff" + made[4:]))


def add_cut_requests(to: Builder) -> None:
    """Reassembly belongs to the internet layer, so a request may arrive in fragments too (RFC 1122 3.3.2).
    Identifications differ, because one device on a wire gets all requests."""
    numbers = itertools.count(FIRST_ID)
    for size, step in ((1, 8), (40, 24), (56, 8), (500, 256), (548, 64)):
        cuts = even_cuts(8 + size, step)
        for how, order in (("forwards", 1), ("backwards", -1)):
            made = pieces(ping(size), cuts, id=next(numbers), proto=ICMP)
            to.add("icmp.echo", f"{size} bytes in {len(made)} fragments, {how}", made[::order])
    for which in ("first", "second"):
        half = pieces(ping(40), [24], id=next(numbers), proto=ICMP)[which == "second"]
        to.add("icmp.silent", f"the {which} half of a request", [half])


# Each with whether the request has a source route: then the host may reply by that route, directly, or not at all.
PING_OPTIONS = {
    "no operation, 4 times": b"\1\1\1\1",
    "end of list, 4 times": bytes(4),
    "40 bytes of no operation": b"\1" * 40,
    "unknown option 25": b"\x19\4\1\2",
    "router alert": b"\x94\4\0\0",
    "record route with room for 1": b"\7\7\4" + bytes(5),
    "record route with room for 9": b"\7\x27\4" + bytes(37),
    "record route with 2 of 3 recorded": b"\7\x0f\x0c\x0a\0\1\1\x0a\0\2\1" + bytes(5),
    "record route, full": b"\7\7\x08\x0a\0\0\2\0",
    "timestamps, room for 2": b"\x44\x0c\5\0" + bytes(8),
    "timestamps with addresses, room for 1": b"\x44\x0c\5\1" + bytes(8),
    "timestamps with addresses, 1 of 2 recorded": b"\x44\x14\x0d\1\x0a\0\1\1\0\0\0\1" + bytes(8),
    "timestamps, full": b"\x44\x08\x09\0\0\0\0\1",
    "timestamp asked of this host": b"\x44\x0c\5\3" + HOST.to_bytes(4, "big") + bytes(4),
    "timestamp asked of another host": b"\x44\x0c\5\3" + OTHER.to_bytes(4, "big") + bytes(4),
    "record route and timestamps": b"\7\7\4\0\0\0\0\x44\x0c\5\0" + bytes(9),
    "loose source route at its end: may be answered": b"\x83\7\x08\x0a\0\0\x09\0",
    "strict source route at its end: may be answered": b"\x89\7\x08\x0a\0\0\x09\0",
}


def add_pings_with_options(to: Builder) -> None:
    for name, options in PING_OPTIONS.items():
        rule = "icmp.echo.options" if "record" in name or "timestamp" in name else "icmp.echo"
        to.one(rule, f"a request with options: {name}", carried(ping(), options=options))


def add_unanswered(to: Builder) -> None:
    for it in (0, 5, LOOPBACK, BROADCAST, ONES, address("224.0.0.1")):
        to.one("icmp.silent", f"a request from {text_of(it)}", carried(ping(), it))
    to.one("icmp.silent", "a request for another host", carried(ping(), PEER, OTHER))
    to.one("icmp.silent", "a request with a wrong header checksum", carried(ping(), chksum=0x1111))
    for size in (0, 1, 4, 7):
        to.one("icmp.silent", f"{size} bytes of a request", carried(ping(0)[:size]))
    for kind in UNKNOWN:
        to.one("icmp.silent", f"type {kind}, which is unknown", carried(icmp(kind, bytes(4) + data(24))))
    for kind in REPLIES:
        to.one("icmp.silent", f"type {kind}, a reply that nobody asked for", carried(icmp(kind, bytes(4) + data(24))))
    for kind in QUESTIONS:
        to.one("icmp.silent", f"type {kind}, which a host leaves unanswered", carried(icmp(kind, bytes(8))))
    quotes: List[bytes] = [
        packet(udp(data(9), source=HOST, destination=PEER, sport=7, dport=5000), source=HOST, destination=PEER),
        packet(udp(data(9), source=PEER, dport=CLOSED_PORT), id=0x1234),
        carried(ping(), HOST, PEER),
    ]
    for kind, code in ERROR_CODES:
        for number, quote in enumerate(quotes, 1):
            message = icmp(kind, bytes(4) + quote[:28], code)
            to.one("icmp.silent", f"an error of type {kind} code {code}, quote {number}", carried(message))
    to.one("icmp.silent", "an error with a quote cut short", carried(icmp(3, bytes(4) + quotes[0][:9], 3)))
