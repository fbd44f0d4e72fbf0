"""Single packets: their destinations and sources, and ICMP errors about them."""
from __future__ import annotations

from .._addresses import BROADCAST, HOST, LOOPBACK, ONES, OTHER, PEER, ZERO_BROADCAST, address, text_of
from .._packets import CLOSED_PORT, DONT_FRAGMENT, MORE, packet, pieces, udp
from ._builder import Builder, both_ways
from ._headers import GOOD_OPTIONS

OTHERS = [OTHER, *map(address, ("10.0.1.1", "10.1.0.1", "8.8.8.8", "10.0.1.255", "192.168.0.1"))]
LOOPS = [LOOPBACK, address("127.0.0.2"), address("127.255.255.255")]
MULTICAST = [address("224.0.0.1"), address("239.255.255.250")]
CLASS_E = address("240.0.0.1")


def add_addresses(to: Builder) -> None:
    add_destinations(to)
    add_sources(to)
    add_errors(to)
    add_silence(to)


def towards(to: Builder, destination: int, source: int = PEER, **fields: int) -> bytes:
    return packet(
        udp(to.data(10), source=source, destination=destination, **fields), source=source, destination=destination
    )


def add_destinations(to: Builder) -> None:
    for it in OTHERS:
        to.one("ip.dst.other", f"destination {text_of(it)}", towards(to, it))
    for it in (BROADCAST, ONES):
        to.one("ip.dst.broadcast", f"destination {text_of(it)}", towards(to, it))
    for it in (ZERO_BROADCAST, 0):
        to.one("ip.dst.zerocast", f"destination {text_of(it)}", towards(to, it))
    for it in LOOPS:
        to.one("ip.dst.loopback", f"destination {text_of(it)}", towards(to, it))
        to.one("ip.dst.loopback", f"source and destination {text_of(it)}", towards(to, it, it))


def add_sources(to: Builder) -> None:
    for it in (BROADCAST, ONES, *MULTICAST, LOOPBACK, address("127.1.2.3")):
        to.one("ip.src.invalid", f"source {text_of(it)}", towards(to, HOST, it))
        to.one("ip.src.invalid", f"source {text_of(it)}, to the broadcast address", towards(to, BROADCAST, it))
    for it in (0, 5, address("0.255.255.255")):
        to.one("ip.src.zero", f"source {text_of(it)}", towards(to, HOST, it))
    for it in (HOST, CLASS_E, ZERO_BROADCAST):
        to.one("ip.src.policy", f"source {text_of(it)}", towards(to, HOST, it))
    to.one("ip.src.policy", "source 0.0.0.0 to 255.255.255.255", towards(to, ONES, 0))


def add_errors(to: Builder) -> None:
    for size in (0, 1, 10, 500, 1400):
        to.one("icmp.port", f"{size} bytes to port 9", packet(udp(to.data(size), dport=CLOSED_PORT), id=0x1234))
    closed = udp(to.data(10), dport=CLOSED_PORT)
    to.one("icmp.port", "to port 0", packet(udp(to.data(10), dport=0)))
    to.one("icmp.port", "no checksum", packet(udp(to.data(10), dport=CLOSED_PORT, check=0)))
    to.one("icmp.port", "don't fragment, TOS and TTL", packet(closed, flags=DONT_FRAGMENT, tos=0x10, ttl=3))
    to.one("icmp.port", "padded", packet(closed, pad=bytes(20)))
    for protocol in (2, 6, 33, 132, 136, 253, 255):
        to.one("icmp.proto", f"protocol {protocol}", packet(to.data(24), proto=protocol))


def add_quotes(to: Builder) -> None:
    """Errors about datagrams with options, and about datagrams in fragments: what they quote."""
    closed = udp(to.data(10), dport=CLOSED_PORT)
    for name, options in GOOD_OPTIONS.items():
        to.one("icmp.port", f"with options: {name}", packet(closed, options=options))
    big = udp(to.data(40), dport=CLOSED_PORT)
    for way, both in both_ways(pieces(big, [24], id=to.id)):
        to.add("icmp.port", f"in 2 fragments, {way}", both)
    for name in ("no operation, 4 times", "record route"):
        made = packet(closed, proto=253, options=GOOD_OPTIONS[name])
        to.one("icmp.proto", f"protocol 253 with options: {name}", made)
    for way, both in both_ways(pieces(big, [24], id=to.id, proto=253)):
        to.add("icmp.proto", f"protocol 253 in 2 fragments, {way}", both)
    first = packet(big[:24], flags=MORE, id=to.id, options=b"\1\1\1\0")
    to.add("icmp.reass", "the first of two with options, then 130 s", [first, 130000])


def add_silence(to: Builder) -> None:
    for it in (BROADCAST, ONES):
        to.one("icmp.never", f"port 9 of {text_of(it)}", towards(to, it, dport=CLOSED_PORT))
        to.one("icmp.never", f"protocol 253 to {text_of(it)}", packet(to.data(10), destination=it, proto=253))
    for it in (0, LOOPBACK, BROADCAST, ONES, MULTICAST[0], CLASS_E):
        to.one("icmp.never", f"port 9, source {text_of(it)}", towards(to, HOST, it, dport=CLOSED_PORT))
        to.one("icmp.never", f"protocol 253, source {text_of(it)}", packet(to.data(10), source=it, proto=253))
    to.one("icmp.never", "port 9, wrong UDP checksum", packet(udp(to.data(10), dport=CLOSED_PORT, check=0x1111)))
    to.one("icmp.never", "port 9, wrong header checksum", packet(udp(to.data(10), dport=CLOSED_PORT), chksum=0x1111))
    to.one("icmp.never", "port 9 of another host", towards(to, OTHER, dport=CLOSED_PORT))
