"""Calls of users: further sockets, connected ones, and sends."""
from __future__ import annotations

from typing import Any, Dict, List

from .._addresses import BROADCAST, HOST, PEER, PEER2, ZERO_BROADCAST, address
from .._case import Connect, Open, Send, Step
from .._packets import even_cuts, packet, pieces, udp
from ._builder import Builder, Given, both_ways
from ._datagrams import data_with_sum_zero
from ._fragments import PATTERNS, in_pattern

MTUS = (68, 69, 75, 76, 84, 100, 256, 296, 508, 576, 1006, 1280, 1492, 1500)
OTHER_PORT = 70


def add_users(to: Builder) -> None:
    add_ports(to)
    add_connected(to)
    add_several(to)
    add_sends(to)
    add_sums_and_numbers(to)


def at(to: Builder, dport: int = 7, source: int = PEER, sport: int = 5000, destination: int = HOST) -> bytes:
    data = udp(to.data(10), source=source, destination=destination, sport=sport, dport=dport)
    return packet(data, source=source, destination=destination, id=to.id)


def add_ports(to: Builder) -> None:
    for port in (OTHER_PORT, 8, 6, 0x0700, 0x8007, 65535, 1024):
        to.add("socket.ports", f"sockets on 7 and {port}, a datagram for each", [Open(1, port), at(to), at(to, port)])
        to.add("socket.ports", f"sockets on 7 and {port}, a datagram for neither", [Open(1, port), at(to, 9)])
        halves = pieces(udp(to.data(40), dport=port), [24], id=to.id)
        to.add("socket.ports", f"sockets on 7 and {port}, fragments for the second", [Open(1, port), *halves])
    for count in (3, 8):
        opened: List[Given] = [Open(number, 100 + number) for number in range(1, count)]
        to.add(
            "socket.ports",
            f"{count} sockets, a datagram for each",
            [*opened, at(to), *[at(to, 100 + it) for it in range(1, count)]],
        )


def add_connected(to: Builder) -> None:
    joined = Connect(0, PEER, 5000)
    strangers = {
        "another address": at(to, source=PEER2),
        "another port": at(to, sport=5001),
        "port 0": at(to, sport=0),
        "both": at(to, source=PEER2, sport=5001),
    }
    to.add("socket.connected", "its peer's datagram", [joined, at(to)])
    to.add("socket.connected", "its peer's broadcast", [joined, at(to, destination=BROADCAST)])
    for name, stranger in strangers.items():
        to.add("socket.connected", f"a datagram of a stranger: {name}", [joined, stranger])
        to.add(
            "socket.connected", f"a stranger's, its peer's, a stranger's: {name}", [joined, stranger, at(to), stranger]
        )
        to.add(
            "socket.connected", f"a stranger's before it's connected, and after: {name}", [stranger, joined, stranger]
        )
    to.add("socket.connected", "its peer's datagram in fragments", [joined, *to.halves()])
    for how in (1, -1):
        strange = pieces(udp(to.data(40), source=PEER2), [24], source=PEER2, id=to.id)
        to.add("socket.connected", "a stranger's datagram in fragments", [joined, *strange[::how]])
    to.add(
        "socket.connected",
        "connected anew: the new peer is heard",
        [joined, Connect(0, PEER2, 6), at(to, source=PEER2, sport=6)],
    )
    to.add("socket.connected", "connected anew: the old peer isn't", [joined, Connect(0, PEER2, 6), at(to)])


def cut(to: Builder, source: int = PEER, sport: int = 5000, dport: int = 7) -> List[bytes]:
    """Two fragments of a datagram."""
    return pieces(udp(to.data(40), source=source, sport=sport, dport=dport), [24], source=source, id=to.id)


def add_senders(to: Builder) -> None:
    """The sender: with no other packets, and while another's fragments or datagrams arrive."""
    ports = (1, 255, 256, 4999, 0x8000, 65535)
    alone: Dict[str, Dict[str, Any]] = {f"port {port}": {"sport": port} for port in ports}
    alone.update({"another address": {"source": PEER2}, "another network": {"source": address("192.0.2.9")}})
    for name, sender in alone.items():
        to.add("udp.source", name, [at(to, **sender)])
        for way, made in both_ways(cut(to, **sender)):
            to.add("udp.source", f"{name}, in fragments, {way}", made)
    for name, sender in {
        "port": {"sport": 6001},
        "address": {"source": PEER2},
        "port and address": {"sport": 6001, "source": PEER2},
    }.items():
        for pattern in PATTERNS:
            to.add("udp.source", f"another {name}: {pattern}", in_pattern(pattern, cut(to), cut(to, **sender)))
        one, other = cut(to)
        to.add("udp.source", f"a whole one of another {name} between two fragments", [one, at(to, **sender), other])
        to.add("udp.source", f"a whole one of another {name} before two fragments", [at(to, **sender), *cut(to)])
        to.add("udp.source", f"a whole one of another {name} before a whole one", [at(to, **sender), at(to)])


def add_ports_of_fragments(to: Builder) -> None:
    for pattern in PATTERNS:
        both = in_pattern(pattern, cut(to), cut(to, dport=OTHER_PORT))
        to.add("socket.ports", f"fragments for two sockets: {pattern}", [Open(1, OTHER_PORT), *both])


def add_strangers(to: Builder) -> None:
    """Senders that differ from the peer in one field."""
    joined = Connect(0, PEER, 5000)
    for name, sender in {"another port": {"sport": 5001}, "both": {"source": PEER2, "sport": 5001}}.items():
        for way, made in both_ways(cut(to, **sender)):
            to.add("socket.connected", f"a stranger's datagram in fragments: {name}, {way}", [joined, *made])
    # four at a time, because a host may limit its errors
    for first in range(0, 16, 4):
        near = [at(to, sport=5000 ^ 1 << bit) for bit in range(first, first + 4)]
        to.add("socket.connected", f"strangers' ports differ in bits {first} to {first + 3}", [joined, *near, at(to)])
    for first in range(0, 32, 4):
        others = (PEER ^ 1 << bit for bit in range(first, first + 4))
        near = [at(to, source=it) for it in others if it != ZERO_BROADCAST]
        name = f"strangers' addresses differ in bits {first} to {first + 3}"
        to.add("socket.connected", name, [joined, *near, at(to)])


def add_connected_anew(to: Builder) -> None:
    """Senders whose datagrams did or didn't arrive before the socket was connected to another peer."""
    joined, anew = Connect(0, PEER, 5000), Connect(0, PEER2, 6)
    name = "connected anew: the old peer, heard before, isn't"
    to.add("socket.connected", name, [joined, at(to), anew, at(to)])
    to.add("socket.connected", f"{name}, in fragments", [joined, at(to), anew, *cut(to)])
    heard, then = (at(to, source=PEER2, sport=6) for _ in (0, 1))
    to.add("socket.connected", "connected anew: the new peer, a stranger before, is heard", [joined, heard, anew, then])
    one, other = cut(to, source=PEER2, sport=6)
    name = "connected anew: the new peer's first fragment comes before, its last after"
    to.add("socket.connected", name, [joined, one, anew, other])


def add_sockets_between_fragments(to: Builder) -> None:
    """A datagram's socket is looked up when the datagram is whole."""
    for way, (one, other) in both_ways(cut(to, dport=OTHER_PORT)):
        name = f"a socket is bound between two fragments for its port, {way}"
        to.add("socket.ports", name, [one, Open(1, OTHER_PORT), other])
    for way, (one, other) in both_ways(cut(to, source=PEER2)):
        name = f"a socket is connected between two fragments of a stranger, {way}"
        to.add("socket.connected", name, [one, Connect(0, PEER, 5000), other])


def add_sockets_after_datagrams(to: Builder) -> None:
    """A datagram isn't kept for a socket that is bound to its port later."""
    early = {"a datagram": [at(to, OTHER_PORT)], "a datagram in fragments": cut(to, dport=OTHER_PORT)}
    for name, made in early.items():
        steps: List[Given] = [*made, Open(1, OTHER_PORT), at(to)]
        to.add("socket.ports", f"{name} for port {OTHER_PORT}, and then a socket on it", steps)


def add_empty_datagrams(to: Builder) -> None:
    """Datagrams without data."""
    empty, other = (packet(udp(b"", dport=port), id=to.id) for port in (7, OTHER_PORT))
    second: List[Given] = [Open(1, OTHER_PORT), other]
    to.add("socket.ports", f"sockets on 7 and {OTHER_PORT}, a datagram without data for the second", second)
    to.add("socket.connected", "its peer's datagram without data", [Connect(0, PEER, 5000), empty])


def add_broadcasts(to: Builder) -> None:
    """A broadcast from a sender that isn't the peer, and broadcasts that may be too long for one buffer of several
    sockets."""
    joined, second = Connect(0, PEER, 5000), Open(1, 7)
    for name, sender in {"another address": {"source": PEER2}, "another port": {"sport": 5001}}.items():
        stranger = at(to, destination=BROADCAST, **sender)
        to.add("socket.connected", f"a stranger's broadcast: {name}", [joined, stranger])
        to.add("socket.connected", f"a stranger's broadcast: {name}; a second socket", [second, joined, stranger])
    for count in (2, 3):
        opened = [Open(number, 7) for number in range(1, count)]
        for size in (200, 500, 1400, 3000):
            data = udp(to.data(size), destination=BROADCAST)
            made = pieces(data, even_cuts(len(data), 1480), destination=BROADCAST, id=to.id)
            to.add("socket.several", f"{count} sockets on the port, a broadcast of {size} bytes", [*opened, *made])


def add_sends_of_two(to: Builder) -> None:
    """Sends by two sockets: the ports are each socket's own, the identifications are the host's."""
    second = Open(1, OTHER_PORT)
    for rule, length in (("send.bytes", 10), ("send.cut", 2000)):
        one, other = (Send(number, PEER, 5000, to.data(length)) for number in (0, 1))
        to.add(rule, f"{length} bytes by a second socket", [second, other])
        to.add(rule, f"{length} bytes by each of two sockets, in turn", [second, one, other, one, other])
    for length in (2000, 4000):
        one, other = (Send(number, PEER, 5000, to.data(length)) for number in (0, 1))
        to.add("send.id", f"cut sends of {length} bytes by two sockets, in turn", [second, one, other, one, other])


def add_several(to: Builder) -> None:
    second: Step = Open(1, 7)
    to.add("socket.several", "two sockets on the port", [second, at(to)])
    to.add("socket.several", "two sockets on the port, a broadcast", [second, at(to, destination=BROADCAST)])
    to.add(
        "socket.several", "three sockets on the port, a broadcast", [second, Open(2, 7), at(to, destination=BROADCAST)]
    )
    for number in (0, 1):
        joined = Connect(number, PEER, 5000)
        to.add("socket.several", f"two sockets, number {number} connected, its peer's", [second, joined, at(to)])
        to.add(
            "socket.several",
            f"two sockets, number {number} connected, a stranger's",
            [second, joined, at(to, source=PEER2)],
        )
    to.add(
        "socket.several",
        "two sockets, each connected to another peer",
        [second, Connect(0, PEER, 5000), Connect(1, PEER2, 5000), at(to), at(to, source=PEER2)],
    )


def sent(to: Builder, length: int, address: int = PEER, port: int = 5000) -> Send:
    return Send(0, address, port, to.data(length))


def add_peers(to: Builder) -> None:
    """The sender of a datagram, and the peer of a socket."""
    add_senders(to)
    add_ports_of_fragments(to)
    add_strangers(to)
    add_connected_anew(to)
    add_sockets_between_fragments(to)
    add_broadcasts(to)
    add_sends_of_two(to)


def add_sends(to: Builder) -> None:
    for length in (*range(40), 99, 100, 101, 207, 208, 209, 547, 548, 1471, 1472):
        to.add("send.bytes", f"{length} bytes", [sent(to, length)])
    for mtu in MTUS:
        most = (mtu - 20) // 8 * 8
        around = {mtu - 28 + more for more in (-1, 0, 1)} | {
            most * count - 8 + more for count in (1, 2, 3, 5, 9) for more in (-1, 0, 1)
        }
        for length in sorted(it for it in around if it >= 0):
            to.add("send.cut", f"{length} bytes at MTU {mtu}", [sent(to, length)], mtu)
    for mtu, length in (
        (1500, 9216),
        (1500, 9217),
        (1500, 30000),
        (1500, 65507),
        (576, 9216),
        (296, 9216),
        (68, 2392),
        (68, 9216),
    ):
        to.add("send.cut", f"{length} bytes at MTU {mtu}", [sent(to, length)], mtu)
    for mtu in range(68, 1500, 61):
        to.add("send.cut", f"3000 bytes at MTU {mtu}", [sent(to, 3000)], mtu)


def add_many_sends(to: Builder) -> None:
    """More cut sends than an identification of 8 bits distinguishes."""
    to.add("send.id", "300 cut sends", [sent(to, 1600) for _ in range(300)])


def add_sums_and_numbers(to: Builder) -> None:
    for size in (2, 3, 8, 100, 1001):
        data = data_with_sum_zero(size, HOST, PEER, 7, 5000)
        to.add("send.checksum", f"{size} bytes with a checksum computed as 0", [Send(0, PEER, 5000, data)])
    for size in (3000, 2001):
        data = data_with_sum_zero(size, HOST, PEER, 7, 5000)
        to.add("send.checksum", f"{size} bytes with a checksum computed as 0, cut", [Send(0, PEER, 5000, data)], 576)
    for size in (0, 1, 10):
        to.add("send.checksum", f"{size} bytes", [sent(to, size)])
    for count in (2, 5, 20):
        to.add("send.id", f"{count} cut sends", [sent(to, 2000 + it) for it in range(count)])
        to.add("send.id", f"{count} cut sends of the same bytes", [sent(to, 2000)] * count)
    to.add("send.bytes", "a send between two packets that come", [at(to), sent(to, 10), at(to)])
    to.add("send.bytes", "a connected socket sends", [Connect(0, PEER, 5000), sent(to, 10), at(to)])
    to.add("send.bytes", "sends to two others", [sent(to, 10), sent(to, 10, PEER2, 6), sent(to, 10, PEER, 65535)])
