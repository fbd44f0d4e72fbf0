"""ICMP errors that arrive at a host about what it sent: whether a call reports them is a policy, and its sockets live on.
Their bytes count up, as those of pings."""
from __future__ import annotations

from typing import Any, List

from .._addresses import HOST, PEER, PEER2
from .._case import Connect, Open, Send, Step
from .._machine import ERRORS_OF_SENDS
from .._packets import MORE, packet, pieces, udp
from .._read import ICMP
from ._builder import Builder, Given
from ._pings import carried, data, icmp

RULE = "icmp.error"
PORT = (3, 3)
SIZE = 10
SECOND_PORT = 70
NAMES = {
    (3, 0): "Net Unreachable",
    (3, 1): "Host Unreachable",
    (3, 2): "Protocol Unreachable",
    PORT: "Port Unreachable",
    (3, 4): "Fragmentation Needed",
    (4, 0): "Source Quench",
    (5, 1): "Redirect",
    (11, 0): "Time Exceeded",
    (12, 0): "Parameter Problem",
}


def quote(sport: int = 7, peer: int = PEER, dport: int = 5000, **fields: Any) -> bytes:
    """The packet of a send, as an error quotes it."""
    sent = udp(data(SIZE), source=HOST, destination=peer, sport=sport, dport=dport)
    return packet(sent, source=HOST, destination=peer, **fields)[:28]


def error(kind: "tuple[int, int]" = PORT, about: bytes = b"") -> bytes:
    """An ICMP error: about a send of socket 0 to its peer if nothing else is given."""
    return carried(icmp(kind[0], bytes(4) + (about or quote()), kind[1]))


def sent(socket: int = 0, peer: int = PEER) -> Send:
    return Send(socket, peer, 5000, data(SIZE))


def add_errors_of_sends(to: Builder) -> None:
    joined: Step = Connect(0, PEER, 5000)
    after: List[Given] = [sent(), packet(udp(data(SIZE)))]
    assert {*NAMES} == ERRORS_OF_SENDS["all"]
    for kind, name in NAMES.items():
        to.add(RULE, f"{name} about a send of a connected socket", [joined, sent(), error(kind), *after])
        to.add(RULE, f"{name} about a send of a socket that isn't connected", [sent(), error(kind), *after])
    others = {
        "another port": quote(dport=5001),
        "another peer": quote(peer=PEER2),
        "another socket's port": quote(sport=8),
        "another protocol": quote(proto=6),
        "a fragment that isn't the first": quote(offset=8, flags=MORE),
        "a header of 60 bytes that isn't there": quote(ihl=15),
        "a header of 0 bytes": quote(ihl=0),
        "another version": quote(version=6),
        **{f"{size} bytes of a send": quote()[:size] for size in (1, 8, 19, 20, 23, 27)},
    }
    for name, about in others.items():
        to.add(RULE, f"Port Unreachable that quotes {name}", [joined, sent(), error(PORT, about), *after])
    bare = carried(icmp(3, bytes(4), 3))
    damaged = packet(icmp(3, bytes(4) + quote(), 3)[:-1] + b"\xff", proto=ICMP)
    cut = pieces(icmp(3, bytes(4) + quote(), 3), [24], id=0x90, proto=ICMP)
    for name, packets in {"without a quote": [bare], "with a wrong checksum": [damaged], "in 2 fragments": cut}.items():
        to.add(RULE, f"Port Unreachable {name}", [joined, sent(), *packets, *after])
    to.add(RULE, "Port Unreachable twice", [joined, sent(), error(), error(), *after])
    second: List[Given] = [Open(1, SECOND_PORT), Connect(1, PEER2, 5000), joined, sent(1, PEER2)]
    about = error(PORT, quote(SECOND_PORT, PEER2))
    to.add(RULE, "Port Unreachable about a send of a second socket", [*second, about, *after])
