"""The types of the course's UDP/IPv4 stack, which all steps use. The grader has its own copies of lab.py and host.py, so
changes to them don't count."""
from __future__ import annotations

from dataclasses import dataclass
from typing import List, Optional, Tuple

HOST = 0x0A000001  # the address of this host, 10.0.0.1
BROADCAST = 0x0A0000FF  # the broadcast address of its network, 10.0.0.255
ONES = 0xFFFFFFFF  # 255.255.255.255, the other broadcast address
LONGEST = 65515  # the longest data of an IPv4 datagram, in bytes
ICMP, UDP = 1, 17


@dataclass
class Header:
    """An IPv4 packet, or a datagram that was put together from fragments. Addresses are numbers."""

    source: int
    destination: int
    identification: int = 0
    protocol: int = UDP
    offset: int = 0  # where its data begins in the whole datagram, in bytes
    more: bool = False  # whether more fragments follow
    data: bytes = b""  # its data, after the header and the options
    packet: bytes = b""  # the packet from its header on; of a datagram in fragments: the first fragment


@dataclass
class Socket:
    """A UDP socket, bound to a port of all addresses. peer: the address and port that it's connected to."""

    number: int
    port: int
    peer: Optional[Tuple[int, int]] = None


class Host:
    """What host.py does for your steps."""

    sockets: List[Socket]  # the oldest first
    now = 0  # in milliseconds

    def deliver(self, to: Socket, source: int, port: int, data: bytes) -> None:
        """A socket receives a datagram of this sender."""

    def transmit(self, packet: bytes) -> None:
        """A packet leaves on the wire."""

    def time_exceeded(self, packet: bytes) -> None:
        """Sends ICMP Time Exceeded about a packet."""
