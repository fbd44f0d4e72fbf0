"""bsdudp as a host on an Ethernet: `python3 -m bsdudp_conform.adapters.ethernet`, over the Python package and the C
library, which BSDUDP_LIBRARY names.

A case's packets are sent as frames of a neighbour, and the host's packets are taken from its frames. This side replies
to ARP for each address except the host's. The host has a gateway, so that it can reply to other networks. A wait is
passed on as ticks of half a second, and its remainder is added to the next wait."""
from __future__ import annotations

import argparse
import socket as names
import struct
import sys
from typing import TYPE_CHECKING, List, Set

from ..kit import Adapter, serve

if TYPE_CHECKING:
    from bsdudp import Socket

OWN_MAC, PEER_MAC, ALL = b"\2\0\0\0\0\1", b"\2\0\0\0\0\2", b"\xff" * 6
ARP, IPV4 = b"\x08\x06", b"\x08\0"
HOST, GATEWAY, PEERS = "10.0.0.1", "10.0.0.254", ("10.0.0.2", "10.0.0.3")
BROADCASTS = (bytes([10, 0, 0, 255]), ALL[:4])
TICK_MS, ANNOUNCED_TICKS = 500, 6
ARP_FORM, REQUEST, REPLY = ">HHBBH6s4s6s4s", 1, 2


def is_group(address: bytes) -> bool:
    """Whether packets to an address go to all of a link, or to a group."""
    return address in BROADCASTS or 0xE0 <= address[0] < 0xF0


def raw(address: str) -> bytes:
    return bytes(map(int, address.split(".")))


def arp(operation: int, sender: bytes, target_mac: bytes, target: bytes) -> bytes:
    """A frame from this side, which has all addresses except the host's."""
    body = struct.pack(ARP_FORM, 1, 0x0800, 6, 4, operation, PEER_MAC, sender, target_mac, target)
    return (ALL if operation == REQUEST else OWN_MAC) + PEER_MAC + ARP + body


class Ethernet(Adapter):
    """The host, by its frames."""

    name = "bsdudp on an Ethernet"
    has = ("out", "ping", "send", "mtu", "sockets", "connect", "hold")
    forks = False

    def boot(self, mtu: int) -> None:
        import bsdudp  # it needs the C library, and `--help` doesn't

        self.host = bsdudp.Host(HOST, OWN_MAC, gateway=GATEWAY, mtu=mtu)
        self.sockets: "List[Socket]" = []
        self.connected: Set[int] = set()
        self.held: Set[int] = set()
        self.owed = 0
        self.open(0, 7)
        self.host.tick(ANNOUNCED_TICKS)
        for peer in (GATEWAY, *PEERS):  # the host learns the address of each sender of an ARP request for it
            self.host.receive(arp(REQUEST, raw(peer), bytes(6), raw(HOST)))
        self.packets()

    def packets(self) -> List[bytes]:
        """The packets that the host sends. ARP requests get a reply, so that packets that wait for one are sent too."""
        found: List[bytes] = []
        for frame in map(bytes, self.host.frames()):
            if frame[12:14] == IPV4:
                found.append(frame[14:])
                continue
            _, _, _, _, operation, _, sender, _, target = struct.unpack(ARP_FORM, frame[14:42])
            if operation == REQUEST and target != raw(HOST):
                self.host.receive(arp(REPLY, target, OWN_MAC, sender))
        return found

    def drain(self) -> None:
        """Reports the datagrams of the sockets, and the packets sent."""
        for number in reversed(range(len(self.sockets))):
            while number not in self.held and self.read(number, 1):
                pass
        for packet in self.packets():
            self.out(packet)

    def hold(self, socket: int) -> None:
        self.held.add(socket)

    def read(self, socket: int, count: int) -> bool:
        """Also returns whether a datagram was there."""
        it = self.sockets[socket]
        was_there = it.waiting is not None
        for _ in range(count):
            if it.waiting is not None:
                data, (address, port) = it.recvfrom()
                self.got(address, port, data, socket)
        return was_there

    def rx(self, packet: bytes) -> None:
        self.host.receive((ALL if is_group(packet[16:20].ljust(4, b"\0")) else OWN_MAC) + PEER_MAC + IPV4 + packet)
        self.drain()

    def wait(self, ms: int) -> None:
        ticks, self.owed = divmod(self.owed + ms, TICK_MS)
        for _ in range(ticks):
            self.host.tick()
            self.drain()

    def open(self, socket: int, port: int) -> None:
        it = self.host.socket()
        it.setsockopt(names.SOL_SOCKET, names.SO_REUSEPORT, 1)
        it.bind(("", port))
        self.sockets.append(it)

    def connect(self, socket: int, address: str, port: int) -> None:
        self.connected.add(socket)
        self.sockets[socket].connect((address, port))

    def send(self, socket: int, address: str, port: int, data: bytes) -> bool:
        it = self.sockets[socket]
        try:
            if socket in self.connected:
                it.send(data)
            else:
                it.sendto(data, (address, port))
        except OSError as fault:
            print(f"note the send is refused: {fault}")
            return False
        finally:
            self.drain()
        return True

    def end(self) -> None:
        self.host.end()


def main() -> None:
    argparse.ArgumentParser(prog="python3 -m bsdudp_conform.adapters.ethernet", description=__doc__).parse_args()
    try:
        import bsdudp  # noqa: F401
    except ImportError as fault:
        sys.exit(str(fault))
    serve(Ethernet)


if __name__ == "__main__":
    main()
