"""A device on a wire, for `bsdudp-conform wire`.

The device has the address on a /24 network, by default 10.0.0.1, and a UDP echo service on port 7 (RFC 862), so that
each delivery is visible. Frames are sent through a packet socket (CAP_NET_RAW), with replies to ARP for each other
address of the network. A probe follows each packet: its echo shows that the device has processed the packets before
it."""
from __future__ import annotations

import argparse
import os
import select
import socket
import struct
import sys
import time
from typing import List, Optional

parser = argparse.ArgumentParser(prog="python3 -m bsdudp_conform.adapters.onwire", description=__doc__)
parser.add_argument("interface", metavar="INTERFACE", help="this machine's interface to the wire")
parser.add_argument("address", metavar="ADDRESS", nargs="?", help="the device's address, such as 10.0.0.1")
said = parser.parse_args()
if said.address:
    os.environ["BSDUDP_CONFORM_TARGET"] = said.address

from .._addresses import BROADCAST, HOST, ONES, PEER, PEER2, text_of  # noqa: E402
from .._freedom import Path  # noqa: E402
from .._packets import packet as made_packet  # noqa: E402
from .._packets import udp  # noqa: E402
from .._read import ICMP, UDP, read  # noqa: E402
from .._reassembly import Reassembly  # noqa: E402
from ..kit import Adapter, serve  # noqa: E402

MINE = b"\x02\0\0\0\0\2"
ALL = b"\xff" * 6
ETH_ALL, ARP, IPV4 = 3, b"\x08\x06", b"\x08\0"
SO_SNDBUFFORCE, PACKET_OUTGOING, PROBE_PORT, ECHO = 32, 4, 5999, 7
ASK_TIMES, ASK_S, PROBE_S, MANY = 50, 0.1, 10.0, 100


class Wire:
    """An interface, and the device on it."""

    def __init__(self, interface: str) -> None:
        self.socket = socket.socket(socket.AF_PACKET, socket.SOCK_RAW, socket.htons(ETH_ALL))
        self.socket.bind((interface, 0))
        self.socket.setblocking(False)
        self.socket.setsockopt(socket.SOL_SOCKET, SO_SNDBUFFORCE, 1 << 22)
        self.device: Optional[bytes] = None
        self.probes = 0
        ask = struct.pack(">HHBBH6sI6sI", 1, 0x0800, 6, 4, 1, MINE, PEER, bytes(6), HOST)
        for _ in range(ASK_TIMES):
            self.socket.send(ALL + MINE + ARP + ask)
            self.frames(ASK_S)
            if self.device:
                break
        else:
            sys.exit(f"no device on {interface} replies to ARP for {text_of(HOST)}")
        for peer in (PEER, PEER2):  # so that the device has resolved both
            self.put(made_packet(udp(b"first", source=peer), source=peer, id=0xFFF1))
        self.frames(0.3)

    def frames(self, seconds: float, until: bytes = b"") -> List[bytes]:
        """The IPv4 packets that arrive within this time, or before one that contains `until`. Replies to ARP."""
        found: List[bytes] = []
        end = time.monotonic() + seconds
        while select.select([self.socket], [], [], max(0.0, end - time.monotonic()))[0]:
            frame, sender = self.socket.recvfrom(70000)
            if sender[2] == PACKET_OUTGOING:
                continue
            if frame[12:14] == ARP:
                self.arp(frame)
            elif frame[12:14] == IPV4:
                if until and until in frame:
                    return found
                found.append(frame[14:])
        if until:
            print(f"note no echo of a probe in {seconds:.0f} s")
        return found

    def arp(self, frame: bytes) -> None:
        operation, hardware, sender, target = struct.unpack(">H6sI6xI", frame[20:42])
        if operation == 2 and sender == HOST:
            self.device = hardware
        if operation == 1 and target != HOST:
            answer = struct.pack(">HHBBH6sI6sI", 1, 0x0800, 6, 4, 2, MINE, target, hardware, sender)
            self.socket.send(hardware + MINE + ARP + answer)

    def put(self, packet: bytes) -> None:
        everyone = packet[16:20] in (BROADCAST.to_bytes(4, "big"), ONES.to_bytes(4, "big"))
        self.socket.send((ALL if everyone else self.device or ALL) + MINE + IPV4 + packet)

    def settled(self) -> List[bytes]:
        """The packets that arrived before the echo of a probe."""
        self.probes += 1
        mark = b"probe of the judge %d." % self.probes
        self.put(made_packet(udp(mark, sport=PROBE_PORT), id=0xFFF0))
        return self.frames(PROBE_S, mark)


class Device(Adapter):
    """A device, observed by its echoes."""

    name = "a device"
    has = ("out", "ping", "echo")
    forks = False
    wire: Wire

    def boot(self, mtu: int) -> None:
        self.wire.frames(0)
        self.reassembly = Reassembly(Path({}))
        self.unasked = 0

    def rx(self, packet: bytes) -> None:
        try:
            self.wire.put(packet)
        except OSError as fault:
            print(f"note not sent: {fault.strerror}")
        self.unasked += 1
        if self.step < MANY or self.unasked >= MANY:
            self.look()

    def wait(self, ms: int) -> None:
        time.sleep(ms / 1000)
        self.look()

    def end(self) -> None:
        if self.unasked:
            self.look()

    def look(self) -> None:
        """Reports the packets that arrived: echoes are the user's datagrams, the others are packets sent."""
        self.unasked = 0
        for packet in self.wire.settled():
            header = read(packet)
            if header is not None and header.protocol == UDP:
                data = header.data if header.whole else self.reassembly.arrive(header, 0)
                if data and len(data) >= 8 and int.from_bytes(data[:2], "big") == ECHO:
                    port, length = struct.unpack(">HH", data[2:6])
                    self.got(text_of(header.destination), port, data[8:length])
            elif header is None or header.protocol == ICMP:
                self.out(packet)


def main() -> None:
    Device.name = f"{text_of(HOST)} on {said.interface}"
    try:
        Device.wire = Wire(said.interface)
    except OSError as fault:
        sys.exit(f"{said.interface}: {fault.strerror}")
    serve(Device)


if __name__ == "__main__":
    main()
