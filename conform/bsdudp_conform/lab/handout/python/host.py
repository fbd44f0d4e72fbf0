"""The host around the six steps: its sockets, its clock, ICMP errors, and the judge's lines."""
from __future__ import annotations

import struct
from typing import Dict, List, Tuple

from bsdudp_conform.kit import Adapter, serve
from lab import HOST, ICMP, LONGEST, UDP, Header, Host, Socket
from step1 import read_header
from step2 import header_sum_holds, ones_sum
from step3 import udp_receive
from step4 import put_udp
from step5 import ip_output
from step6 import expire, reassemble

UNREACHABLE, EXCEEDED = 3, 11
MOST_WAITING = 64


def number_of(address: str) -> int:
    return int.from_bytes(bytes(map(int, address.split("."))), "big")


class LabHost(Adapter, Host):
    name = "the lab's stack"
    has = ("out", "send", "mtu", "sockets", "connect", "hold")

    def boot(self, mtu: int) -> None:
        self.mtu = mtu
        self.sockets = [Socket(0, 7)]
        self.held: Dict[int, List[Tuple[str, int, bytes]]] = {}

    def open(self, socket: int, port: int) -> None:
        self.sockets.append(Socket(socket, port))

    def connect(self, socket: int, address: str, port: int) -> None:
        self.sockets[socket].peer = (number_of(address), port)

    def deliver(self, to: Socket, source: int, port: int, data: bytes) -> None:
        address = ".".join(map(str, source.to_bytes(4, "big")))
        if to.number not in self.held:
            self.got(address, port, data, to.number)
        elif len(self.held[to.number]) < MOST_WAITING:
            self.held[to.number].append((address, port, data))

    def transmit(self, packet: bytes) -> None:
        self.out(packet)

    def icmp_error(self, kind: int, code: int, packet: bytes) -> None:
        """Sends an ICMP error about a packet: its header with the options, and 8 bytes (RFC 792)."""
        total = int.from_bytes(packet[2:4], "big")
        quote = packet[: min(total, (packet[0] & 15) * 4 + 8)]
        bare = bytes([kind, code]) + bytes(6) + quote
        message = bare[:2] + struct.pack(">H", 0xFFFF ^ ones_sum(bare)) + bare[4:]
        ip_output(self, Header(HOST, int.from_bytes(packet[12:16], "big"), protocol=ICMP, data=message), self.mtu)

    def time_exceeded(self, packet: bytes) -> None:
        if int.from_bytes(packet[16:20], "big") == HOST:
            self.icmp_error(EXCEEDED, 1, packet)

    def rx(self, packet: bytes) -> None:
        it = read_header(packet)
        if it is None or not header_sum_holds(packet):
            return
        if it.offset or it.more:
            it = reassemble(self, it)
            if it is None:
                return
        taken = udp_receive(self, it) if it.protocol == UDP else it.protocol == ICMP
        if not taken and it.destination == HOST:
            self.icmp_error(UNREACHABLE, 3 if it.protocol == UDP else 2, it.packet)

    def wait(self, ms: int) -> None:
        self.now += ms
        expire(self)

    def send(self, socket: int, address: str, port: int, data: bytes) -> bool:
        if len(data) > LONGEST - 8:
            return False
        datagram = put_udp(self.sockets[socket].port, number_of(address), port, data)
        ip_output(self, Header(HOST, number_of(address), data=datagram), self.mtu)
        return True

    def hold(self, socket: int) -> None:
        self.held[socket] = []

    def read(self, socket: int, count: int) -> None:
        line = self.held[socket]
        for it in line[:count]:
            self.got(*it, socket)
        self.held[socket] = line[count:]


if __name__ == "__main__":
    serve(LabHost)
