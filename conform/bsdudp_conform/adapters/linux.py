"""The Linux kernel, judged by `bsdudp-conform run -- python3 -m bsdudp_conform.adapters.linux`.

Each case has its own network namespace, with packets over a TUN device, and its waits take real time. It needs root,
unshare and /dev/net/tun."""
from __future__ import annotations

import argparse
import ctypes
import fcntl
import os
import platform
import select
import socket
import struct
import subprocess
import time
from typing import Dict, List, Set

from .._packets import packet, udp
from ..kit import Adapter, serve

CLONE_NEWNET, TUNSETIFF, TUN = 0x40000000, 0x400454CA, 0x0001
SO_RCVBUFFORCE, IP_MTU_DISCOVER, DONT = 33, 10, 0
IPV4_FRAME = b"\0\0\x08\0"
# A packet to this port of the adapter is sent last: when it arrives, the kernel has processed those before it.
PROBE_PORT, PROBE_S = 65000, 10.0
SETUP = """addr add 10.0.0.1/24 broadcast + dev t0
link set lo up
link set t0 up mtu {mtu}
route add default dev t0
"""


def sysctl(name: str, value: object) -> None:
    with open(f"/proc/sys/net/{name}", "w", encoding="ascii") as file:
        file.write(str(value))


class Linux(Adapter):
    """The kernel's UDP."""

    name = f"Linux {platform.release()}"
    has = ("out", "ping", "send", "mtu", "sockets", "connect", "hold")
    settings: List[str] = []
    probe = b""

    def boot(self, mtu: int) -> None:
        if ctypes.CDLL(None, use_errno=True).unshare(CLONE_NEWNET):
            raise OSError(ctypes.get_errno(), "no network namespace")
        self.tun = os.open("/dev/net/tun", os.O_RDWR | os.O_NONBLOCK)
        fcntl.ioctl(self.tun, TUNSETIFF, struct.pack("16sH22x", b"t0", TUN))
        sysctl("ipv6/conf/t0/disable_ipv6", 1)
        sysctl("ipv4/icmp_ratelimit", 0)
        for word in self.settings:
            name, value = word.split("=")
            sysctl(f"ipv4/{name}", value)
        subprocess.run(["ip", "-batch", "-"], input=SETUP.format(mtu=mtu), text=True, check=True)
        self.sockets: Dict[int, socket.socket] = {}
        self.held: Set[int] = set()
        self.open(0, 7)
        self.settled = bound(PROBE_PORT)
        self.read_tun()

    def open(self, socket: int, port: int) -> None:
        self.sockets[socket] = bound(port)

    def connect(self, socket: int, address: str, port: int) -> None:
        self.sockets[socket].connect((address, port))

    def rx(self, packet: bytes) -> None:
        try:
            os.write(self.tun, IPV4_FRAME + packet)
        except OSError as fault:
            print(f"note the TUN device refuses: {fault}")
        self.drain()

    def wait(self, ms: int) -> None:
        time.sleep(ms / 1000 + 0.2 if ms >= 1000 else ms / 1000)
        self.drain()

    def send(self, socket: int, address: str, port: int, data: bytes) -> bool:
        it = self.sockets[socket]
        try:
            try:
                peer = it.getpeername()
            except OSError:
                it.sendto(data, (address, port))
            else:
                assert peer == (address, port)
                it.send(data)
        except OSError as fault:
            print(f"note the send is refused: {fault}")
            return False
        finally:
            self.drain()
        return True

    def end(self) -> None:
        os.write(self.tun, IPV4_FRAME + self.probe)
        select.select([self.settled], [], [], PROBE_S)
        self.drain()

    def drain(self) -> None:
        for number in sorted(self.sockets, reverse=True):
            while number not in self.held and self.read(number, 1):
                pass
        for packet in self.read_tun():
            self.out(packet)

    def hold(self, socket: int) -> None:
        self.held.add(socket)

    def read(self, socket: int, count: int) -> bool:
        """Also returns whether a datagram or an error was there."""
        for number in range(count):
            try:
                data, (address, port) = self.sockets[socket].recvfrom(65536)
                self.got(address, port, data, socket)
            except BlockingIOError:
                return number > 0
            except OSError as fault:
                print(f"note a socket's error: {fault}\nrefused {self.step}")
        return True

    def read_tun(self) -> List[bytes]:
        found: List[bytes] = []
        while True:
            try:
                packet = os.read(self.tun, 65540)[4:]
            except BlockingIOError:
                return found
            if packet[:1] and packet[0] >> 4 == 4:
                found.append(packet)


def bound(port: int) -> socket.socket:
    """A socket on a port of any address, with space for all datagrams of a case."""
    it = socket.socket(socket.AF_INET, socket.SOCK_DGRAM)
    it.setsockopt(socket.SOL_SOCKET, SO_RCVBUFFORCE, 1 << 23)
    it.setsockopt(socket.SOL_SOCKET, socket.SO_REUSEADDR, 1)
    it.setsockopt(socket.IPPROTO_IP, IP_MTU_DISCOVER, DONT)
    it.bind(("0.0.0.0", port))
    it.setblocking(False)
    return it


def main() -> None:
    parser = argparse.ArgumentParser(prog="python3 -m bsdudp_conform.adapters.linux", description=__doc__)
    parser.add_argument("settings", metavar="NAME=VALUE", nargs="*", help="a sysctl under net.ipv4")
    Linux.settings = parser.parse_args().settings
    Linux.probe = packet(udp(b"probe", dport=PROBE_PORT), id=0xFFF0)
    serve(Linux)


if __name__ == "__main__":
    main()
