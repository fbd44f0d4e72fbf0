"""passt: `python3 -m bsdudp_conform.adapters.passt`, in a network namespace (root, unshare, /dev/net/tun).

passt is a gateway for a virtual machine, and leaves checksums to its link. Frames go in by its socket, and a datagram
for 10.0.0.1 port 7 arrives at 127.0.0.1 port 7 of the namespace, so the sender of a datagram isn't known. Two ARP
requests, one after the reply to the other, show that passt has finished with what came before. It has no timers that
matter to UDP, so waits take no time."""
from __future__ import annotations

import argparse
import os
import re
import socket
import struct
import subprocess
import sys
import tempfile
import time
from typing import Optional

from ..kit import Adapter, serve

MAC, ALL = bytes.fromhex("525400000001"), b"\xff" * 6
GUEST, GATEWAY = bytes((10, 0, 0, 2)), bytes((10, 0, 0, 1))
IPV4, ARP = 0x0800, 0x0806
ASK = struct.pack(">HHBBH", 1, IPV4, 6, 4, 1) + MAC + GUEST + bytes(6) + GATEWAY
SETUP = """link set lo up
tuntap add d0 mode tap
addr add 10.9.9.9/24 dev d0
link set d0 up
route add default via 10.9.9.1
"""
WORDS = "passt -f -q -1 --runas 0 -4 -a 10.0.0.2 -n 24 -g 10.0.0.1 --no-dhcp -t none -u none -s".split()
CONNECT_TIMES, CONNECT_S, RECEIVE_BYTES = 200, 0.01, 4 << 20
INSIDE = "BSDUDP_CONFORM_PASST"


def version() -> str:
    """The day of the source, from Debian's version of the package."""
    words = ["dpkg-query", "-W", "-f", "${Version}", "passt"]
    told = subprocess.run(words, capture_output=True, text=True, check=False).stdout
    day = re.search(r"git(\d{4})(\d\d)(\d\d)", told)
    return "-".join(day.groups()) if day else "unknown"


class Passt(Adapter):
    """One process of passt serves all cases."""

    has = ("gateway", "offload")
    forks = False
    wire: Optional[socket.socket] = None
    user: socket.socket
    process: "subprocess.Popen[bytes]"

    def boot(self, mtu: int) -> None:
        if self.wire is None:
            self.start()
        self.drain(False)

    @classmethod
    def start(cls) -> None:
        path = os.path.join(tempfile.mkdtemp(), "socket")
        null = subprocess.DEVNULL
        cls.process = subprocess.Popen([*WORDS, path], stdin=null, stdout=null, stderr=null)
        cls.wire = socket.socket(socket.AF_UNIX)
        for _ in range(CONNECT_TIMES):
            try:
                cls.wire.connect(path)
                break
            except OSError:
                time.sleep(CONNECT_S)
        cls.user = socket.socket(socket.AF_INET, socket.SOCK_DGRAM)
        cls.user.setsockopt(socket.SOL_SOCKET, socket.SO_RCVBUF, RECEIVE_BYTES)
        cls.user.bind(("127.0.0.1", 7))
        cls.user.setblocking(False)
        cls().settled()

    def frame(self, kind: int, data: bytes) -> None:
        frame = ALL + MAC + struct.pack(">H", kind) + data
        assert self.wire is not None
        self.wire.sendall(struct.pack(">I", len(frame)) + frame)

    def exactly(self, count: int) -> bytes:
        found = b""
        assert self.wire is not None
        while len(found) < count:
            more = self.wire.recv(count - len(found))
            if not more:
                raise EOFError("passt closed its socket")
            found += more
        return found

    def settled(self) -> None:
        for _ in range(2):
            self.frame(ARP, ASK)
            while True:
                frame = self.exactly(struct.unpack(">I", self.exactly(4))[0])
                if frame[12:14] == ARP.to_bytes(2, "big"):
                    break

    def drain(self, is_reported: bool) -> None:
        while True:
            try:
                data = self.user.recv(70000)
            except BlockingIOError:
                return
            if is_reported:
                self.got("*", 0, data)

    def rx(self, packet: bytes) -> None:
        self.frame(IPV4, packet)
        self.settled()
        self.drain(True)


def main() -> None:
    argparse.ArgumentParser(prog="python3 -m bsdudp_conform.adapters.passt", description=__doc__).parse_args()
    if not os.environ.get(INSIDE):
        os.environ[INSIDE] = "1"
        os.execvp("unshare", ["unshare", "-n", sys.executable, "-m", "bsdudp_conform.adapters.passt"])
    subprocess.run(["ip", "-batch", "-"], input=SETUP, text=True, check=True)
    with open("/proc/sys/net/ipv4/ip_unprivileged_port_start", "w", encoding="ascii") as file:
        file.write("0")  # passt, which drops its capabilities, binds the sender's port
    Passt.name = f"passt {version()}"
    serve(Passt)


if __name__ == "__main__":
    main()
