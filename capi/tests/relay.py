"""A wire between Linux and a host on a TAP device, in a network namespace that the caller made: frames pass through
this program, which can lose them, and writes them to a capture."""
import contextlib
import fcntl
import os
import pathlib
import select
import socket
import struct
import subprocess
import threading
import time

LINUX_MAC = "02:00:00:00:00:02"
TUNSETIFF, IFF_TAP, IFF_NO_PI = 0x400454CA, 2, 0x1000
ETH_P_ALL, PACKET_OUTGOING = 3, 4


class Fault(Exception):
    """What is wrong."""


def check(holds, what):
    if not holds:
        raise Fault(what)


def run(*words):
    """Returns the output of a command."""
    return subprocess.run(words, text=True, stdout=subprocess.PIPE, stderr=subprocess.STDOUT, check=False).stdout


def must(line):
    done = subprocess.run(line.split(), text=True, capture_output=True, check=False)
    check(done.returncode == 0, f"{line}: {done.stderr.strip()}")


def device_up(name):
    """Waits until a device exists, and sets it up without IPv6 addresses."""
    for _ in range(1200):
        with contextlib.suppress(OSError):
            socket.if_nametoindex(name)
            break
        time.sleep(0.05)
    setting = pathlib.Path(f"/proc/sys/net/ipv6/conf/{name}/disable_ipv6")
    if setting.exists():
        setting.write_text("1")
    must(f"ip link set {name} up")


class Capture:
    """Frames, written as a capture of Ethernet."""

    def __init__(self, path):
        self.file = open(path, "wb")
        self.file.write(struct.pack("<IHHiIII", 0xA1B2C3D4, 2, 4, 0, 0, 65535, 1))

    def add(self, frame):
        now = time.time()
        head = struct.pack("<IIII", int(now), int(now % 1 * 1e6), len(frame), len(frame))
        self.file.write(head + frame)


class Relay(threading.Thread):
    """Carries frames between Linux's device and the host's, except those for which `loses` returns True."""

    def __init__(self, capture):
        super().__init__(daemon=True)
        self.tap = os.open("/dev/net/tun", os.O_RDWR)
        fcntl.ioctl(self.tap, TUNSETIFF, struct.pack("16sH", b"lin0", IFF_TAP | IFF_NO_PI))
        must(f"ip link set lin0 address {LINUX_MAC}")
        device_up("lin0")
        must("ip addr add 10.0.0.2/24 broadcast 10.0.0.255 dev lin0")
        self.card, self.capture = None, capture
        self.gave, self.loses, self.is_over = [], lambda frame: False, False

    def plug(self, name):
        """Joins the host's device, on which the kernel itself receives nothing."""
        device_up(name)
        must(f"ip link set {name} arp off")
        card = socket.socket(socket.AF_PACKET, socket.SOCK_RAW, socket.htons(ETH_P_ALL))
        card.bind((name, 0))
        self.card = card

    def run(self):
        while not self.is_over:
            card = self.card
            ready, _, _ = select.select([self.tap, *([card] if card else [])], [], [], 0.1)
            if self.tap in ready:
                self.carry(os.read(self.tap, 2048), self.to_host)
            if card in ready:
                with contextlib.suppress(OSError):  # its device went
                    frame, place = card.recvfrom(2048)
                    if place[2] != PACKET_OUTGOING:
                        self.gave.append(frame)
                        self.carry(frame, lambda frame: os.write(self.tap, frame))

    def to_host(self, frame):
        with contextlib.suppress(OSError):  # there is no host, or it just went
            self.card.send(frame)

    def carry(self, frame, to):
        if not self.loses(frame):
            self.capture.add(frame)
            to(frame)
