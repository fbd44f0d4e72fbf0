#!/usr/bin/env python3
"""A host at 10.0.0.1 on a TUN device, whose stack is `bsdudp run`.

It sends each datagram that arrives at its port 7 back to the sender. Linux itself is 10.0.0.2, and runs COMMAND, which
can send to the host. When COMMAND ends, the host ends with its status. It needs root, and a network namespace of its
own: `unshare -n ./echo.py nc -u 10.0.0.1 7`."""
import argparse
import fcntl
import os
import select
import struct
import subprocess
import sys
import time

TUNSETIFF, IFF_TUN, IFF_NO_PI = 0x400454CA, 1, 0x1000
DEVICE = "tun0"
# The clock of 4.4BSD's IP ticks each half second.
TICK = 0.5
# The longest datagram, of 9,216 bytes, takes a line of about 18,500 bytes: below the 64 KiB that a pipe holds.
LONGEST = 9216


class Fault(Exception):
    """Why there is no host, as one line."""


class Stack:
    """`bsdudp run` at the two ends of a pipe."""

    def __init__(self, program, mtu):
        words = [program, "run", "--mtu", str(mtu)]
        try:
            self.process = subprocess.Popen(words, stdin=subprocess.PIPE, stdout=subprocess.PIPE, text=True)
        except OSError as fault:
            raise Fault(f"{program}: {fault.strerror}; --program names it") from None

    def ask(self, line):
        """The reply to a line. It's read before the next line is written, so neither pipe fills up."""
        try:
            self.process.stdin.write(line + "\n")
            self.process.stdin.flush()
        except BrokenPipeError:
            raise Fault("bsdudp ended by itself") from None
        return self.process.stdout.readline().rstrip("\n").split(" ")

    def open(self, port):
        descriptor = self.ask("socket")[1]
        self.ask(f"bind {descriptor} 0.0.0.0 {port}")
        return descriptor

    def packets(self):
        """The packets that wait for the link."""
        while (reply := self.ask("tx"))[0] == "packet":
            yield bytes.fromhex(reply[1])

    def send_back(self, descriptor):
        """Sends each datagram that waits to who sent it, and gives out the packets of each before the next."""
        while (reply := self.ask(f"recvfrom {descriptor} {LONGEST}"))[0] == "from":
            _, address, port, data = reply
            self.ask(f"sendto {descriptor} {address} {port} {data}")
            yield from self.packets()


def open_tun(mtu):
    """A TUN device, on which this machine is 10.0.0.2."""
    try:
        device = os.open("/dev/net/tun", os.O_RDWR | os.O_NONBLOCK)
        fcntl.ioctl(device, TUNSETIFF, struct.pack("16sH22x", DEVICE.encode(), IFF_TUN | IFF_NO_PI))
        for words in (f"addr add 10.0.0.2/24 dev {DEVICE}", f"link set {DEVICE} mtu {mtu} txqueuelen 1000 up"):
            subprocess.run(["ip", *words.split()], check=True)
    except (OSError, subprocess.CalledProcessError) as fault:
        raise Fault(f"no TUN device: {fault}; it takes root, as by `sudo unshare -n`, and iproute2's ip") from None
    return device


def arrived(device):
    """The IPv4 packets that have come from the kernel."""
    try:
        while True:
            packet = os.read(device, 65536)
            if packet[0] >> 4 == 4:
                yield packet
    except BlockingIOError:
        pass


def serve(stack, device, command):
    """Passes packets in both directions, and ticks, until the command has ended. Returns its status."""
    echo = stack.open(7)
    running = subprocess.Popen(command)
    tick = time.monotonic() + TICK
    while running.poll() is None:
        select.select([device], [], [], min(0.05, max(0.0, tick - time.monotonic())))
        while time.monotonic() >= tick:
            stack.ask("tick")
            tick += TICK
        for packet in arrived(device):
            stack.ask(f"rx {packet.hex()}")
            for answer in stack.send_back(echo):
                os.write(device, answer)
    return running.returncode


def main():
    words = argparse.ArgumentParser(description=__doc__, formatter_class=argparse.RawDescriptionHelpFormatter)
    words.add_argument("--program", default="bsdudp", metavar="FILE", help="the program, if it isn't on the path")
    words.add_argument("--mtu", type=int, default=1500, metavar="N", help="the device's MTU, 68 to 4352 (default 1500)")
    words.add_argument("command", nargs=argparse.REMAINDER, metavar="COMMAND", help="a program that sends to the host")
    said = words.parse_args()
    if not said.command:
        words.error("no COMMAND is given")
    try:
        return serve(Stack(said.program, said.mtu), open_tun(said.mtu), said.command)
    except Fault as fault:
        print(f"echo.py: {fault}", file=sys.stderr)
        return 1


if __name__ == "__main__":
    sys.exit(main())
