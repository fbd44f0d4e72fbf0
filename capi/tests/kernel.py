#!/usr/bin/env python3
"""Linux as the peer of capi/examples/tun_echo.c. It needs a network namespace (unshare -n).

Datagrams of many and of random lengths are sent to the echo at 10.0.0.1 port 7 and come back, with and without a
checksum, and from the broadcast address. With the argument `lossy` the program is the host with a wire that loses,
repeats and reorders packets (lossy.c): of 2,000 datagrams, those that come back are unchanged. Then the kernel's
counters show no error, and all buffers of the pool are free. It prints the first fault, and then exits with 1."""
import os
import pathlib
import random
import re
import signal
import socket
import subprocess
import sys
import time

sys.dont_write_bytecode = True
sys.path.insert(0, str(pathlib.Path(__file__).resolve().parent.parent.parent))
from tools import command_line  # noqa: E402

LENGTHS = [0, 1, 27, 28, 29, 72, 73, 207, 208, 1472, 1473, 2047, 2048, 2049, 4096, 9216]
DATAGRAMS = 2000
NEAR, BROADCAST = ("10.0.0.1", 7), ("10.0.0.255", 7)
IP_MTU_DISCOVER, SO_NO_CHECK, SO_RCVBUFFORCE = 10, 11, 33


class Wrong(Exception):
    """What is wrong."""


def client(without_checksum):
    it = socket.socket(socket.AF_INET, socket.SOCK_DGRAM)
    it.setsockopt(socket.SOL_SOCKET, SO_RCVBUFFORCE, 1 << 23)
    it.setsockopt(socket.SOL_SOCKET, socket.SO_BROADCAST, 1)
    it.setsockopt(socket.IPPROTO_IP, IP_MTU_DISCOVER, 0)
    if without_checksum:
        it.setsockopt(socket.SOL_SOCKET, SO_NO_CHECK, 1)
    it.settimeout(60)
    return it


def echo(it, to, data, what):
    it.sendto(data, to)
    try:
        back, sender = it.recvfrom(65536)
    except TimeoutError:
        raise Wrong(f"{what}: {len(data)} bytes didn't come back") from None
    if sender != NEAR:
        raise Wrong(f"{what}: {len(data)} bytes came back from {sender}")
    if back != data:
        raise Wrong(f"{what}: {len(data)} bytes came back as {len(back)} others")


def datagrams(mtu):
    """Returns the lengths for this MTU: the output queue holds 50 packets."""
    rng = random.Random(mtu)
    most = min(9216, 50 * ((mtu - 20) // 8 * 8) - 8)
    lengths = [n for n in LENGTHS if n <= most]
    for name, bare in (("", False), (", no checksum", True)):
        it = client(bare)
        for n in lengths:
            echo(it, NEAR, rng.randbytes(n), f"MTU {mtu}{name}")
    it = client(False)
    echo(it, BROADCAST, rng.randbytes(20), f"MTU {mtu}, broadcast")
    for _ in range(DATAGRAMS):
        echo(it, NEAR, rng.randbytes(rng.randint(0, most)), f"MTU {mtu}, random")


def by_number(number, most):
    """Returns the datagram of this number, which its bytes contain."""
    rng = random.Random(number)
    return number.to_bytes(4, "big") + rng.randbytes(rng.randint(0, most - 4))


def come_back(it, most, seconds):
    """Returns the numbers of the datagrams that arrive until none does for `seconds`. Each must be unchanged."""
    it.settimeout(seconds)
    numbers = []
    try:
        while True:
            back, sender = it.recvfrom(65536)
            numbers.append(int.from_bytes(back[:4], "big"))
            if sender != NEAR or back != by_number(numbers[-1], most):
                raise Wrong(f"{len(back)} bytes came over the lossy wire, which weren't sent so")
    except TimeoutError:
        return numbers


def lossy_datagrams(mtu):
    """Tests the wire with eight datagrams at a time: some are lost, some arrive twice, and none is changed."""
    most = min(9216, 16 * ((mtu - 20) // 8 * 8) - 8)
    it = client(False)
    came = []
    for first in range(0, DATAGRAMS, 8):
        for number in range(first, first + 8):
            it.sendto(by_number(number, most), NEAR)
        came += come_back(it, most, 0.004)
    came += come_back(it, most, 1.2)  # meanwhile the host drops incomplete datagrams
    if not DATAGRAMS // 20 < len(set(came)) < DATAGRAMS or len(came) == len(set(came)):
        raise Wrong(f"MTU {mtu}: of {DATAGRAMS} datagrams {len(set(came))} came over the lossy wire, in {len(came)}")


def errors():
    """The kernel's counters of datagrams that it refused."""
    with open("/proc/net/snmp", encoding="ascii") as it:
        names, values = [line.split() for line in it if line.startswith("Udp:")]
    counted = dict(zip(names, values))
    return {name: counted[name] for name in ("InErrors", "InCsumErrors") if counted[name] != "0"}


def wait_for_device():
    for _ in range(1200):
        shown = subprocess.run(["ip", "addr", "show", "bsdudp0"], capture_output=True, text=True, check=False).stdout
        if "10.0.0.2" in shown and "UP" in shown:
            return
        time.sleep(0.05)
    raise Wrong("the device doesn't come up")


def run(program, mtu, exchange):
    with subprocess.Popen([program, str(mtu)], stdout=subprocess.PIPE, text=True) as host:
        try:
            wait_for_device()
            exchange(mtu)
        finally:
            host.send_signal(signal.SIGTERM)
            said = host.communicate()[0]
    free = re.fullmatch(r"free: mbufs (\d+) of (\d+), clusters (\d+) of (\d+)\n", said)
    if host.returncode or not free or free[1] != free[2] or free[3] != free[4]:
        raise Wrong(f"MTU {mtu}: the host left {host.returncode} and said {said.strip()!r}")
    if errors():
        raise Wrong(f"MTU {mtu}: the kernel counted {errors()}")


def main():
    parser = command_line.parser(__doc__)
    parser.add_argument("program", metavar="TUN_ECHO", help="the built program")
    parser.add_argument("mtu", metavar="MTU", type=int, help="the device's MTU, 68 to 9000")
    parser.add_argument("lossy", nargs="?", choices=["lossy"], help="the program is that of lossy.c")
    said = parser.parse_args()
    try:
        run(os.path.abspath(said.program), said.mtu, lossy_datagrams if said.lossy else datagrams)
    except Wrong as what:
        sys.exit(f"kernel.py: {what}")


main()
