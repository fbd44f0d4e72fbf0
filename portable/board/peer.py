#!/usr/bin/env python3
"""Linux as the peer of the board, in a network namespace of its own (unshare -n). The command is bridge.py with the
machine that runs echo.elf; with --tap it's the machine that runs host.elf, whose card is the TAP device bsdudp0.
Datagrams of 0 to 4,096 bytes are sent to 10.0.0.1 port 7 and come back. A host is also pinged. Then the kernel's
counters must show no error, and all buffers of the board's pool must be free. It prints the first fault and exits with
1, or otherwise prints the stack usage."""
import pathlib
import random
import re
import shutil
import signal
import socket
import subprocess
import sys
import time

sys.dont_write_bytecode = True
sys.path.insert(0, str(pathlib.Path(__file__).resolve().parent.parent.parent))
from tools import command_line  # noqa: E402

LENGTHS = [0, 1, 2, 72, 73, 100, 101, 207, 208, 1472, 1473, 2047, 2048, 2049, 2952, 2953, 4095, 4096]
BOARD, MOST = ("10.0.0.1", 7), 4096
IP_MTU_DISCOVER = 10
WAIT, TRIES = 60, 3  # seconds: much more than any test needs, for a busy computer


def make_device():
    for words in ("tuntap add dev bsdudp0 mode tap", "addr add 10.0.0.2/24 dev bsdudp0", "link set bsdudp0 up"):
        subprocess.run(["ip", *words.split()], check=True)


def wait_for_device():
    for _ in range(1200):
        shown = subprocess.run(["ip", "addr", "show", "bsdudp0"], capture_output=True, text=True, check=False).stdout
        if "10.0.0.2" in shown and "LOWER_UP" in shown:  # and a program has opened the other end
            return
        time.sleep(0.05)
    sys.exit("peer.py: the device doesn't come up")


def echoed(it, data, before):
    """Sends a datagram until it comes back, and returns what is wrong. On a busy computer, fragments that arrive half a
    minute apart are dropped on either side, so it may take a second try. Then the first reply may arrive late."""
    for _ in range(TRIES):
        it.sendto(data, BOARD)
        try:
            back, sender = it.recvfrom(65536)
            while back == before != data:
                back, sender = it.recvfrom(65536)
        except TimeoutError:
            continue
        if back == data and sender == BOARD:
            return ""
        return f"{len(data)} bytes came back as {len(back)} others from {sender}"
    return f"{len(data)} bytes didn't come back"


def echo(lengths):
    it = socket.socket(socket.AF_INET, socket.SOCK_DGRAM)
    it.setsockopt(socket.IPPROTO_IP, IP_MTU_DISCOVER, 0)
    it.settimeout(WAIT)
    rng = random.Random(1)
    before = b""
    for length in lengths:
        data = rng.randbytes(length)
        if fault := echoed(it, data, before):
            return fault
        before = data
    lines = pathlib.Path("/proc/net/snmp").read_text().splitlines()
    counted = dict(zip(*(it.split() for it in lines if it.startswith("Udp:"))))
    wrong = [name for name in ("InErrors", "InCsumErrors", "NoPorts") if counted[name] != "0"]
    return f"the kernel counted {wrong}" if wrong else ""


def pinged():
    """Returns what is wrong with the replies to pings of several lengths. ping itself compares their bytes."""
    for length in (0, 56, 57, 1472) if shutil.which("ping") else ():
        words = ["ping", "-q", "-c", "3", "-i", "0.2", "-w", str(WAIT), "-s", str(length), BOARD[0]]
        said = subprocess.run(words, capture_output=True, text=True, check=False).stdout
        if " 3 received" not in said or "corrupted" in said:
            return f"pings of {length} bytes: {said.strip()}"
    return ""


def end_host():
    """Ends host.elf with a datagram of one byte 4, which it echoes first."""
    with socket.socket(socket.AF_INET, socket.SOCK_DGRAM) as it:
        it.settimeout(WAIT)
        it.sendto(b"\x04", BOARD)
        it.recv(1)


def main():
    parser = command_line.parser(__doc__)
    parser.add_argument("--all", action="store_true", help="sends datagrams of each length")
    parser.add_argument("--tap", action="store_true", help="makes the TAP device bsdudp0 for a host on an Ethernet")
    said = command_line.with_command(parser, "COMMAND", "bridge.py with its words, or the machine with its words")
    rng = random.Random(2)
    lengths = range(MOST + 1) if said.all else LENGTHS + [rng.randrange(MOST + 1) for _ in range(100)]
    fault = ""
    if said.tap:
        make_device()
    with subprocess.Popen(said.command, stderr=subprocess.PIPE, text=True) as bridge:
        try:
            wait_for_device()
            fault = echo(lengths) or (pinged() if said.tap else "")
            if bridge.poll() is not None:
                fault = "the board ended before its time"
            elif said.tap and not fault:
                end_host()
        finally:
            if fault or not said.tap:
                bridge.send_signal(signal.SIGTERM)
            heard = bridge.communicate(timeout=WAIT)[1]
    told = re.search(r"stack (\d+) all free", heard)
    if fault or bridge.returncode or not told:
        sys.exit(f"peer.py: {fault or f'the board ended with {bridge.returncode} and said {heard.strip()!r}'}")
    print(f"{len(lengths)} datagrams, stack {int(told[1])} bytes")


main()
