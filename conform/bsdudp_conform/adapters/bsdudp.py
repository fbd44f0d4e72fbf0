"""bsdudp: `python3 -m bsdudp_conform.adapters.bsdudp [PROGRAM [WORD ..]]`, by default `bsdudp run`.

One process of the program serves all cases of an MTU: after 60 ticks, only the identification of the next send is left
from the last case. A wait is passed on as ticks of half a second, and its remainder is added to the next wait."""
from __future__ import annotations

import argparse
import subprocess
from typing import Callable, Dict, List, Optional, Set, Tuple

from ..kit import Adapter, bytes_of, hex_of, serve

TICK_MS, TICKS_KEPT, QUEUE = 500, 60, 50
FIRST_DESCRIPTOR = 3
# Less than a pipe holds, so that neither side waits for the other.
MOST_WAITING = 32_000


Handler = Callable[[str], None]


class Program:
    """A running `bsdudp run`. Lines are collected and sent together, with fewer bytes than a pipe holds."""

    def __init__(self, command: List[str], mtu: int) -> None:
        words = [*command, "--mtu", str(mtu)]
        self.running = subprocess.Popen(words, stdin=subprocess.PIPE, stdout=subprocess.PIPE, text=True)
        self.waiting: List[Tuple[str, Optional[Handler]]] = []
        self.size = 0

    def later(self, line: str, handler: Optional[Handler] = None) -> None:
        """Sends a line, with the others. Its reply is passed to the handler."""
        if self.size + len(line) > MOST_WAITING:
            self.flush()
        self.waiting.append((line, handler))
        self.size += len(line) + 1

    def flush(self) -> None:
        """Sends all collected lines."""
        stdin, stdout = self.running.stdin, self.running.stdout
        assert stdin is not None and stdout is not None
        asked, self.waiting, self.size = self.waiting, [], 0
        stdin.write("".join(f"{line}\n" for line, _ in asked))
        stdin.flush()
        for _, handler in asked:
            reply = stdout.readline().rstrip("\n")
            if handler:
                handler(reply)


class Bsdudp(Adapter):
    """4.4BSD's stack, by lines of `bsdudp run`."""

    name = "bsdudp"
    has = ("out", "send", "mtu", "sockets", "connect", "hold")
    forks = False
    command = ["bsdudp", "run"]
    programs: Dict[int, Program] = {}

    def boot(self, mtu: int) -> None:
        if mtu not in self.programs:
            self.programs[mtu] = Program(self.command, mtu)
        self.program = self.programs[mtu]
        self.owed, self.count, self.fragments = 0, 0, False
        self.connected: Set[int] = set()
        self.held: Set[int] = set()
        self.free: List[str] = []
        self.program.later("mbstat", self.free.append)
        self.open(0, 7)

    def rx(self, packet: bytes) -> None:
        self.program.later(f"rx {hex_of(packet)}")
        self.fragments = self.fragments or packet[6:8] not in (b"\0\0", b"\x40\0")
        for socket in reversed(range(self.count)):
            if socket not in self.held:
                self.read(socket, 1)

    def hold(self, socket: int) -> None:
        self.held.add(socket)

    def read(self, socket: int, count: int) -> None:
        for _ in range(count):
            self.program.later(f"recvfrom {FIRST_DESCRIPTOR + socket} 65535", self.received(socket))

    def received(self, socket: int) -> Handler:
        """Reports the datagram in a reply to `recvfrom`."""
        step = self.step

        def handler(reply: str) -> None:
            if reply.startswith("from "):
                _, address, port, data = reply.split()
                now, self.step = self.step, step
                self.got(address, int(port), bytes_of(data), socket)
                self.step = now

        return handler

    def wait(self, ms: int) -> None:
        ticks, self.owed = divmod(self.owed + ms, TICK_MS)
        for _ in range(ticks):
            self.program.later("tick")

    def open(self, socket: int, port: int) -> None:
        descriptor = FIRST_DESCRIPTOR + self.count
        self.expect("socket", f"ok {descriptor}")
        self.expect(f"setsockopt {descriptor} reuseport 1", "ok")
        self.expect(f"bind {descriptor} 0.0.0.0 {port}", "ok")
        self.count += 1

    def connect(self, socket: int, address: str, port: int) -> None:
        self.connected.add(socket)
        self.expect(f"connect {FIRST_DESCRIPTOR + socket} {address} {port}", "ok")

    def expect(self, line: str, wanted: str) -> None:
        """Sends a line that must have this reply."""

        def handler(reply: str) -> None:
            if reply != wanted:
                print(f"crash it replied {reply!r} to {line!r}")

        self.program.later(line, handler)

    def send(self, socket: int, address: str, port: int, data: bytes) -> bool:
        descriptor, replies = FIRST_DESCRIPTOR + socket, []  # type: int, List[str]
        there = "" if socket in self.connected else f"{address} {port} "
        self.program.later(
            f"{'send' if socket in self.connected else 'sendto'} {descriptor} {there}{hex_of(data)}",
            replies.append,
        )
        for _ in range(QUEUE + 1):
            self.program.later("tx", replies.append)
        self.program.flush()
        for reply in replies[1:]:
            if reply.startswith("packet "):
                self.out(bytes_of(reply.split()[1]))
        return replies[0].startswith("ok")

    def end(self) -> None:
        for socket in range(self.count):
            self.program.later(f"close {FIRST_DESCRIPTOR + socket}")
        for _ in range(TICKS_KEPT if self.fragments else 0):
            self.program.later("tick")
        left: List[str] = []
        self.program.later("mbstat", left.append)
        self.program.flush()
        if left != self.free:
            print(f"crash buffers are held after all sockets were closed: {left[0]}, before: {self.free[0]}")


def main() -> None:
    parser = argparse.ArgumentParser(prog="python3 -m bsdudp_conform.adapters.bsdudp", description=__doc__)
    parser.add_argument("command", metavar="PROGRAM", nargs="?", help="the program (default: `bsdudp`)")
    parser.add_argument("words", metavar="WORD", nargs=argparse.REMAINDER, help="its arguments, such as `run`")
    said = parser.parse_args()
    if said.command:
        Bsdudp.command = [said.command, *said.words]
    serve(Bsdudp)


if __name__ == "__main__":
    main()
