"""For an adapter in Python: give a class the calls of your stack, and `serve` it.

    from bsdudp_conform.kit import Adapter, serve

    class Mine(Adapter):
        name = "my stack 1.0"
        def boot(self, mtu): ...          # 10.0.0.1/24, a UDP socket on port 7 of any address
        def rx(self, packet): ...         # an IPv4 packet comes from the wire
        def wait(self, ms): ...           # time passes

    serve(Mine)

Call `self.got(address, port, data)` for each datagram that the socket gets, and `self.out(packet)` for each IPv4 packet
that the stack sends. Each case has an object of its own, and by default a process of its own."""
from __future__ import annotations

import os
import signal
import sys
from typing import Callable, Iterable, List, Optional, Sequence


class Adapter:
    """One stack, from boot to the end of a case."""

    name = "a stack"
    # What it has in addition to `rx` and `wait`: out, ping, send, mtu, sockets, connect, hold, offload,
    # reassembly, gateway (docs/judge.md).
    has: Sequence[str] = ()
    # Whether each case is played in its own process, so that a crash affects only one case.
    forks = True

    def __init__(self) -> None:
        self.step = 0

    def boot(self, mtu: int) -> None:
        """Boots a new stack: 10.0.0.1/24 on a link with this MTU, and socket 0 bound to port 7 of any address."""

    def rx(self, packet: bytes) -> None:
        """A packet arrives from the wire. It begins with its IPv4 header."""
        raise NotImplementedError

    def wait(self, ms: int) -> None:
        """Time passes."""

    def open(self, socket: int, port: int) -> None:
        """A further socket is bound to a port, which another may have."""

    def connect(self, socket: int, address: str, port: int) -> Optional[bool]:
        """A socket is connected; False if the stack refuses."""
        return None

    def send(self, socket: int, address: str, port: int, data: bytes) -> bool:
        """A socket sends; False if the stack refuses. If it's connected, this is its peer's address: send without one,
        because many stacks refuse it (EISCONN)."""
        return False

    def hold(self, socket: int) -> None:
        """From now on, this socket is read only by `read`."""

    def read(self, socket: int, count: int) -> object:
        """Up to this many of the datagrams that wait in a held socket are read, and reported."""

    def end(self) -> None:
        """The case is over."""

    def got(self, address: str, port: int, data: bytes, socket: int = 0) -> None:
        """Reports that a socket received a datagram. The address may be "*" if it can't be known."""
        print(f"got {self.step} {address} {port} {hex_of(data)}" + (f" {socket}" if socket else ""))

    def out(self, packet: bytes) -> None:
        """Reports that the stack sent a packet."""
        print(f"out {self.step} {hex_of(packet)}")

    def play(self, lines: Iterable[str]) -> None:
        """The lines of a case."""
        steps = [line.split() for line in lines]
        mtu = int(steps.pop(0)[1]) if steps and steps[0][0] == "mtu" else 1500
        self.boot(mtu)
        for self.step, (kind, *words) in enumerate(steps):
            if kind == "rx":
                self.rx(bytes_of(words[0]))
            elif kind == "wait":
                self.wait(int(words[0]))
            elif kind == "socket":
                self.open(int(words[0]), int(words[1]))
            elif kind == "connect":
                if self.connect(int(words[0]), words[1], int(words[2])) is False:
                    print(f"refused {self.step}")
            elif kind == "hold":
                self.hold(int(words[0]))
            elif kind == "read":
                self.read(int(words[0]), int(words[1]))
            elif not self.send(int(words[0]), words[1], int(words[2]), bytes_of(words[3])):
                print(f"refused {self.step}")
        self.end()


def bytes_of(text: str) -> bytes:
    """The bytes of a line: `-` means no bytes."""
    return b"" if text == "-" else bytes.fromhex(text)


def hex_of(data: bytes) -> str:
    """Bytes as lines have them: `-` for none."""
    return data.hex() or "-"


def forked(play: Callable[[], None]) -> None:
    """Plays in a new process, and reports if that crashed."""
    sys.stdout.flush()
    child = os.fork()
    if child == 0:
        status = 1
        try:
            play()
            sys.stdout.flush()
            status = 0
        except Exception as fault:
            print(f"crash {type(fault).__name__}: {fault}")
            sys.stdout.flush()
        finally:
            os._exit(status)
    _, status = os.waitpid(child, 0)
    if os.WIFSIGNALED(status):
        print(f"crash signal {os.WTERMSIG(status)} ({signal.Signals(os.WTERMSIG(status)).name})")


def serve(make: Callable[[], Adapter]) -> None:
    """Reads cases from standard input, and plays each."""
    kind = make()
    lines: List[str] = []
    for line in sys.stdin:
        word = line.split(" ", 1)[0].strip()
        if word == "hello":
            print(f"stack {kind.name}\nhas {' '.join(kind.has)}".rstrip() + "\nend", flush=True)
        elif word == "case":
            lines = []
            print(line.strip())
        elif word == "end":
            adapter = make()
            if kind.forks:
                forked(lambda: adapter.play(lines))
            else:
                adapter.play(lines)
            print("end", flush=True)
        else:
            lines.append(line.strip())
