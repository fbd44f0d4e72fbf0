"""A stack that records its calls as lines of `bsdudp run`, and their results as replies."""
import errno
import socket as host
import subprocess

from tests.python.package import bsdudp

# 4.4BSD's error numbers, which the library uses below 128.
NUMBERS = {bsdudp._library.LIBRARY.error_name(-number): number for number in range(128)}


def hex_of(data):
    return bytes(data).hex() or "-"


def refusal(fault):
    """Returns the reply for an exception."""
    name = "EWOULDBLOCK" if isinstance(fault, BlockingIOError) else errno.errorcode[fault.errno]
    lack = f" {fault.lack}" if isinstance(fault, bsdudp.NoBuffersError) else ""
    return f"error {NUMBERS[name]} {name}{lack}"


class Scripted:
    """Makes calls, and records the script and its replies."""

    def __init__(self, **config):
        self.stack = bsdudp.Stack(**config)
        self.sockets = {}
        self.lines = []
        self.replies = []
        words = {"addr": "addr", "bcast": "bcast", "mtu": "mtu", "mbufs": "mbufs", "clusters": "clusters", "first_id": "id"}
        self.options = [part for key, value in config.items() for part in (f"--{words[key]}", str(value))]

    def _say(self, line, call):
        self.lines.append(line)
        try:
            self.replies.append(call())
        except OSError as fault:
            self.replies.append(refusal(fault))

    def socket(self):
        def call():
            opened = self.stack.socket()
            self.sockets[opened.descriptor] = opened
            return f"ok {opened.descriptor}"

        self._say("socket", call)

    def _of(self, fd):
        """Returns the socket with a descriptor, which may be closed."""
        return self.sockets.get(fd) or bsdudp.Socket(self.stack, fd)

    def bind(self, fd, addr, port):
        self._say(f"bind {fd} {addr} {port}", lambda: self._of(fd).bind((addr, port)) or "ok")

    def connect(self, fd, addr, port):
        self._say(f"connect {fd} {addr} {port}", lambda: self._of(fd).connect((addr, port)) or "ok")

    def sendto(self, fd, addr, port, data):
        line = f"sendto {fd} {addr} {port} {hex_of(data)}"
        self._say(line, lambda: f"ok {self._of(fd).sendto(data, (addr, port))}")

    def send(self, fd, data):
        self._say(f"send {fd} {hex_of(data)}", lambda: f"ok {self._of(fd).send(data)}")

    def recvfrom(self, fd, length):
        def call():
            data, _, _, (addr, port) = self._of(fd).recvmsg(length)
            return f"from {addr} {port} {hex_of(data)}"

        self._say(f"recvfrom {fd} {length}", call)

    def setsockopt(self, fd, name, on):
        option = {"broadcast": host.SO_BROADCAST, "reuseport": host.SO_REUSEPORT}[name]
        call = lambda: self._of(fd).setsockopt(host.SOL_SOCKET, option, on) or "ok"  # noqa: E731
        self._say(f"setsockopt {fd} {name} {on}", call)

    def close(self, fd):
        def call():
            self.stack._ask("close", fd)
            self.sockets.pop(fd, None)
            return "ok"

        self._say(f"close {fd}", call)

    def rx(self, packet):
        def call():
            self.stack.rx(packet)
            return "ok"

        self._say(f"rx {hex_of(packet)}", call)

    def tx(self):
        taken = []

        def call():
            packet = self.stack.tx()
            taken.append(packet)
            return "none" if packet is None else f"packet {hex_of(packet)}"

        self._say("tx", call)
        return taken[0]

    def tick(self):
        self._say("tick", lambda: self.stack.tick() or "ok")

    def stat(self):
        def call():
            values = self.stack.counters
            return " ".join(["stat", *(f"{name}={value}" for name, value in values.items() if value)])

        self._say("stat", call)

    def mbstat(self):
        def call():
            it = self.stack.mbstat
            return f"mbufs {it.free_mbufs}/{it.mbufs} clusters {it.free_clusters}/{it.clusters} refs {it.refs} most {it.most}"

        self._say("mbstat", call)

    def check(self, program):
        """Plays the script with the program, and compares its replies."""
        script = "".join(f"{line}\n" for line in self.lines)
        words = [program, "run", *self.options]
        played = subprocess.run(words, input=script, capture_output=True, text=True, check=True)
        assert played.stdout.splitlines() == self.replies
