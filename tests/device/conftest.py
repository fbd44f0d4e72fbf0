"""capi/examples/device.c as a Linux program on a TAP device, and on a Cortex-M3 in QEMU, with Linux programs as its
peers. Each is in a network namespace, which a test enters while it runs. Frames pass through a relay that can lose
them."""
from __future__ import annotations

import contextlib
import ctypes
import itertools
import os
import pathlib
import random
import socket
import subprocess
from typing import Callable, Iterator

import pytest

from capi.tests.relay import Capture, Relay
from tests.capi.conftest import library  # noqa: F401 (a fixture)
from tests.cases import TOP
from tests.made import core_for, made, module  # noqa: F401 (fixtures)

DEVICE, LINUX = "10.0.0.1", "10.0.0.2"
COAP, TFTP = 5683, 69
# Ports of clients, each used once: below 32,768, so Linux gives none of them to a program. The device knows a client by
# its port, for 12 seconds after its last message, and ignores the request of a writer that comes again.
PORTS = itertools.count(20000)
CLONE_NEWNET = 0x40000000
MEBIBYTE = 1 << 20
MACHINE = ["qemu-system-arm", "-M", "mps2-an385", "-display", "none", "-monitor", "none", "-serial", "stdio"]
MACHINE += ["-nic", "tap,ifname=h0,script=no,downscript=no"]


class Namespace:
    """A network namespace. In a `with` block of `inside`, this thread and the programs that it starts are in it."""

    def __init__(self) -> None:
        self.libc = ctypes.CDLL(None, use_errno=True)
        self.outer = os.open("/proc/thread-self/ns/net", os.O_RDONLY)
        assert self.libc.unshare(CLONE_NEWNET) == 0, os.strerror(ctypes.get_errno())
        self.inner = os.open("/proc/thread-self/ns/net", os.O_RDONLY)
        self.libc.setns(self.outer, CLONE_NEWNET)

    @contextlib.contextmanager
    def inside(self) -> Iterator[None]:
        assert self.libc.setns(self.inner, CLONE_NEWNET) == 0, os.strerror(ctypes.get_errno())
        try:
            yield
        finally:
            self.libc.setns(self.outer, CLONE_NEWNET)


class Device:
    """The running device: how it's started, the bytes of its file "flash", the size limit of its file "ram", and the
    seconds of a tick."""

    def __init__(self, name: str, words: list, folder: pathlib.Path, flash: bytes, most: int, tick: float) -> None:
        self.name, self.flash, self.most, self.tick = name, flash, most, tick
        self.namespace = Namespace()
        with self.namespace.inside():
            self.relay = Relay(Capture(folder / "frames.pcap"))
            self.relay.start()
            self.said = open(folder / "said", "w+b")
            self.process = subprocess.Popen([*map(str, words)], stdin=subprocess.DEVNULL, stdout=self.said)
            self.relay.plug("h0")

    def ended(self) -> str:
        """Waits for its end, and returns its output."""
        self.process.terminate()
        self.process.wait(60)
        self.relay.is_over = True
        self.relay.join()
        self.relay.card.close()
        self.relay.capture.file.close()
        with self.said:
            self.said.seek(0)
            return self.said.read().decode()

    @contextlib.contextmanager
    def lossy(self, seed: int, share: float = 0.05) -> Iterator[None]:
        """Loses this share of the frames in each direction."""
        rng = random.Random(seed)
        self.relay.loses = lambda frame: rng.random() < share
        try:
            yield
        finally:
            self.relay.loses = lambda frame: False


@pytest.fixture(scope="session")
def flash() -> bytes:
    """The bytes of the file "flash": random, so that no two blocks are equal."""
    return random.Random(79).randbytes(MEBIBYTE)


@pytest.fixture(scope="session")
def on_linux(once, library) -> pathlib.Path:
    """The device as a Linux program, with sanitizers."""
    names = ("device_tap", "device", "dhcp", "dhcp_message", "coap", "tftp", "drops")
    sources = [TOP / f"capi/examples/{it}.c" for it in names]
    words = ["-std=gnu99", "-Wall", "-Wextra", "-Werror", "-pedantic", "-Wsign-conversion", f"-I{TOP}/capi/include"]
    words += ["-g", "-fsanitize=address,undefined", "-fno-sanitize-recover=all"]
    how = [os.environ.get("CC", "cc"), *words, *sources, library.archive, "-o"]
    return once("device-tap", lambda folder: made(*how, folder / "device")) / "device"


@pytest.fixture(scope="session")
def on_board(once, core_for) -> Callable[..., pathlib.Path]:
    """on_board(FILE, CFLAGS) builds device.elf for a Cortex-M3 with 64 KB of memory, with a file "flash"."""

    def of(flash: pathlib.Path, flags: str = "") -> pathlib.Path:
        library_of_board, words = core_for("cortex-m3"), ["env", f"CFLAGS={flags}", TOP / "portable/board/build"]
        return once(f"device-board{flags}", lambda it: made(*words, library_of_board, it, flash)) / "device.elf"

    return of


def tap(folder: pathlib.Path, flash: bytes, request: pytest.FixtureRequest, tick: float = 0.5) -> Device:
    """The device as a Linux program."""
    how = [request.getfixturevalue("on_linux"), "h0", folder / "flash", int(1000 * tick)]
    return Device("tap", how, folder, flash, 2 * MEBIBYTE, tick)


def hasty(folder: pathlib.Path, flash: bytes, request: pytest.FixtureRequest) -> Device:
    """The same with a tick of 20 ms, so that lost messages are soon sent again."""
    return tap(folder, flash, request, 0.02)


def board(folder: pathlib.Path, flash: bytes, request: pytest.FixtureRequest) -> Device:
    """The device on a Cortex-M3, with the address 10.0.0.1."""
    program = request.getfixturevalue("on_board")(folder / "flash", "-DFIXED")
    return Device("board", [*MACHINE, "-kernel", program], folder, flash, 6144, 0.5)


WAYS: dict[str, Callable[..., Device]] = {"tap": tap, "hasty": hasty, "board": board}
NEEDS = {"tap": ["cc", "asan"], "board": ["rt", "wasm-opt", "cc", "arm-none-eabi", "qemu-arm"]}
NEEDS["hasty"] = NEEDS["tap"]
GROUP = pytest.mark.xdist_group
TAP, HASTY, BOARD = (
    pytest.param(it, marks=[pytest.mark.needs("netns", "tun", "ip", *NEEDS[it]), GROUP(f"device-{it}")]) for it in WAYS
)


@pytest.fixture(scope="session", params=[TAP, BOARD])
def running(request, flash, tmp_path_factory, library) -> Iterator[Device]:
    folder = tmp_path_factory.mktemp(f"device-{request.param}")
    (folder / "flash").write_bytes(flash)
    it = WAYS[request.param](folder, flash, request)
    yield it
    said = it.ended()
    assert it.process.returncode == 0, f"it ended with {it.process.returncode}: {said}"


@pytest.fixture
def device(running) -> Iterator[Device]:
    """The device. The test runs in its namespace. At the end, the device must still be running."""
    with running.namespace.inside():
        yield running
        assert running.process.poll() is None, "the device ended"


@pytest.fixture
def client() -> Callable[..., socket.socket]:
    """client() returns a UDP socket with a new port. If nothing arrives in 5 seconds, the test fails."""
    opened = []

    def opens(port: int | None = None) -> socket.socket:
        it = socket.socket(socket.AF_INET, socket.SOCK_DGRAM)
        opened.append(it)
        it.settimeout(5)
        it.bind(("", next(PORTS)))
        if port:
            it.connect((DEVICE, port))
        return it

    yield opens
    for it in opened:
        it.close()


def run(*words: object, status: int = 0) -> str:
    """Returns the output of a Linux program, which must end with this status within a minute."""
    done = subprocess.run([*map(str, words)], capture_output=True, text=True, check=False, timeout=60)
    assert done.returncode == status, f"{words} ends with {done.returncode}: {done.stdout[-500:]}{done.stderr[-500:]}"
    return done.stdout + done.stderr
