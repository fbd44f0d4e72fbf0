"""The shared library libbsdudp, and its calls for ctypes."""
from __future__ import annotations

import ctypes
import ctypes.util
import itertools
import os
import pathlib
from typing import Any, Callable, Dict, Iterator, List, Optional

NAME = "libbsdudp.so.0"
ENVIRONMENT = "BSDUDP_LIBRARY"

FIRST_DESCRIPTOR = 3
MAX_SOCKETS = 64
MAX_PACKET = 65_535
ALIGNMENT = 16
ETHER_ROOM = 1514
LINK_MEMORY = 14784
NEIGHBOURS = 32

SO_BROADCAST = 0x20
SO_REUSEPORT = 0x200
SO_RCVBUF = 0x1002


class Handle(ctypes.Structure):
    """`struct bsdudp`: its members are private to the library. All bytes are 0 before the first boot."""

    _fields_ = [("words", ctypes.c_uint64 * 8)]


class Config(ctypes.Structure):
    """`struct bsdudp_config`."""

    _fields_ = [
        ("addr", ctypes.c_uint32),
        ("bcast", ctypes.c_uint32),
        ("mbufs", ctypes.c_uint32),
        ("clusters", ctypes.c_uint32),
        ("mtu", ctypes.c_uint16),
        ("first_id", ctypes.c_uint16),
    ]


class Address(ctypes.Structure):
    """`struct bsdudp_addr`: an address and a port, both in the byte order of the CPU."""

    _fields_ = [("ip", ctypes.c_uint32), ("port", ctypes.c_uint16)]


class Usage(ctypes.Structure):
    """`struct bsdudp_mbstat`."""

    _fields_ = [
        (name, ctypes.c_uint32) for name in ("free_mbufs", "mbufs", "free_clusters", "clusters", "refs", "most")
    ]


class Name(ctypes.Structure):
    """`struct bsdudp_name`."""

    _fields_ = [
        ("local_ip", ctypes.c_uint32),
        ("peer_ip", ctypes.c_uint32),
        ("local_port", ctypes.c_uint16),
        ("peer_port", ctypes.c_uint16),
        ("broadcast", ctypes.c_uint8),
        ("reuse_port", ctypes.c_uint8),
    ]


class Next(ctypes.Structure):
    """`struct bsdudp_next`: the oldest datagram in a receive queue."""

    _fields_ = [
        ("ip", ctypes.c_uint32),
        ("port", ctypes.c_uint16),
        ("len", ctypes.c_uint32),
        ("waiting", ctypes.c_uint32),
    ]


class Unfinished(ctypes.Structure):
    """`struct bsdudp_unfinished`."""

    _fields_ = [
        ("source", ctypes.c_uint32),
        ("destination", ctypes.c_uint32),
        ("bytes", ctypes.c_uint32),
        ("ranges", ctypes.c_uint32),
        ("id", ctypes.c_uint16),
        ("protocol", ctypes.c_uint8),
        ("ticks", ctypes.c_uint8),
    ]


class Range(ctypes.Structure):
    """`struct bsdudp_range`."""

    _fields_ = [("offset", ctypes.c_uint32), ("len", ctypes.c_uint32), ("more", ctypes.c_uint8)]


class FateOfC(ctypes.Structure):
    """`struct bsdudp_fate`."""

    _fields_ = [
        ("got", ctypes.c_uint64),
        ("lost", ctypes.c_uint64),
        ("cause", ctypes.c_uint32),
        ("kind", ctypes.c_uint8),
        ("completed", ctypes.c_uint8),
    ]


class Link(ctypes.Structure):
    """`struct bsdudp_link`."""

    _fields_ = [
        ("mac", ctypes.c_uint8 * 6),
        ("mask", ctypes.c_uint32),
        ("gateway", ctypes.c_uint32),
        ("probe", ctypes.c_uint8),
    ]


class Note(ctypes.Structure):
    """`struct bsdudp_note`."""

    _fields_ = [
        ("time", ctypes.c_uint64),
        ("drops", ctypes.c_uint64),
        ("number", ctypes.c_uint64),
        ("to", ctypes.c_uint32),
        ("ttl", ctypes.c_uint8),
        ("tos", ctypes.c_uint8),
        ("known", ctypes.c_uint8),
    ]


class NotesOfC(ctypes.Structure):
    """`struct bsdudp_notes`."""

    _fields_ = [
        ("ring", ctypes.c_void_p),
        *((name, ctypes.c_uint64) for name in ("came", "read", "drops")),
        *((name, ctypes.c_uint32) for name in ("fd", "room", "first", "count")),
    ]


class TalliesOfC(ctypes.Structure):
    """`struct bsdudp_tallies`."""

    _fields_ = [
        (name, ctypes.c_uint64)
        for name in (
            "ignored",
            "martians",
            "bad_arp",
            "conflicts",
            "replies_dropped",
            "no_route",
            "held_dropped",
            "unresolved",
            "too_long",
            "echoes",
            "unreachable",
            "limited",
            "icmp_dropped",
        )
    ]


class NeighbourOfC(ctypes.Structure):
    """`struct bsdudp_neighbour`."""

    _fields_ = [
        ("ip", ctypes.c_uint32),
        ("mac", ctypes.c_uint8 * 6),
        ("known", ctypes.c_uint8),
        ("tries", ctypes.c_uint8),
        ("ticks", ctypes.c_uint16),
    ]


_handle = ctypes.POINTER(Handle)
_bytes = ctypes.c_char_p
_u32 = ctypes.c_uint32
_size = ctypes.c_size_t

# The arguments of each call after the handle. All calls return an int.
CALLS: Dict[str, List[Any]] = {
    "boot_in": [ctypes.POINTER(Config), ctypes.c_void_p, _size],
    "end": [],
    "rx_fate": [_bytes, _size, ctypes.POINTER(FateOfC)],
    "tx": [ctypes.c_void_p, _size],
    "tick": [],
    "socket": [],
    "bind": [_u32, ctypes.POINTER(Address)],
    "bind_random": [_u32, ctypes.POINTER(Address), ctypes.c_uint16, _u32],
    "connect": [_u32, ctypes.POINTER(Address)],
    "sendto": [_u32, ctypes.POINTER(Address), _bytes, _size],
    "send": [_u32, _bytes, _size],
    "recvfrom": [_u32, ctypes.c_void_p, _size, ctypes.POINTER(Address)],
    "peek": [_u32, ctypes.c_void_p, _size, ctypes.POINTER(Address)],
    "close": [_u32],
    "setsockopt": [_u32, ctypes.c_int, ctypes.c_int],
    "getsockopt": [_u32, ctypes.c_int],
    "getsockname": [_u32, ctypes.POINTER(Name)],
    "next": [_u32, ctypes.POINTER(Next)],
    "readable": [ctypes.POINTER(ctypes.c_uint64)],
    "output_len": [],
    "next_packet": [],
    "unfinished_len": [],
    "unfinished": [_u32, ctypes.POINTER(Unfinished)],
    "unfinished_range": [_u32, _u32, ctypes.POINTER(Range)],
    "counter": [_u32, ctypes.POINTER(ctypes.c_uint64)],
    "mbstat": [ctypes.POINTER(Usage)],
    "ether_boot_in": [ctypes.POINTER(Config), ctypes.POINTER(Link), ctypes.c_void_p, _size],
    "ether_receive_fate": [_bytes, _size, ctypes.POINTER(FateOfC)],
    "ether_transmit": [ctypes.c_void_p, _size],
    "ether_last_error": [_u32],
    "ether_address": [],
    "ether_tallies": [ctypes.POINTER(TalliesOfC)],
    "ether_expired": [ctypes.POINTER(ctypes.c_uint64)],
    "ether_neighbour": [_u32, ctypes.POINTER(NeighbourOfC)],
    "note_socket": [ctypes.POINTER(NotesOfC), _u32, ctypes.POINTER(Note), _u32],
    "note_fate": [
        ctypes.POINTER(NotesOfC), _u32, _bytes, _size, ctypes.c_uint64, ctypes.POINTER(FateOfC)
    ],
    "recvfrom_noted": [
        ctypes.POINTER(NotesOfC), ctypes.c_void_p, _size, ctypes.POINTER(Address), ctypes.POINTER(Note)
    ],
}


def _open() -> ctypes.CDLL:
    here = pathlib.Path(__file__).with_name(NAME)
    named = os.environ.get(ENVIRONMENT)
    found = named or (str(here) if here.exists() else ctypes.util.find_library("bsdudp") or NAME)
    try:
        return ctypes.CDLL(found)
    except OSError as fault:
        raise ImportError(
            f"{found} can't be loaded ({fault}). In a checkout, `make python TRIAL=1` makes this package with its"
            " library in a minute or two, without a proof. Or install the wheel, which has it; or install the library with"
            f" `capi/install PREFIX`, and set {ENVIRONMENT}=PREFIX/lib/{NAME}"
        ) from None


class Library:
    """The calls of libbsdudp, each with the types of its arguments."""

    def __init__(self) -> None:
        self._library = _open()
        self._calls: Dict[str, Callable[..., int]] = {}
        for name, arguments in CALLS.items():
            function = getattr(self._library, f"bsdudp_{name}")
            function.argtypes = [_handle, *arguments]
            function.restype = ctypes.c_int
            self._calls[name] = function
        self._library.bsdudp_memory.argtypes = [ctypes.POINTER(Config)]
        self._library.bsdudp_memory.restype = _size
        self.version = self._text("version") or ""
        self.counter_names = tuple(self._counter_names())
        # the cause of each drop, by the counter that counts it
        self.causes: Dict[str, str] = {}
        for which, name in enumerate(self.counter_names):
            cause = self._text("counter_cause", _u32(which))
            if cause is not None:
                self.causes[name] = cause

    def _text(self, name: str, *arguments: object) -> Optional[str]:
        """Makes the call `bsdudp_NAME`, which returns a text or NULL."""
        function = getattr(self._library, f"bsdudp_{name}")
        function.restype = ctypes.c_char_p
        text = function(*arguments)
        return None if text is None else bytes(text).decode()

    def _counter_names(self) -> Iterator[str]:
        for which in itertools.count():
            name = self._text("counter_name", _u32(which))
            if name is None:
                return
            yield name

    def error_name(self, answer: int) -> str:
        """Returns the name of the error of a negative result."""
        return self._text("error_name", ctypes.c_int(answer)) or ""

    def error_text(self, answer: int) -> str:
        """Returns the meaning of a result."""
        return self._text("strerror", ctypes.c_int(answer)) or ""

    def boot_text(self, answer: int, config: Config, link: Link) -> str:
        """Returns why a host with these settings did not boot, with the name of the wrong setting."""
        return self._text("boot_strerror", ctypes.c_int(answer), ctypes.byref(config), ctypes.byref(link)) or ""

    def call(self, name: str, handle: Handle, *arguments: object) -> int:
        """Makes the call `bsdudp_NAME` with a handle, and returns its result."""
        return int(self._calls[name](ctypes.byref(handle), *arguments))

    def quick(self, name: str, arguments: List[Any]) -> Callable[..., int]:
        """Returns the call `bsdudp_NAME` without its checks: it keeps the GIL, and takes the address of a handle first. An
        argument that is a pointer is an address too."""
        function = ctypes.PyDLL(self._library._name)[f"bsdudp_{name}"]
        function.argtypes = [ctypes.c_void_p, *arguments]
        function.restype = ctypes.c_int
        return function

    def memory(self, config: Config) -> int:
        """Returns the size of the memory for a stack with this configuration, in bytes."""
        return int(self._library.bsdudp_memory(ctypes.byref(config)))

    def ether_memory(self, config: Config) -> int:
        """Returns the size of the memory for a host with this configuration, in bytes: BSDUDP_ETHER_MEMORY."""
        return self.memory(config) + LINK_MEMORY


LIBRARY = Library()
