"""A stack as a Python object."""
from __future__ import annotations

import ctypes
import weakref
from types import TracebackType
from typing import TYPE_CHECKING, Dict, Iterator, List, Mapping, Optional, SupportsIndex, Tuple, Type, TypeVar

from . import _quick
from ._addresses import Host, in_range, number_of, text_of
from ._counters import Counters, MbStat
from ._errors import refused
from ._fate import Fate, fate_of
from ._library import FIRST_DESCRIPTOR, LIBRARY, Config, FateOfC, Handle, Range, Unfinished, Usage
from ._notes import Notes
from ._packet import AnyPacket, Packet, bytes_of
from ._place import Place
from ._socket import Socket
from ._uncopied import Uncopied
from ._unfinished import UnfinishedDatagram, told

if TYPE_CHECKING:
    from ._wire import Wire

Kind = TypeVar("Kind", bound="Stack")

FIRST_ADDRESS, LAST_ADDRESS = 0x0100_0000, 0xDFFF_FFFF
LOOPBACK_NET = 127


def _interface(what: str, host: Host) -> int:
    """Returns the number of an address. ValueError if an interface cannot have it: it is not 1.0.0.0 to
    223.255.255.255, or it is in 127.0.0.0/8."""
    number = number_of(host)
    if not FIRST_ADDRESS <= number <= LAST_ADDRESS or number >> 24 == LOOPBACK_NET:
        raise ValueError(f"{what} must be 1.0.0.0 to 223.255.255.255 and outside 127.0.0.0/8, not {text_of(number)}")
    return number


class Stack(Uncopied):
    """A simulated host with one interface, its pool of mbufs, and up to 64 UDP sockets.

    addr      the address of the interface: 1.0.0.0 to 223.255.255.255, not in 127.0.0.0/8
    bcast     the broadcast address of its network, in the same range; None means `addr` with 255 as its last byte
    mtu       the longest packet that the stack sends to the link, in bytes: 68 to 4352
    mbufs     the number of mbufs in the pool, of 128 bytes each: 1 to 65535
    clusters  the number of clusters in the pool, of 2,048 bytes each: 0 to 4096
    first_id  the IP identification of the first datagram that it sends: 0 to 65535

    A wrong argument raises a TypeError or a ValueError before the library is called. A call on a stack that has ended
    raises a ValueError. A stack is a context manager, which ends the stack. No method blocks, and nothing runs in the
    background: `rx` passes packets in, `tx` takes packets out, and `tick` advances the clock. Only one thread at a time
    may be in a method of a stack, of its copies or of their sockets: a second one gets a RuntimeError, and nothing
    happens. `copy` branches a stack; it cannot be pickled.

    >>> with bsdudp.Stack("10.0.0.1", mtu=1500, mbufs=64, clusters=16) as stack:
    ...     socket = stack.socket()
    ...     socket.bind(("", 7))
    ...     stack.tx()  # the output queue is empty
    ...     socket.sendto(b"hi", ("10.0.0.2", 7))
    ...     stack.tx()
    2
    <Packet 10.0.0.1 > 10.0.0.2 udp 7 > 7, id 1, 30 bytes>"""

    __slots__ = (
        "_live", "_sockets", "_config", "_place", "_turn", "_state", "_handle", "_handle_at", "_room", "_room_at", "_wires",
        "_notes",
    )  # fmt: skip

    def __init__(
        self,
        addr: Host = "10.0.0.1",
        bcast: Optional[Host] = None,
        mtu: SupportsIndex = 1500,
        mbufs: SupportsIndex = 512,
        clusters: SupportsIndex = 64,
        first_id: SupportsIndex = 1,
    ) -> None:
        self._live = False
        self._sockets: Dict[int, Socket] = {}
        self._wires: List[Tuple["weakref.ref[Wire]", int]] = []  # each with its place there
        self._notes: Optional[Notes] = None
        address, broadcast = self._addresses(addr, bcast)
        self._config = Config(
            address,
            broadcast,
            in_range("mbufs", mbufs, 1, 65_535),
            in_range("clusters", clusters, 0, 4_096),
            in_range("mtu", mtu, 68, 4_352),
            in_range("first_id", first_id, 0, 65_535),
        )
        self._boot()

    def _addresses(self, addr: Host, bcast: Optional[Host]) -> Tuple[int, int]:
        """Returns the numbers of the two addresses. ValueError if no stack can have them."""
        address = _interface("addr", addr)
        broadcast = address | 0xFF if bcast is None else _interface("bcast", bcast)
        if broadcast == address:
            raise ValueError(f"bcast must differ from addr, {text_of(address)}")
        return address, broadcast

    def _boot(self) -> None:
        self._place = Place(self._memory_size())
        self._turn, self._state = self._place.turn, self._place.here
        self._handle = Handle()
        self._handle_at = ctypes.addressof(self._handle)
        self._room = ctypes.create_string_buffer(self.mtu)
        self._room_at = ctypes.addressof(self._room)
        answer = self._boot_in(self._place.at, self._place.size)
        if answer < 0:
            raise refused(answer)
        self._live = True

    def copy(self: Kind) -> Kind:
        """Returns a second stack in the same state, with copies of the open sockets (see `sockets`). What happens to
        one of the two changes nothing in the other, so a simulation can try two futures.

        Both use the same memory in turn: the first call on a stack after one on its copy moves the bytes of both, about
        12 microseconds for a default stack. A wire does not carry what the copy sends: make another one, or use
        `Wire.copy`."""
        with self._turn:
            if not self._live:
                raise ValueError(_quick.ENDED)
            twin = type(self).__new__(type(self))
            if hasattr(self, "__dict__"):  # of a program's subclass
                twin.__dict__.update(self.__dict__)
            self._copy_to(twin)
            return twin

    def _copy_to(self, twin: "Stack") -> None:
        """Gives the copy all that a stack has. The caller holds the lock."""
        twin._config, twin._place, twin._turn = self._config, self._place, self._turn
        twin._state = self._place.copied(self._state)
        twin._handle = Handle.from_buffer_copy(self._handle)
        twin._handle_at = ctypes.addressof(twin._handle)
        twin._room = ctypes.create_string_buffer(self.mtu)
        twin._room_at = ctypes.addressof(twin._room)
        twin._wires = []
        twin._notes = None if self._notes is None else self._notes.copied()
        twin._sockets = {descriptor: Socket(twin, descriptor) for descriptor in self._sockets}
        twin._live = True

    def _memory_size(self) -> int:
        """Returns the size of the memory that boot needs, in bytes."""
        return LIBRARY.memory(self._config)

    def _boot_in(self, at: int, size: int) -> int:
        """Boots in this memory, and returns the library's result."""
        return LIBRARY.call("boot_in", self._handle, ctypes.byref(self._config), at, size)

    def _ask(self, name: str, *arguments: object) -> int:
        """Calls the library, if no other thread is in the stack."""
        with self._turn:
            return self._call(name, *arguments)

    def _pass(self, name: str, data: bytes, head: int = 0) -> Optional[Fate]:
        """Passes a packet to the library, or a frame with a header of `head` bytes. Adds notes if a socket wants them.
        Returns what happened to the packet; None if no packet reached the stack."""
        with self._turn:
            told = FateOfC()
            self._call(name, data, len(data), ctypes.byref(told))
            if self._notes is not None:
                self._call("note_fate", *self._notes.arguments(data[head:]), ctypes.byref(told))
            return fate_of(told, self._sockets)

    def _call(self, name: str, *arguments: object) -> int:
        """Calls the library, if the stack has not ended. The caller holds the lock."""
        answer = self._answer(name, *arguments)
        if answer < 0:
            raise refused(answer, name)
        return answer

    def _answer(self, name: str, *arguments: object) -> int:
        """Does the same, and returns the result also if the call failed."""
        if not self._live:
            raise ValueError(_quick.ENDED)
        if self._place.here is not self._state:
            self._place.bring(self._state)
        return LIBRARY.call(name, self._handle, *arguments)

    def _holds(self) -> None:
        """Notes for the wires that a datagram may be unfinished, so that it takes part in their ticks."""
        for of, at in self._wires:
            wire = of()
            if wire is not None:
                wire._may_hold.add(at)

    def _sends(self) -> None:
        """Notes for the wires that packets may be in the output queue, and in a receive queue: some go to the stack
        itself."""
        for of, at in self._wires:
            wire = of()
            if wire is not None:
                wire._may_send.add(at)
                wire._may_read.add(at)

    def _gets(self) -> None:
        """Notes for the wires that a socket got a datagram."""
        for of, at in self._wires:
            wire = of()
            if wire is not None:
                wire._may_read.add(at)

    def end(self) -> None:
        """Ends the stack and closes its sockets. A second call does nothing."""
        with self._turn:
            if self._live:
                self._call("end")
                self._live = False
                self._sockets.clear()

    close = end

    def __enter__(self) -> "Stack":
        return self

    def __exit__(
        self,
        kind: Optional[Type[BaseException]],
        fault: Optional[BaseException],
        trace: Optional[TracebackType],
    ) -> None:
        self.end()

    @property
    def addr(self) -> str:
        """The address of the interface."""
        return text_of(self._config.addr)

    @property
    def bcast(self) -> str:
        """The broadcast address of its network."""
        return text_of(self._config.bcast)

    @property
    def mtu(self) -> int:
        """The longest packet that the stack sends to the link, in bytes."""
        return int(self._config.mtu)

    def rx(self, packet: AnyPacket) -> Fate:
        """Passes a packet from the link to the stack: bytes from the IPv4 header on, or a scapy packet with an IP
        layer. The stack delivers it, keeps it until the other fragments of its datagram arrive, or drops and counts it.
        Returns which of these happened. A drop is not an error.

        ValueError if it has more than 65,535 bytes or no IP layer. TypeError if it is not a packet."""
        data = bytes_of(packet)
        fate = _quick.rx(self, data) if self._notes is None else self._pass("rx_fate", data)
        assert fate is not None
        if fate.kind == "kept":
            self._holds()
        elif fate.got:
            self._gets()
        return fate

    def tx(self) -> Optional[Packet]:
        """Removes the oldest packet from the output queue and returns it; None if the queue is empty."""
        packet = _quick.transmit(self)
        return Packet(packet) if packet else None

    def packets(self) -> Iterator[Packet]:
        """Yields the packets of the output queue, oldest first, and removes them."""
        while (packet := self.tx()) is not None:
            yield packet

    def tick(self, n: SupportsIndex = 1) -> None:
        """Advances the clock by `n` ticks of half a second, 0 to 1,000,000. A datagram with missing fragments is
        dropped after 60 ticks."""
        ticks = in_range("n", n, 0, 1_000_000)
        with self._turn:
            for _ in range(ticks):
                self._call("tick")

    def socket(self) -> Socket:
        """Opens a UDP socket. OSError with `errno` EMFILE if 64 sockets are open."""
        with self._turn:
            descriptor = self._call("socket")
            opened = self._sockets[descriptor] = Socket(self, descriptor)
            return opened

    @property
    def sockets(self) -> Dict[int, Socket]:
        """The open sockets by their descriptors: `twin.sockets[it.descriptor]` is the copy of `it`."""
        return dict(self._sockets)

    def readable(self) -> List[Socket]:
        """Returns the sockets that have a datagram in their receive queue, in the order of their descriptors."""
        found = ctypes.c_uint64()
        with self._turn:
            self._call("readable", ctypes.byref(found))
            descriptors = (bit + FIRST_DESCRIPTOR for bit in range(64) if found.value >> bit & 1)
            return [self._sockets[descriptor] for descriptor in descriptors]

    @property
    def output_len(self) -> int:
        """The number of packets in the output queue, 0 to 50."""
        return self._ask("output_len")

    @property
    def unfinished(self) -> List[UnfinishedDatagram]:
        """The datagrams that have some of their fragments, in the order in which their first fragments arrived."""
        with self._turn:
            return self._all_unfinished()

    def _all_unfinished(self) -> List[UnfinishedDatagram]:
        return [self._unfinished_at(at) for at in range(self._call("unfinished_len"))]

    def _unfinished_at(self, at: int) -> UnfinishedDatagram:
        datagram = Unfinished()
        self._call("unfinished", at, ctypes.byref(datagram))
        return told(datagram, tuple(self._range_at(at, k) for k in range(datagram.ranges)))

    def _range_at(self, at: int, k: int) -> Range:
        held = Range()
        self._call("unfinished_range", at, k, ctypes.byref(held))
        return held

    @property
    def counters(self) -> Counters:
        """A snapshot of the counters. It does not change: read the property again for new values."""
        with self._turn:
            return self._all_counters()

    def _all_counters(self) -> Counters:
        value = ctypes.c_uint64()
        values = {}
        for which, name in enumerate(LIBRARY.counter_names):
            self._call("counter", which, ctypes.byref(value))
            values[name] = value.value
        return Counters(values)

    @property
    def mbstat(self) -> MbStat:
        """A snapshot of the usage of the pool."""
        with self._turn:
            return self._usage()

    def _usage(self) -> MbStat:
        usage = Usage()
        self._call("mbstat", ctypes.byref(usage))
        return MbStat(*(getattr(usage, name) for name in MbStat._fields))

    def why(self, before: Mapping[str, int]) -> List[str]:
        """Returns the causes, as a list of str, for which packets have been dropped since `before`, an earlier value of
        `counters`. The list is empty if no packet was dropped."""
        return self.counters.since(before).causes()

    def __repr__(self) -> str:
        if not self._live:
            return f"<{type(self).__name__} {self.addr}, ended>"
        try:
            return f"<{type(self).__name__} {self.addr}, {len(self._sockets)} sockets, {self.output_len} packets wait for the link>"
        except RuntimeError:
            return f"<{type(self).__name__} {self.addr}, another thread is in it>"

    def _repr_html_(self) -> str:
        with self._turn:
            if not self._live:
                return f"<p>Stack {self.addr}, ended</p>"
            usage = self._usage()
            sockets = "".join(f"<tr>{it._cells()}</tr>" for it in self._sockets.values())
            return (
                f"<p><b>Stack {self.addr}</b>, MTU {self.mtu}: {usage.mbufs - usage.free_mbufs} of {usage.mbufs} mbufs and"
                f" {usage.clusters - usage.free_clusters} of {usage.clusters} clusters in use;"
                f" {self._call('output_len')} packets wait for the link</p>"
                '<table aria-label="sockets"><tr><th>socket</th><th>local</th><th>peer</th><th>waiting</th></tr>'
                f"{sockets}</table>{self._unfinished_html()}{self._all_counters()._repr_html_()}"
            )

    def _unfinished_html(self) -> str:
        rows = "".join(f"<tr>{it._cells()}</tr>" for it in self._all_unfinished())
        if not rows:
            return ""
        return (
            '<table aria-label="unfinished datagrams"><tr><th>unfinished datagram</th><th>ticks left</th>'
            f"<th>bytes held</th></tr>{rows}</table>"
        )
