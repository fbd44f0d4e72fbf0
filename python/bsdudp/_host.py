"""A host on an Ethernet as a Python object."""
from __future__ import annotations

import ctypes
from typing import Iterator, List, NamedTuple, NoReturn, Optional, SupportsIndex, Tuple, Union

from . import _addresses
from ._addresses import in_range, number_of, text_of
from ._errors import refused
from ._fate import Fate
from ._frame import HEADER, AnyFrame, Frame, frame_bytes, mac_bytes, mac_text
from ._library import ETHER_ROOM, LIBRARY, NEIGHBOURS, Link, NeighbourOfC, TalliesOfC
from ._packet import AnyPacket
from ._socket import Socket
from ._stack import Stack

WRONG_SETTING = -22


class Tallies(NamedTuple):
    """The counters of a host's link since boot: the value of `Host.tallies`.

    >>> host = bsdudp.Host("10.0.0.1")
    >>> host.receive(bytes(14))  # to another host
    >>> host.tallies.ignored
    1"""

    ignored: int
    """Frames for other hosts, or of a type other than IPv4 and ARP."""
    martians: int
    """Packets with an address that cannot occur on a link (RFC 1122, 3.2.1.3)."""
    bad_arp: int
    """ARP packets not for Ethernet and IPv4, or with a hardware address that no other host has as the sender's: this
    host's, a group's or all zeros."""
    conflicts: int
    """ARP packets of another host that claims this host's address."""
    replies_dropped: int
    """ARP requests for the host without space for the reply: at most 8 replies are queued."""
    no_route: int
    """Packets to another network, without a gateway."""
    held_dropped: int
    """Packets dropped for a newer one while waiting for a hardware address: at most 8 wait."""
    unresolved: int
    """Packets dropped because no reply gave the hardware address."""
    too_long: int
    """Packets that are too long for a frame: always 0 for a host of this library."""
    echoes: int
    """Echo requests that got a reply."""
    unreachable: int
    """Datagrams for which the host sent "port unreachable" or "protocol unreachable" to the sender."""
    limited: int
    """Datagrams for which it sent no error: it sends at most 10 between two ticks."""
    icmp_dropped: int
    """ICMP replies dropped because another reply was still queued, or for a newer one while waiting for a hardware
    address, or because no reply gave that address."""
    expired: int
    """Unfinished datagrams for which the host sent "time exceeded" to the sender."""


class Neighbour(NamedTuple):
    """A neighbour: its hardware address is known, or the host has requested it. An item of `Host.neighbours`.

    >>> host = bsdudp.Host("10.0.0.1")
    >>> host.socket().sendto(b"hi", ("10.0.0.2", 7))
    2
    >>> frames = list(host.frames())  # the announcement, and a request for 10.0.0.2
    >>> [neighbour.ip for neighbour in host.neighbours], host.neighbours[0].mac
    (['10.0.0.2'], None)"""

    ip: str
    """Its address."""
    mac: Optional[str]
    """Its hardware address; None if it is not known."""
    ticks: int
    """If the hardware address is known, the ticks until it expires; otherwise the ticks until the next request."""
    tries: int
    """How many requests for it went out."""


class Host(Stack):
    """A simulated host on an Ethernet: a `Stack` that receives and sends frames (RFC 894), with ARP (RFC 826), replies
    to ping, "destination unreachable" for closed ports and unknown protocols, and "time exceeded" for unfinished
    datagrams (RFC 792).

    mac      its hardware address, such as "02:00:00:00:00:01" or six bytes; not a group address
    mask     the network mask, of at most 30 ones; the default is "255.255.255.0"
    gateway  the neighbour to which packets for other networks are sent; None: such packets are dropped and counted
    bcast    the last address of its network; None stands for that
    probe    whether it first probes for its address (RFC 5227), which takes 5.0 to 5.5 seconds of ticks
    addr, mbufs, clusters and first_id are those of a `Stack`. The MTU is 68 to 1500.

    `receive` passes frames in, and `transmit` takes frames out. `rx` and `tx` raise an OSError with `errno` EOPNOTSUPP.

    >>> host = bsdudp.Host("10.0.0.1", mac="02:00:00:00:00:01")
    >>> for frame in host.frames():
    ...     print(frame)
    <Frame 02:00:00:00:00:01 > ff:ff:ff:ff:ff:ff, ARP, 42 bytes>"""

    __slots__ = ("_mask", "_link", "_has_gateway", "_frame_room")

    def __init__(
        self,
        addr: _addresses.Host = "10.0.0.1",
        mac: Union[str, bytes] = "02:00:00:00:00:01",
        mask: _addresses.Host = "255.255.255.0",
        gateway: Optional[_addresses.Host] = None,
        bcast: Optional[_addresses.Host] = None,
        mtu: SupportsIndex = 1500,
        mbufs: SupportsIndex = 512,
        clusters: SupportsIndex = 64,
        first_id: SupportsIndex = 1,
        probe: bool = False,
    ) -> None:
        hardware, self._mask = mac_bytes(mac), number_of(mask)
        in_range("mtu", mtu, 68, 1500)
        to = 0 if gateway is None else number_of(gateway)
        if gateway is not None and to == 0:
            raise ValueError("gateway must be a neighbour, not 0.0.0.0; None stands for no gateway")
        self._link = Link((ctypes.c_uint8 * 6)(*hardware), self._mask, to, bool(probe))
        self._has_gateway = gateway is not None
        super().__init__(addr, bcast, mtu, mbufs, clusters, first_id)

    def _addresses(self, addr: _addresses.Host, bcast: Optional[_addresses.Host]) -> Tuple[int, int]:
        """Returns the numbers of the two addresses. Boot checks them, with the mask."""
        own = number_of(addr)
        return own, own | ~self._mask & 0xFFFFFFFF if bcast is None else number_of(bcast)

    def _memory_size(self) -> int:
        return LIBRARY.ether_memory(self._config)

    def _boot_in(self, at: int, size: int) -> int:
        config, link = ctypes.byref(self._config), ctypes.byref(self._link)
        self._frame_room = ctypes.create_string_buffer(ETHER_ROOM)
        answer = LIBRARY.call("ether_boot_in", self._handle, config, link, at, size)
        if answer == WRONG_SETTING:
            text = LIBRARY.boot_text(answer, self._config, self._link)
            setting = text.partition(" ")[0]
            raise ValueError(f"{text} ({setting} is {getattr(self, setting)})")
        return answer

    def _copy_to(self, twin: Stack) -> None:
        assert isinstance(twin, Host)
        super()._copy_to(twin)
        twin._link, twin._mask, twin._has_gateway = self._link, self._mask, self._has_gateway
        twin._frame_room = ctypes.create_string_buffer(ETHER_ROOM)

    @property
    def mac(self) -> str:
        """Its hardware address."""
        return mac_text(bytes(self._link.mac))

    @property
    def mask(self) -> str:
        """The network mask."""
        return text_of(self._mask)

    @property
    def gateway(self) -> Optional[str]:
        """The neighbour to which packets for other networks are sent; None if there is no gateway."""
        return text_of(self._link.gateway) if self._has_gateway else None

    @property
    def uses_address(self) -> bool:
        """Whether it uses its address; False while it probes for it. OSError with `errno` EADDRINUSE if another host
        has the address; this host then sends nothing."""
        return bool(self._ask("ether_address"))

    def receive(self, frame: AnyFrame) -> Optional[Fate]:
        """Passes a frame from the network card to the host: bytes from the Ethernet header on, or a scapy packet with
        an Ethernet layer. Replies are queued for `transmit`. Returns what happened to its packet; None if the stack got
        no packet, for example for ARP.

        ValueError if it has more than 65,549 bytes or no Ethernet layer. TypeError if it is not a frame."""
        return self._pass("ether_receive_fate", frame_bytes(frame), HEADER)

    def transmit(self) -> Optional[Frame]:
        """Returns the next frame for the network card and removes it; None if there is no frame. A card pads a short
        frame to 60 bytes."""
        with self._turn:
            length = self._call("ether_transmit", self._frame_room, ETHER_ROOM)
            return Frame(self._frame_room.raw[:length]) if length else None

    def frames(self) -> Iterator[Frame]:
        """Yields the frames for the network card, and removes them."""
        while (frame := self.transmit()) is not None:
            yield frame

    def last_error(self, socket: Socket) -> Optional[OSError]:
        """Returns, and then clears, what other hosts reported by ICMP about the datagrams that a connected socket sent
        to its peer: a ConnectionRefusedError if no socket has that port there, an OSError with `errno` EHOSTUNREACH if
        no route leads there, or None. The exception is returned, not raised. The host keeps the last eight reports, by
        local port and peer: a socket also gets a report about a datagram of an earlier socket with the same port and
        peer.

        Raises an OSError with `errno` EBADF if the socket is not open, and a ValueError if it is a socket of another
        stack."""
        if socket._stack is not self:
            raise ValueError("the socket must belong to this host")
        answer = socket._ask("ether_last_error")
        return refused(-answer, "ether_last_error") if answer else None

    @property
    def tallies(self) -> Tallies:
        """A snapshot of the counters of its link since boot."""
        told, expired = TalliesOfC(), ctypes.c_uint64()
        with self._turn:
            self._call("ether_tallies", ctypes.byref(told))
            self._call("ether_expired", ctypes.byref(expired))
        return Tallies._make([*(getattr(told, name) for name in Tallies._fields[:-1]), expired.value])

    @property
    def neighbours(self) -> List[Neighbour]:
        """The neighbours whose hardware address is known or requested, at most 32. The last one is the newest entry."""
        found: List[Neighbour] = []
        told = NeighbourOfC()
        with self._turn:
            for at in range(NEIGHBOURS):
                try:
                    self._call("ether_neighbour", at, ctypes.byref(told))
                except OSError:
                    break
                mac = mac_text(bytes(told.mac)) if told.known else None
                found.append(Neighbour(text_of(told.ip), mac, told.ticks, told.tries))
        return found

    def rx(self, packet: AnyPacket) -> NoReturn:
        """Raises an OSError with `errno` EOPNOTSUPP: a host receives frames, see `receive`."""
        self._pass("rx_fate", b"")
        raise AssertionError("a host took a packet past its link")

    def tx(self) -> NoReturn:
        """Raises an OSError with `errno` EOPNOTSUPP: a host sends frames, see `transmit`."""
        self._ask("tx", self._room, self.mtu)
        raise AssertionError("a host gave a packet past its link")
