"""Packets as bytes, with properties that decode their headers."""
from __future__ import annotations

import html
from typing import TYPE_CHECKING, Protocol, SupportsBytes, Union, runtime_checkable

from ._addresses import text_of
from ._buffers import octets
from ._library import MAX_PACKET

if TYPE_CHECKING:
    from _typeshed import ReadableBuffer

UDP = 17


@runtime_checkable
class LayeredPacket(Protocol):
    """The methods of scapy's packets that this package uses."""

    def haslayer(self, __layer: str) -> object:
        """Returns whether it has this layer."""

    def __getitem__(self, __layer: str) -> SupportsBytes:
        """Returns the layer, with the layers in it."""


AnyPacket = Union["ReadableBuffer", LayeredPacket]


class Packet(bytes):
    """An IPv4 packet, as bytes, beginning with its header. The properties decode the header (RFC 791, section 3.1).
    They need a packet with a complete header, as all packets of `Stack.tx` have.

    >>> stack = bsdudp.Stack("10.0.0.1")
    >>> stack.socket().sendto(b"hi", ("10.0.0.2", 7))
    2
    >>> packet = stack.tx()
    >>> packet
    <Packet 10.0.0.1 > 10.0.0.2 udp 1024 > 7, id 1, 30 bytes>
    >>> packet.destination, packet.data[8:]
    ('10.0.0.2', b'hi')"""

    __slots__ = ()

    def _word(self, at: int, size: int = 2) -> int:
        return int.from_bytes(self[at : at + size], "big")

    @property
    def source(self) -> str:
        """The source address."""
        return text_of(self._word(12, 4))

    @property
    def destination(self) -> str:
        """The destination address."""
        return text_of(self._word(16, 4))

    @property
    def identification(self) -> int:
        """The identification, which is the same in all fragments of a datagram."""
        return self._word(4)

    @property
    def protocol(self) -> int:
        """The protocol number: 17 is UDP."""
        return self[9]

    @property
    def offset(self) -> int:
        """The offset of its data in the datagram, in bytes: 0 if it is not a fragment."""
        return self._word(6) % 0x2000 * 8

    @property
    def more(self) -> bool:
        """Whether more fragments follow."""
        return bool(self._word(6) & 0x2000)

    @property
    def data(self) -> bytes:
        """The bytes after the header."""
        return bytes(self[(self[0] & 15) * 4 :])

    def __repr__(self) -> str:
        if len(self) < 20:
            return f"<Packet of {len(self)} bytes, too short for a header>"
        ports = ""
        if self.protocol == UDP and self.offset == 0 and len(self.data) >= 4:
            data = self.data
            ports = f" udp {int.from_bytes(data[:2], 'big')} > {int.from_bytes(data[2:4], 'big')}"
        piece = ""
        if self.offset or self.more:
            piece = f", bytes {self.offset} to {self.offset + len(self.data) - 1}{', more to come' if self.more else ''}"
        return f"<Packet {self.source} > {self.destination}{ports}, id {self.identification}{piece}, {len(self)} bytes>"

    __str__ = __repr__  # print shows what it is, and not its bytes

    def _repr_html_(self) -> str:
        if len(self) < 20:
            return html.escape(repr(self))
        rows = [
            [(f"version {self[0] >> 4}", 4), (f"header {self[0] & 15} words", 4), (f"type of service {self[1]}", 8),
             (f"total length {self._word(2)}", 16)],
            [(f"identification {self.identification}", 16), (f"flags {self[6] >> 5:03b}", 3),
             (f"offset {self.offset} bytes", 13)],
            [(f"time to live {self[8]}", 8), (f"protocol {self.protocol}", 8), (f"checksum {self._word(10):#06x}", 16)],
            [(f"source {self.source}", 32)],
            [(f"destination {self.destination}", 32)],
        ]
        body = "".join(
            "<tr>" + "".join(f'<td colspan="{bits}" style="border:1px solid">{text}</td>' for text, bits in row) + "</tr>"
            for row in rows
        )
        return f'<table aria-label="IPv4 header">{body}</table>'


def layer_bytes(it: AnyPacket, layer: str, lacks: str, kind: str, most: int) -> bytes:
    """Returns the bytes of a packet or frame: a bytes-like object, or a scapy packet from a layer on. `lacks` says what
    to do if it lacks the layer."""
    if isinstance(it, bytes):  # first, because the test for a scapy packet is slow
        found = it
    elif isinstance(it, LayeredPacket):
        if not it.haslayer(layer):
            raise ValueError(lacks)
        found = bytes(it[layer])
    else:
        try:
            found = octets(it)
        except TypeError:
            raise TypeError(f"a {kind} must be bytes or a scapy packet, not {type(it).__name__}") from None
    if len(found) > most:
        raise ValueError(f"a {kind} must have at most {most} bytes, not {len(found)}")
    return found


def bytes_of(packet: AnyPacket) -> bytes:
    """Returns the bytes of an IPv4 packet: a bytes-like object, or a scapy packet from its IP layer on."""
    lacks = "the scapy packet has no IP layer; if its bytes are meant as they are, give bytes(packet)"
    return layer_bytes(packet, "IP", lacks, "packet", MAX_PACKET)
