"""Ethernet frames as bytes, and hardware addresses."""
from __future__ import annotations

import re
from typing import TYPE_CHECKING, Union

from ._buffers import octets
from ._packet import LayeredPacket, Packet, layer_bytes

if TYPE_CHECKING:
    from _typeshed import ReadableBuffer

HEADER = 14
MAX_FRAME = HEADER + 65_535
IPV4, ARP = 0x0800, 0x0806

AnyFrame = Union["ReadableBuffer", LayeredPacket]


def mac_text(mac: bytes) -> str:
    """Returns a hardware address in the form "02:00:00:00:00:01"."""
    return mac.hex(":")


def mac_bytes(mac: Union[str, bytes]) -> bytes:
    """Returns the six bytes of a hardware address, given as "02:00:00:00:00:01" or as six bytes."""
    if isinstance(mac, str):
        if not re.fullmatch(r"[0-9a-fA-F]{2}(:[0-9a-fA-F]{2}){5}", mac):
            form = 'six bytes in hexadecimal, such as "02:00:00:00:00:01"'
            raise ValueError(f"a hardware address must be {form}, not {mac!r}")
        return bytes.fromhex(mac.replace(":", ""))
    found = octets(mac)
    if len(found) != 6:
        raise ValueError(f"a hardware address must have six bytes, not {len(found)}")
    return found


class Frame(bytes):
    """An Ethernet frame, as bytes, beginning with its header and without the frame check sequence (RFC 894). The
    properties need a frame with a complete header, as all frames of `Host.transmit` have.

    >>> frame = bsdudp.Host("10.0.0.1", mac="02:00:00:00:00:01").transmit()
    >>> frame
    <Frame 02:00:00:00:00:01 > ff:ff:ff:ff:ff:ff, ARP, 42 bytes>
    >>> hex(frame.type)
    '0x806'"""

    __slots__ = ()

    @property
    def destination(self) -> str:
        """The destination hardware address."""
        return mac_text(self[:6])

    @property
    def source(self) -> str:
        """The source hardware address."""
        return mac_text(self[6:12])

    @property
    def type(self) -> int:
        """The type of its contents: 0x0800 is IPv4, 0x0806 is ARP."""
        return int.from_bytes(self[12:14], "big")

    @property
    def body(self) -> bytes:
        """The bytes after the header; a `Packet` if the type is IPv4."""
        return Packet(self[HEADER:]) if self.type == IPV4 else bytes(self[HEADER:])

    def __repr__(self) -> str:
        if len(self) < HEADER:
            return f"<Frame of {len(self)} bytes, too short for a header>"
        kind = {IPV4: f"{Packet(self.body)!r}", ARP: "ARP"}.get(self.type, f"type {self.type:#06x}")
        return f"<Frame {self.source} > {self.destination}, {kind}, {len(self)} bytes>"

    __str__ = __repr__  # print shows what it is, and not its bytes


def frame_bytes(frame: AnyFrame) -> bytes:
    """Returns the bytes of a frame: a bytes-like object, or a scapy packet from its Ethernet layer on."""
    lacks = "the scapy packet has no Ethernet layer: put Ether() / in front"
    return layer_bytes(frame, "Ethernet", lacks, "frame", MAX_FRAME)
