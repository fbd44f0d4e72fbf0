"""What the packets of datagrams said besides their bytes: bsdudp_notes.h."""
from __future__ import annotations

import ctypes
import operator
import socket as host
import struct
from typing import Dict, List, SupportsIndex, Tuple

from ._library import FIRST_DESCRIPTOR, LIBRARY, MAX_SOCKETS, Handle, Note, NotesOfC
from ._library import Address as Raw

# Linux's numbers. Python's `socket` has names for some of them only.
IP_PKTINFO = int(getattr(host, "IP_PKTINFO", 8))
IP_RECVTTL = int(getattr(host, "IP_RECVTTL", 12))
IP_RECVTOS = int(getattr(host, "IP_RECVTOS", 13))
IP_TTL, IP_TOS = int(host.IP_TTL), int(host.IP_TOS)
OPTIONS = (IP_PKTINFO, IP_RECVTTL, IP_RECVTOS)
MSG_CTRUNC = int(getattr(host, "MSG_CTRUNC", 8))
# A receive queue has 41,600 bytes, and a datagram takes two mbufs or more of its limit of 83,200 bytes.
ROOM = 83_200 // 256

Message = Tuple[int, int, bytes]


class Notes:
    """The notes of a stack's sockets, from the first `setsockopt` on that wants them."""

    def __init__(self) -> None:
        self.of = (NotesOfC * MAX_SOCKETS)()
        self.rings: Dict[int, "ctypes.Array[Note]"] = {}
        self.wanted: Dict[int, Dict[int, bool]] = {}

    def want(self, handle: Handle, descriptor: int, option: int, value: SupportsIndex) -> None:
        """Sets an option of a socket. Its notes begin with the first one."""
        at = descriptor - FIRST_DESCRIPTOR
        if descriptor not in self.wanted:
            ring = self.rings[at] = (Note * ROOM)()
            LIBRARY.call("note_socket", handle, ctypes.byref(self.of[at]), descriptor, ring, ROOM)
        self.wanted.setdefault(descriptor, {})[option] = bool(operator.index(value))

    def has(self, descriptor: int, option: int) -> bool:
        return self.wanted.get(descriptor, {}).get(option, False)

    def forget(self, descriptor: int) -> None:
        """The socket is closed."""
        self.wanted.pop(descriptor, None)

    def copied(self) -> "Notes":
        """Returns the notes of a copy of the stack."""
        twin = Notes()
        ctypes.memmove(twin.of, self.of, ctypes.sizeof(self.of))
        for at, ring in self.rings.items():
            twin.rings[at] = (Note * ROOM).from_buffer_copy(ring)
            twin.of[at].ring = ctypes.addressof(twin.rings[at])
        twin.wanted = {descriptor: dict(options) for descriptor, options in self.wanted.items()}
        return twin

    def arguments(self, data: bytes) -> Tuple[object, ...]:
        """Returns the arguments, except its fate, with which a packet that arrived is noted."""
        return (self.of, max(self.rings, default=-1) + 1, data, len(data), 0)

    def take(self, buffer: object, size: int, sender: Raw, descriptor: int, note: Note) -> Tuple[object, ...]:
        """Returns the arguments with which a datagram is received."""
        at = descriptor - FIRST_DESCRIPTOR
        return (ctypes.byref(self.of[at]), buffer, size, ctypes.byref(sender), ctypes.byref(note))

    def messages(self, descriptor: int, note: Note, own: int, room: int) -> Tuple[List[Message], int]:
        """Returns the ancillary data of a datagram that fit into `room` bytes, as Linux has them, and its flags."""
        info = struct.pack("=i", 1) + struct.pack(">II", own, note.to)
        known = {
            IP_PKTINFO: (int(host.IPPROTO_IP), IP_PKTINFO, info),
            IP_RECVTTL: (int(host.IPPROTO_IP), IP_TTL, struct.pack("=i", note.ttl)),
            IP_RECVTOS: (int(host.IPPROTO_IP), IP_TOS, bytes([note.tos])),
        }
        messages = [known[it] for it in OPTIONS if note.known and self.has(descriptor, it)]
        for count, (_, _, data) in enumerate(messages):
            if room < host.CMSG_LEN(len(data)):
                return messages[:count], MSG_CTRUNC
            room -= min(room, host.CMSG_SPACE(len(data)))
        return messages, 0
