"""Captures in pcap's classic format, which Wireshark, tcpdump and scapy read."""
from __future__ import annotations

import os
import struct
from typing import List

from ._packet import Packet

MAGIC, VERSION = 0xA1B2_C3D4, (2, 4)  # little endian, in microseconds
LINKTYPE_IPV4 = 228  # each record begins with an IPv4 header
SNAPLEN = 65_535
MICROSECONDS = 1_000_000


class Capture:
    """A new file, to which the packets of a carry are appended at its end. So it is complete after each carry, and
    needs no closing."""

    __slots__ = ("path", "_absolute", "_records")

    def __init__(self, path: str) -> None:
        self.path = path
        self._absolute = os.path.abspath(path)
        self._records: List[bytes] = []
        with open(self._absolute, "wb") as file:
            file.write(struct.pack("<IHHiIII", MAGIC, *VERSION, 0, 0, SNAPLEN, LINKTYPE_IPV4))

    def add(self, time: int, packet: Packet) -> None:
        """Adds a packet, with its time in microseconds."""
        length = len(packet)
        self._records.append(struct.pack("<IIII", time // MICROSECONDS, time % MICROSECONDS, length, length) + packet)

    def flush(self) -> None:
        """Writes what was added."""
        if self._records:
            with open(self._absolute, "ab") as file:
                file.write(b"".join(self._records))
            self._records.clear()
