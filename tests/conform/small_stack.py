"""A small UDP/IPv4 stack as an adapter of the judge. test_faults.py plants faults in its text. It keeps the fragments
of a datagram in a list by offset, as 4.4BSD does, and shares only the adapter's lines with the judge."""
from __future__ import annotations

import struct

from bsdudp_conform.kit import Adapter, serve

HOST, BROADCAST, ONES = 0x0A000001, 0x0A0000FF, 0xFFFFFFFF
UDP, LIFE_MS = 17, 60_000


def folded(data: bytes) -> int:
    """Returns the ones' complement sum (RFC 1071)."""
    data += bytes(len(data) % 2)
    total = sum(struct.unpack(f">{len(data) // 2}H", data))
    while total >> 16:
        total = (total & 0xFFFF) + (total >> 16)
    return total


def is_sender(address: int) -> bool:
    """Returns whether a host may have this address (RFC 1122 3.2.1.3)."""
    return 0 < address >> 24 < 224 and address >> 24 != 127 and address != BROADCAST


class Piece:
    """A fragment that is kept."""

    def __init__(self, begin: int, more: bool, data: bytes) -> None:
        self.begin, self.more, self.data = begin, more, data

    @property
    def end(self) -> int:
        return self.begin + len(self.data)

    def cut_front(self, count: int) -> None:
        self.begin += count
        self.data = self.data[count:]


class Unfinished:
    """The fragments of one datagram, by offset."""

    def __init__(self, now: int) -> None:
        self.born = now
        self.pieces: list[Piece] = []

    def insert(self, new: Piece) -> None:
        """Keeps a fragment. If fragments overlap, the one that begins first keeps its bytes."""
        place = sum(it.begin <= new.begin for it in self.pieces)
        if place:
            over = self.pieces[place - 1].end - new.begin
            if over >= len(new.data):
                return
            if over > 0:
                new.cut_front(over)
        while place < len(self.pieces) and self.pieces[place].begin < new.end:
            after = self.pieces[place]
            over = new.end - after.begin
            if over < len(after.data):
                after.cut_front(over)
                break
            del self.pieces[place]
        self.pieces.insert(place, new)

    def joined(self) -> bytes | None:
        """Returns the datagram, or None if a fragment is missing."""
        at = 0
        for it in self.pieces:
            if it.begin != at:
                return None
            at = it.end
        return None if self.pieces[-1].more else b"".join(it.data for it in self.pieces)


class Socket:
    def __init__(self, number: int, port: int) -> None:
        self.number, self.port = number, port
        self.peer: tuple[int, int] | None = None


class SmallStack(Adapter):
    name = "small stack"
    has = ("sockets", "connect")
    forks = False

    def boot(self, mtu: int) -> None:
        self.now = 0
        self.unfinished: dict[tuple[int, int, int, int], Unfinished] = {}
        self.sockets = [Socket(0, 7)]

    def open(self, socket: int, port: int) -> None:
        self.sockets.append(Socket(socket, port))

    def connect(self, socket: int, address: str, port: int) -> None:
        parts = bytes(map(int, address.split(".")))
        self.sockets[socket].peer = (int.from_bytes(parts, "big"), port)

    def wait(self, ms: int) -> None:
        self.now += ms
        for key in [key for key, it in self.unfinished.items() if self.now - it.born >= LIFE_MS]:
            del self.unfinished[key]

    def rx(self, packet: bytes) -> None:
        size = (packet[0] & 15) * 4 if packet else 0
        if len(packet) < 20 or packet[0] >> 4 != 4 or not 20 <= size <= len(packet) or folded(packet[:size]) != 0xFFFF:
            return
        total, id, place = struct.unpack(">HHH", packet[2:8])
        protocol, source, destination = packet[9], *struct.unpack(">II", packet[12:20])
        if not size <= total <= len(packet) or destination not in (HOST, BROADCAST, ONES) or not is_sender(source):
            return
        data: bytes | None = packet[size:total]
        begin, more = place % 0x2000 * 8, bool(place & 0x2000)
        if begin or more:
            data = self.reassembled((source, destination, id, protocol), Piece(begin, more, packet[size:total]))
        if data is not None and protocol == UDP:
            self.datagram(source, destination, data, bool(begin or more))
        elif data is not None:
            self.other(protocol, source, destination, data)

    def other(self, protocol: int, source: int, destination: int, data: bytes) -> None:
        """Data of another protocol than UDP, which this stack ignores."""

    def reassembled(self, key: tuple[int, int, int, int], new: Piece) -> bytes | None:
        if not new.data or new.more and len(new.data) % 8 or new.end > 65515:
            return None
        it = self.unfinished.setdefault(key, Unfinished(self.now))
        it.insert(new)
        data = it.joined()
        if data is not None:
            del self.unfinished[key]
        return data

    def datagram(self, source: int, destination: int, data: bytes, cut: bool) -> None:
        if len(data) < 8:
            return
        sport, port, length, check = struct.unpack(">HHHH", data[:8])
        if not 8 <= length <= len(data):
            return
        pseudo = struct.pack(">IIBBH", source, destination, 0, UDP, length)
        if check and folded(pseudo + data[:length]) != 0xFFFF:
            return
        for it in self.receivers((source, sport), destination, port, cut):
            address = ".".join(map(str, source.to_bytes(4, "big")))
            self.got(address, sport, data[8:length], it.number)

    def receivers(self, sender: tuple[int, int], destination: int, port: int, cut: bool) -> list[Socket]:
        """Returns all sockets for a broadcast, otherwise the one that is connected to the sender, or the youngest."""
        found = [it for it in self.sockets if it.port == port and it.peer in (None, sender)]
        if destination != HOST:
            return found
        return sorted(found, key=lambda it: (it.peer is not None, it.number))[-1:]


if __name__ == "__main__":
    serve(SmallStack)
