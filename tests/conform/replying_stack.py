"""small_stack.py with what leaves a host: ICMP errors, and replies to pings; and with sockets whose reads can be held
back. test_named.py plants faults in the text of both."""
from __future__ import annotations

import struct

from bsdudp_conform.kit import Adapter, serve
from small_stack import HOST, LIFE_MS, Piece, SmallStack, folded

ICMP, RECORD_ROUTE, TIMESTAMP, PRESPECIFIED = 1, 7, 0x44, 3
UNREACHABLE, TIME_EXCEEDED = 3, 11
OWN = HOST.to_bytes(4, "big")


def with_sum(data: bytes, place: int) -> bytes:
    """Returns the same bytes with the checksum at this place."""
    bare = data[:place] + bytes(2) + data[place + 2 :]
    return bare[:place] + struct.pack(">H", 0xFFFF - folded(bare)) + bare[place + 2 :]


def brought_up_to_date(option: bytes) -> bytes:
    """Returns a record route or timestamp with the host's address or time, if there is room."""
    kind = option[3] & 15 if option[0] == TIMESTAMP else None
    entry = OWN if kind is None else bytes(4) if kind == 0 else OWN + bytes(4)
    begin = option[2] - 1
    end = begin + len(entry)
    if end > len(option) or kind == PRESPECIFIED and option[begin : begin + 4] != OWN:
        return option
    return option[:2] + bytes([option[2] + len(entry)]) + option[3:begin] + entry + option[end:]


def returned(options: bytes) -> bytes:
    """Returns the options of the reply to a ping with these."""
    found, at = b"", 0
    while at < len(options) and options[at] != 0:
        size = 1 if options[at] == 1 else options[at + 1]
        if options[at] in (RECORD_ROUTE, TIMESTAMP):
            found += brought_up_to_date(options[at : at + size])
        at += max(size, 1)
    return found + bytes(-len(found) % 4)


class ReplyingStack(SmallStack):
    name = "replying stack"
    has = ("out", "ping", "sockets", "connect", "hold")

    def boot(self, mtu: int) -> None:
        super().boot(mtu)
        self.firsts: dict[tuple[int, int, int, int], bytes] = {}
        self.held: dict[int, list[tuple[str, int, bytes]]] = {}

    def rx(self, packet: bytes) -> None:
        self.packet = self.first = packet
        super().rx(packet)

    def reassembled(self, key: tuple[int, int, int, int], new: Piece) -> bytes | None:
        data = super().reassembled(key, new)
        if new.begin == 0 and new.data and len(new.data) % 8 == 0:
            self.firsts[key] = self.packet
        if data is not None:
            self.first = self.firsts.pop(key)
        return data

    def wait(self, ms: int) -> None:
        for key, it in self.unfinished.items():
            if self.now + ms - it.born >= LIFE_MS and it.pieces[0].begin == 0 and key[1] == HOST:
                self.error(TIME_EXCEEDED, 1, self.firsts[key])
        super().wait(ms)

    def receivers(self, sender, destination, port, cut):
        found = super().receivers(sender, destination, port, cut)
        if not found and destination == HOST:
            self.error(UNREACHABLE, 3, self.quoted())
        return found

    def quoted(self) -> bytes:
        """Returns the datagram's header and the beginning of its data."""
        first = self.first
        if int.from_bytes(self.packet[6:8], "big") % 0x4000 == 0:
            return self.packet
        size = (first[0] & 15) * 4
        head = with_sum(first[:6] + bytes(2) + first[8:size], 10)
        return head + first[size:]

    def error(self, kind: int, code: int, packet: bytes) -> None:
        quote = packet[: (packet[0] & 15) * 4 + 8]
        self.leaves(packet[12:16], bytes([kind, code]) + bytes(6) + quote, b"")

    def other(self, protocol: int, source: int, destination: int, data: bytes) -> None:
        if destination != HOST:
            return
        if protocol != ICMP:
            self.error(UNREACHABLE, 2, self.quoted())
        elif len(data) >= 8 and data[:2] == b"\x08\0" and folded(data) == 0xFFFF:
            options = self.packet[20 : (self.packet[0] & 15) * 4]
            self.leaves(self.packet[12:16], bytes(4) + data[4:], returned(options))

    def leaves(self, destination: bytes, message: bytes, options: bytes) -> None:
        size = 20 + len(options)
        total = size + len(message)
        head = struct.pack(">BBHIBBH", 0x40 + size // 4, 0, total, 0, 64, ICMP, 0) + OWN + destination + options
        self.out(with_sum(head, 10) + with_sum(message, 2))

    def got(self, address: str, port: int, data: bytes, socket: int = 0) -> None:
        if socket in self.held:
            self.held[socket].append((address, port, data))
        else:
            super().got(address, port, data, socket)

    def hold(self, socket: int) -> None:
        self.held[socket] = []

    def read(self, socket: int, count: int) -> None:
        line = self.held[socket]
        for it in line[:count]:
            Adapter.got(self, *it, socket)
        self.held[socket] = line[count:]


if __name__ == "__main__":
    serve(ReplyingStack)
