"""The capture for a golden file of `bsdplay why`: a packet for each cause, a datagram in overlapping fragments, and two
datagrams in turns, in one and in two fragments more than a line lists. `python3 -m tests.bsdplay.why_causes` writes it
again."""
from __future__ import annotations

import itertools
import pathlib
import struct

from tests.packets import ALL, MORE, PEER, checksum, datagram, fragment, ip, udp
from tests.pcaps import header, record

FILE = pathlib.Path(__file__).resolve().parent / "goldens/why_causes.pcap"


def resummed(packet: bytes) -> bytes:
    """Returns the packet with the right header checksum."""
    head = packet[:10] + bytes(2) + packet[12:20]
    return packet[:10] + struct.pack("!H", checksum(head)) + packet[12:]


def overlapping(found: int, ident: int) -> list[bytes]:
    """Returns two fragments of a datagram with this checksum. The second one begins before the first one and overlaps
    it with other bytes: its bytes are kept, because it begins earlier."""
    head = struct.pack("!HHHH", 5000, 7, 32, found)
    late = ip(b"B" * 8 + b"C" * 16, ident=ident, place=1)
    early = ip(head + b"A" * 8, ident=ident, place=MORE)
    return [late, early]


# The bytes that the stack reassembles from them, without the header.
OVERLAPPED = b"A" * 8 + b"C" * 16


def many(ident: int, count: int) -> list[bytes]:
    """Returns a datagram with a wrong checksum in this number of fragments."""
    whole = bytearray(datagram((bytes(range(256)) * 3)[: 8 * count - 8], ident=ident))
    whole[26] ^= 1
    return [fragment(bytes(whole), first, 0) for first in range(count)]


def packets() -> list[tuple[bytes, int | None]]:
    """Returns the packets, each with the captured number of bytes if that isn't all of it."""
    plain = datagram(b"hello", ident=1)
    wrong = bytearray(plain)
    wrong[26] ^= 1
    held = ip(bytes(8), ident=40, place=MORE)
    alone: list[bytes] = [
        plain,
        plain[:19],
        resummed(b"\x65" + plain[1:]),
        resummed(b"\x44" + plain[1:]),
        ip(udp(b"hello"), first=0x46),
        plain[:10] + b"\x12\x34" + plain[12:],
        resummed(plain[:2] + struct.pack("!H", 19) + plain[4:]),
        resummed(plain[:2] + struct.pack("!H", 200) + plain[4:]),
        datagram(b"hello", between=(PEER, "10.0.0.77"), ident=2),
        ip(bytes(12), ident=3, place=MORE),
        held,
        held,
        ip(bytes(8), protocol=99),
        ip(udp(b"")[:7]),
        ip(udp(b"hello", length=30)),
        bytes(wrong),
        datagram(b"hello", (5000, 0), ident=4),
        datagram(b"hello", (5000, 0), (PEER, ALL), ident=5),
    ]
    in_turns = [it for pair in itertools.zip_longest(many(60, 66), many(61, 65)) for it in pair if it is not None]
    cut = datagram(bytes(100), ident=6)
    return [(it, None) for it in (*alone, *overlapping(0x1234, 50), *in_turns)] + [(cut, 60)]


def capture() -> bytes:
    """Returns the file, with one packet each millisecond."""
    records = (
        record("<", 0, at * 1000, packet[:kept], original=len(packet)) for at, (packet, kept) in enumerate(packets())
    )
    return header() + b"".join(records)


if __name__ == "__main__":
    FILE.write_bytes(capture())
