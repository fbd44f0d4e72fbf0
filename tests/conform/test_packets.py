"""The judge's packets and captures, compared with scapy's."""
import random

import pytest

try:
    from scapy.layers.inet import IP, UDP
    from scapy.packet import Raw
    from scapy.utils import RawPcapReader
except ImportError:  # all tests are skipped then
    pass

from bsdudp_conform._addresses import HOST, PEER, text_of
from bsdudp_conform._packets import packet, udp, write_capture

pytestmark = pytest.mark.needs("scapy")
FIELDS = [
    {},
    {"version": 5},
    {"ihl": 4},
    {"len": 99},
    {"tos": 3},
    {"ttl": 0},
    {"chksum": 0x1111},
    {"id": 0xABCD, "flags": 1, "offset": 65528},
    {"flags": 6, "proto": 253},
    {"options": b"\7\4\4\0"},
    {"options": b"\x44\x08\x05\0\0\0\0\0"},
]


@pytest.mark.parametrize("fields", FIELDS, ids=str)
def test_a_packet_is_the_one_that_scapy_builds(fields):
    data, theirs = bytes(range(40)), dict(fields)
    theirs["frag"] = theirs.pop("offset", 0) // 8
    theirs["options"] = [Raw(it) for it in [theirs.pop("options", b"")] if it]
    theirs = {"id": 1, "proto": 17, **theirs}
    assert packet(data, **fields) == bytes(IP(src=text_of(PEER), dst=text_of(HOST), **theirs) / Raw(data))


@pytest.mark.parametrize("size", [0, 1, 2, 99, 1472])
def test_a_datagram_is_the_one_that_scapy_builds(size):
    data = random.Random(size).randbytes(size)
    whole = IP(src=text_of(PEER), dst=text_of(HOST)) / UDP(sport=5000, dport=7) / Raw(data)
    assert udp(data) == bytes(whole)[20:]


def test_scapy_reads_a_capture(tmp_path):
    made = [(0.0, packet(udp(b"one"))), (1.25, packet(udp(b"two"), id=2))]
    write_capture(tmp_path / "it.pcap", made)
    with open(tmp_path / "it.pcap", "rb") as file:
        read = [(it.sec + it.usec / 1_000_000, data) for data, it in RawPcapReader(file)]
    assert read == made
