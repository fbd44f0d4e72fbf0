"""What `bsdplay why` reports about datagrams that are never complete: they expire, are dropped for their buffers, or
are unfinished at the end of the capture. The records of the fragments are those that the test wrote to the capture.
With `--json` no packet is missing: each is delivered, dropped with a cause, or part of a datagram whose fate is
reported."""
import json
import random
import re
import subprocess

import pytest

from tests.bsdplay.runs import listed
from tests.packets import HERE, MORE, PEER, datagram, fragment, ip
from tests.pcaps import header, record

# An incomplete datagram is dropped after 60 ticks of half a second.
LIFE = 30


def capture(packets):
    """Returns a classic pcap file of packets, each with its time in seconds."""
    return header() + b"".join(record("<", int(time), round(time % 1 * 1e6), packet) for time, packet in packets)


def piece(ident, first, last, *, more):
    """Returns a fragment with zeros, from byte `first` to byte `last` of its datagram."""
    return ip(bytes(last + 1 - first), ident=ident, place=first // 8 | (MORE if more else 0))


def why(bsdplay, packets, *words):
    """Returns the output for a capture."""
    ended = subprocess.run([bsdplay, "why", "-", "--addr", HERE, *words], input=capture(packets), capture_output=True,
                           timeout=120, check=False)  # fmt: skip
    assert (ended.returncode, ended.stderr) == (0, b"")
    return ended.stdout.decode()


def objects(bsdplay, packets):
    """Returns the objects of `--json`: for packets, by record number, and for datagrams that were never complete."""
    rows = [json.loads(it) for it in why(bsdplay, packets, "--json").splitlines()]
    return {it["number"]: it for it in rows if "number" in it}, [it for it in rows if "datagram" in it]


WAY = f"udp {PEER} > {HERE}"
# Two fragments of a datagram, 40.5 seconds apart.
LATE = [(0, piece(7, 0, 7, more=True)), (0.25, piece(8, 0, 7, more=True)), (40.5, piece(7, 8, 15, more=False))]
LATE_LINES = [
    *(f"    unfinished: datagram {it + 6} of {WAY} expired after 30 seconds, with record {it}; lacks all from byte 8 on"
      for it in (1, 2)),
    "    2 dropped: kept fragment of a datagram that expired after 30 seconds (first: record 1)",
    "    unfinished: datagram 7 of udp 10.0.0.2 > 10.0.0.1 lacks bytes 0 to 7, with record 3",
]
# The ports of the first fragments, whose bytes are zeros, and what their datagrams lack.
FRONT = {"sport": 0, "dport": 0, "missing": [[8, None]]}


def test_a_datagram_expires(bsdplay):
    lines = why(bsdplay, LATE).splitlines()
    assert [it for it in lines if it in LATE_LINES] == LATE_LINES
    # It expires before the later record is printed.
    assert lines.index(LATE_LINES[1]) < next(at for at, it in enumerate(lines) if it.startswith("3  40.500000"))
    assert objects(bsdplay, LATE)[1] == [
        {"datagram": f"{WAY}, id 7", "fate": "expired", "records": [1], **FRONT},
        {"datagram": f"{WAY}, id 8", "fate": "expired", "records": [2], **FRONT},
        {"datagram": f"{WAY}, id 7", "fate": "unfinished", "records": [3], "sport": None, "dport": None,
         "missing": [[0, 7]]},
    ]  # fmt: skip


@pytest.mark.parametrize("seconds, expires", [(LIFE - 0.5, False), (LIFE, True)])
def test_after_thirty_seconds(seconds, expires, bsdplay):
    """A datagram that began in the first half second is dropped by the sixtieth tick."""
    told = objects(bsdplay, [(0, piece(7, 0, 7, more=True)), (seconds, datagram(b"hi"))])[1]
    assert [it["fate"] for it in told] == ["expired" if expires else "unfinished"]


def test_records_of_an_unfinished_datagram(bsdplay):
    """The records of another datagram with the same identification aren't listed."""
    other = ip(bytes(8), ("10.0.0.3", HERE), ident=7, place=MORE)
    parts = [piece(7, 0, 7, more=True), other, piece(7, 16, 23, more=True), piece(7, 32, 39, more=True)]
    lines = why(bsdplay, [(0, it) for it in parts]).splitlines()
    told = f"    unfinished: datagram 7 of {WAY} lacks bytes 8 to 15, bytes 24 to 31, all from byte 40 on, "
    assert told + "with records 1, 3 and 4" in lines


def test_a_flood_of_first_fragments(bsdplay):
    """5,000 first fragments in 5 seconds: more than there are clusters."""
    flood = [(number / 1000, piece(number, 0, 1471, more=True)) for number in range(1, 5001)]
    rows, told = objects(bsdplay, flood)
    assert {it["became"].split(": ")[0] for it in rows.values()} == {"kept"}
    assert {it["fate"] for it in told} == {"reclaimed", "unfinished"}
    assert sorted(number for it in told for number in it["records"]) == list(range(1, 5001))
    lost = sum(it["fate"] == "reclaimed" for it in told)
    table = why(bsdplay, flood)
    assert f"    {lost} dropped: kept fragment of a datagram that was dropped for its buffers (first: record 1)" in table


@pytest.mark.parametrize("last, more, rule", [
    (65_519, False, "ends past byte 65514"), (65_511, True, ""), (65_503, False, "")
])  # fmt: skip
def test_a_fragment_past_the_longest_datagram(last, more, rule, bsdplay):
    first = last - 7
    told = why(bsdplay, [(0, piece(7, first, last, more=more))])
    assert (f"dropped: malformed fragment: bytes {first} to {last}" if rule else "kept") in told
    assert rule in told


def test_an_empty_fragment(bsdplay):
    told = why(bsdplay, [(0, ip(b"", ident=7, place=MORE))])
    assert "dropped: malformed fragment: no byte" in told and "no fragment is empty" in told


@pytest.mark.parametrize("size, fits", [(41_584, True), (41_585, False)])
def test_a_datagram_longer_than_a_receive_queue(size, fits, bsdplay):
    """An empty queue accepts 41,600 bytes, including 16 for the sender's address."""
    whole = datagram(bytes(size))
    units = range(0, (len(whole) - 20 + 7) // 8, 180)
    told = why(bsdplay, [(0, fragment(whole, first, 179)) for first in units])
    assert (f"delivered to port 7: {size} bytes" if fits else "takes 41584 bytes") in told


def random_capture(seed):
    """Returns complete datagrams, fragments with holes and overlaps, and pauses in which some datagrams expire."""
    rng, time, packets = random.Random(seed), 0.0, []
    for _ in range(150):
        time += rng.choice((0, 0.001, 0.5, 3, 31 if rng.randrange(20) == 0 else 0))
        if rng.randrange(4) == 0:
            packet = datagram(rng.randbytes(rng.randrange(40)), (5000, rng.choice((7, 0))))
        else:
            first = 8 * rng.randrange(6)
            packet = piece(rng.randrange(1, 7), first, first + 8 * rng.randrange(1, 4) - 1, more=rng.randrange(3) > 0)
        packets.append((time, packet))
    return packets


@pytest.mark.parametrize("seed", range(20))
def test_no_packet_vanishes(seed, bsdplay):
    """A packet that is kept belongs to exactly one datagram, which is completed later or whose fate is reported."""
    packets = random_capture(seed)
    rows, told = objects(bsdplay, packets)
    assert sorted(rows) == list(range(1, len(packets) + 1))
    ended = [number for it in told for number in it["records"]]
    for it in rows.values():
        if found := re.search(r"with records ([^=]*)", it["became"]):
            ended += [number for number in listed(found[1]) if number != it["number"]]
    kept = [number for number, it in rows.items() if it["became"].startswith("kept")]
    assert sorted(ended) == kept
    assert all(it["cause"] or "delivered" in it["became"] for number, it in rows.items() if number not in kept)
