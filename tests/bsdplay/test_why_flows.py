"""`bsdplay why` knows the ports of fragments by their first one, the bytes that a datagram lacks, and bytes that differ where
fragments overlap (volume 2, chapter 10). `--flow` selects by these ports, and has sums of its own."""
import json
import struct

import pytest

from tests.bsdplay.runs import run
from tests.packets import HERE, MORE, PEER, datagram, fragment, ip
from tests.pcaps import header, record

WAY = f"udp {PEER} > {HERE}"
# A datagram of 96 bytes after its IP header, in three fragments, and one of another port in two.
WHOLE, OTHER = datagram(bytes(88), (5000, 7), ident=9), datagram(bytes(40), (5001, 7), ident=10)
PARTS = [fragment(WHOLE, 0, 3), fragment(WHOLE, 4, 3), fragment(WHOLE, 8, 9)]
OTHERS = [fragment(OTHER, 0, 2), fragment(OTHER, 3, 9)]


def why(bsdplay, packets, *words):
    """Returns the output for a capture of packets, each one second after the one before."""
    file = header() + b"".join(record("<", at, 0, it) for at, it in enumerate(packets))
    ended = run(bsdplay, "why", "-", "--addr", HERE, *words, script=file)
    assert (ended.returncode, ended.stderr) == (0, b""), ended
    return ended.stdout.decode()


def objects(bsdplay, packets, *words):
    """Returns the objects for a capture."""
    return [json.loads(it) for it in why(bsdplay, packets, "--json", *words).splitlines()]


def test_a_fragment_has_the_ports_of_its_datagram(bsdplay):
    rows = objects(bsdplay, [*PARTS, OTHERS[1], OTHERS[0]])
    assert [(it["sport"], it["dport"]) for it in rows if "number" in it] == [
        *[(5000, 7)] * 3, (None, None), (5001, 7)]  # fmt: skip
    assert [it.get("records") for it in rows if "number" in it] == [None, None, [1, 2, 3], None, [4, 5]]


@pytest.mark.parametrize("port, lines, delivered", [(5000, [1, 2, 4], 1), (5001, [3, 5], 1), (9, [], 0)])
def test_a_flow_has_the_fragments_of_its_datagrams(port, lines, delivered, bsdplay):
    packets = [PARTS[0], PARTS[1], OTHERS[0], PARTS[2], OTHERS[1]]
    rows = objects(bsdplay, packets, "--flow", f"{PEER}:{port}")
    assert [it["number"] for it in rows if "number" in it] == lines
    sums = next(it for it in rows if "flow" in it)
    assert (sums["flow"], sums["packets"], sums["delivered"], sums["kept"]) == (
        f"{PEER}:{port}", len(lines), delivered, len(lines) - delivered)  # fmt: skip
    text = why(bsdplay, packets, "--flow", f"{PEER}:{port}")
    told = f"    From or to {PEER}:{port}: {len(lines)} packets. Delivered: {delivered}. Kept as fragments: "
    assert told in text and text.count(" => ") == len(lines) + delivered, text


def test_ports_of_tcp_are_compared(bsdplay):
    """And those after IP options."""
    tcp = ip(struct.pack("!HH", 6000, 80) + bytes(16), protocol=6)
    options = ip(datagram(b"hi", (6000, 80))[20:], options=b"\x01\x01\x01\x01")
    for port, count in ((443, 0), (80, 2)):
        rows = objects(bsdplay, [tcp, options], "--flow", f"{HERE}:{port}")
        assert [it["dport"] for it in rows if "number" in it] == [port] * count


@pytest.mark.parametrize("later, fate", [(0, "unfinished"), (40, "expired")])
def test_the_missing_bytes_of_a_datagram(later, fate, bsdplay):
    after = [datagram(b"hi", (6000, 9), ident=20 + it) for it in range(later)]
    for parts, records, ports, missing, words in [
        (PARTS[:1], [1], (5000, 7), [[32, None]], "all from byte 32 on"),
        (PARTS[1:2], [1], (None, None), [[0, 31], [64, None]], "bytes 0 to 31, all from byte 64 on"),
        ([PARTS[2], PARTS[0]], [1, 2], (5000, 7), [[32, 63]], "bytes 32 to 63"),
    ]:
        rows = objects(bsdplay, [*parts, *after])
        assert [it for it in rows if "datagram" in it] == [
            {"datagram": f"{WAY}, id 9", "fate": fate, "records": records, "sport": ports[0], "dport": ports[1],
             "missing": missing}]  # fmt: skip
        text = why(bsdplay, [*parts, *after])
        line = next(it for it in text.splitlines() if it.startswith("    unfinished: datagram 9 "))
        assert f" lacks {words}" in line, line


def test_datagrams_of_other_flows_are_not_printed(bsdplay):
    """Neither those that expired nor those that are unfinished."""
    packets = [OTHERS[0], *(datagram(b"hi", (6000, 9), ident=20 + it) for it in range(40)), PARTS[0]]
    for flow, ids in ((f"{PEER}:5001", [10]), (f"{PEER}:5000", [9]), (f"{PEER}:6000", []), (f"{HERE}:7", [10, 9])):
        rows = objects(bsdplay, packets, "--flow", flow)
        assert [int(it["datagram"].split()[-1]) for it in rows if "datagram" in it] == ids
        assert next(it["unfinished"] for it in rows if "flow" in it) == len(ids)


FRONT = struct.pack("!HHHH", 5000, 7, 32, 0)
EARLY, LATE = ip(FRONT + b"A" * 8, ident=50, place=MORE), ip(b"B" * 8 + b"C" * 16, ident=50, place=1)
COVERED = ip(b"D" * 8, ident=50, place=MORE | 1)


@pytest.mark.parametrize("packets, number, wanted", [
    ([EARLY, LATE], 2, (1, 8, 15, 1)), ([LATE, EARLY], 2, (1, 8, 15, 2)), ([EARLY, COVERED], 2, (1, 8, 15, 1))
], ids=["behind", "before", "covered"])  # fmt: skip
def test_bytes_that_differ_where_fragments_overlap(packets, number, wanted, bsdplay):
    """The bytes of the fragment that begins first are kept."""
    rows = [it for it in objects(bsdplay, packets) if "overlap" in it]
    with_, first, last, kept = wanted
    assert rows == [{"overlap": number, "with": with_, "first": first, "last": last, "kept": kept}]
    told = f"    bytes {first} to {last} differ from those of record {with_}: those of record {kept} are kept\n"
    assert told in why(bsdplay, packets)


def test_equal_bytes_are_no_difference(bsdplay):
    """Nor are bytes of another datagram."""
    packets = [PARTS[0], fragment(WHOLE, 2, 9), OTHERS[0], LATE, ip(b"E" * 8, ident=51, place=1)]
    assert not [it for it in objects(bsdplay, packets) if "overlap" in it]
