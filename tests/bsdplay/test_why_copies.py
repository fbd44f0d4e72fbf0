"""Copies in a capture: a fragment that comes again after its datagram was whole, and records twice, as a mirror port makes
them. `bsdplay why` says that they are copies, and counts neither as faults of packets nor as unfinished datagrams."""
import json

import pytest

from tests.bsdplay.runs import run
from tests.packets import HERE, PEER, datagram, fragment
from tests.pcaps import header, record

WAY = f"udp {PEER} > {HERE}"
WHOLE = datagram(bytes(40), ident=9)
FIRST, LAST = fragment(WHOLE, 0, 3), fragment(WHOLE, 4, 9)
OTHER = datagram(b"hi", ident=10)


def why(bsdplay, packets, *words):
    """Returns the status and the output for a capture of packets, each one second after the one before."""
    file = header() + b"".join(record("<", at, 0, it) for at, it in enumerate(packets))
    ended = run(bsdplay, "why", "-", "--addr", HERE, *words, script=file)
    assert ended.stderr == b""
    return ended.returncode, ended.stdout.decode()


def objects(bsdplay, packets, *words):
    """Returns the status and the objects for a capture."""
    status, text = why(bsdplay, packets, "--json", *words)
    return status, [json.loads(it) for it in text.splitlines()]


def apart(rows):
    """Returns the counts of what isn't the packets' fault, or None."""
    return next((it["apart"] for it in rows if "apart" in it), None)


@pytest.mark.parametrize("later, fate, told", [
    (0, "unfinished", "lacks bytes 0 to 31, with record 3"),
    (40, "expired", "expired after 30 seconds, with record 3"),
], ids=["at the end", "after 30 seconds"])  # fmt: skip
def test_a_fragment_that_comes_again_is_a_copy(later, fate, told, bsdplay):
    packets = [FIRST, LAST, LAST, *(datagram(b"hi", ident=20 + n) for n in range(later))]
    status, text = why(bsdplay, packets, "--fail-on", "unfinished,packet,stack")
    assert status == 0
    assert "    a copy: its datagram was whole with record 2\n" in text, text
    assert f"    only copies: datagram 9 of {WAY} {told}\n" in text and "    unfinished: " not in text, text
    assert "    1 of those kept are copies: their datagram was whole before (first: record 3)\n" in text, text
    status, rows = objects(bsdplay, packets, "--fail-on", "unfinished")
    assert {"copy": 3, "whole": 2} in rows
    assert {"datagram": f"{WAY}, id 9", "fate": fate, "records": [3], "sport": None, "dport": None,
            "missing": [[0, 31]], "copies": True} in rows  # fmt: skip
    assert (status, apart(rows)["copies"], rows[-1]["summary"]["unfinished"]) == (0, 1, 0)


def test_another_datagram_is_no_copy(bsdplay):
    """It has another identification, or another fragment is missing too."""
    status, rows = objects(bsdplay, [FIRST, LAST, fragment(datagram(bytes(40), ident=8), 4, 9)], "--fail-on", "unfinished")
    assert (status, [it for it in rows if "copy" in it]) == (1, [])
    assert (apart(rows), rows[-1]["summary"]["unfinished"]) == (None, 1)


def test_a_mirror_port_repeats_records(bsdplay):
    packets = [it for it in (FIRST, LAST, OTHER) for _ in range(2)]
    status, text = why(bsdplay, packets, "--fail-on", "unfinished,packet,stack")
    assert status == 0
    line = "    3 repeat the record before: editcap -d removes such copies of a mirror port (first: record 2)\n"
    assert line in text and "    1 of those kept are copies: " in text, text
    _, rows = objects(bsdplay, packets)
    assert [it["verdict"] for it in rows if "verdict" in it] == [
        "kept", "dropped", "delivered", "kept", "delivered", "delivered"]  # fmt: skip
    assert apart(rows) == {"stack": 0, "copies": 1, "repeats": 3}


def test_records_for_others_are_no_copies_of_the_host(bsdplay):
    """And one that has another byte is none."""
    for packets in ([datagram(b"hi", between=(PEER, "10.0.0.77"))] * 2, [OTHER, OTHER[:-1] + b"o"]):
        _, rows = objects(bsdplay, [OTHER, *packets])
        assert (apart(rows) or {"repeats": 0})["repeats"] == (packets[0] == OTHER)
