"""What `bsdplay why` reports about datagrams whose fragments overlap with different bytes: the right checksum is that
of the bytes that the stack reassembles. The stack itself is the reference: it delivers the same fragments if they
have this checksum."""
import json
import random
import struct
import subprocess

import pytest

from tests.bsdplay import why_causes
from tests.bsdplay.runs import run
from tests.packets import HERE, MORE, PEER, UDP, checksum, ends, ip
from tests.pcaps import header, record

CASES = 300


def rows(program, packets):
    """Returns the output of `--json` for a capture of these packets, by record number."""
    file = header() + b"".join(record("<", 0, 0, it) for it in packets)
    ended = run(program, "why", "-", "--addr", HERE, "--json", script=file)
    assert (ended.returncode, ended.stderr) == (0, b"")
    objects = [json.loads(it) for it in ended.stdout.splitlines()]
    return {it["number"]: it for it in objects if "number" in it}


def pieces(seed, ident, found):
    """Yields fragments of a datagram with this checksum. Except for the UDP header, each has its own random bytes."""
    rng = random.Random(seed)
    units = rng.randrange(3, 13)
    head = struct.pack("!HHHH", 5000, 7, units * 8, found)
    ranges = [sorted(rng.sample(range(units + 1), 2)) for _ in range(rng.randrange(2, 7))]
    borders = [0, *sorted(rng.sample(range(1, units), min(3, units - 1))), units]
    covering = [[borders[at], borders[at + 1]] for at in range(len(borders) - 1)]
    rng.shuffle(covering)
    for first, end in [*ranges, *covering]:
        data = rng.randbytes((end - first) * 8)
        data = head + data[8:] if first == 0 else data
        yield ip(data, ident=ident, place=first | (MORE if end < units else 0))


def capture(sums):
    """Returns the fragments of all datagrams, with these checksums, and a wrong one in each other datagram."""
    return [it for seed in range(CASES) for it in pieces(seed, seed + 1, sums.get(seed, 0x1234))]


def test_the_stack_delivers_with_the_sum_that_is_right(bsdplay):
    owners = [seed for seed in range(CASES) for _ in pieces(seed, seed + 1, 0)]
    wrong = {number: it["values"] for number, it in rows(bsdplay, capture({})).items() if "0x1234" in it["values"]}
    # The last record that completes it, because some fragments are sent twice.
    last = {owners[number - 1]: number for number in wrong}
    assert len(last) > CASES * 0.9, "too few datagrams are complete"
    right = {seed: int(wrong[number].split("right would be ")[1], 16) for seed, number in last.items()}
    delivered = rows(bsdplay, capture(right))
    assert [number for number in last.values() if "delivered to port 7" not in delivered[number]["became"]] == []


def test_a_fragment_wins_over_one_that_begins_after_it(bsdplay):
    """The checksum is that of the bytes worked out by hand."""
    late, early = why_causes.overlapping(0x1234, 50)
    covered = ends(PEER, HERE) + struct.pack("!HHHHHH", UDP, 32, 5000, 7, 32, 0) + why_causes.OVERLAPPED
    assert rows(bsdplay, [late, early])[2]["values"] == f"0x1234, right would be 0x{checksum(covered):04x}"
    # In the other order the result is the same: the fragment that begins earlier keeps its bytes.
    assert rows(bsdplay, [early, late])[2]["values"] == f"0x1234, right would be 0x{checksum(covered):04x}"


@pytest.mark.needs("tshark")
def test_tshark_agrees_on_the_overlap(bsdplay, tmp_path):
    path, packets = tmp_path / "overlap.pcap", why_causes.overlapping(0x1234, 50)
    path.write_bytes(header() + b"".join(record("<", 0, 0, it) for it in packets))
    words = ["tshark", "-n", "-r", path, "-o", "udp.check_checksum:TRUE", "-T", "fields", "-e", "udp.checksum_calculated"]
    ended = subprocess.run(words, capture_output=True, text=True, timeout=120, check=True)
    assert rows(bsdplay, packets)[2]["values"] == f"0x1234, right would be {ended.stdout.split()[0]}"


def test_the_capture_of_the_golden_file():
    """It's the capture that why_causes.py writes."""
    assert why_causes.FILE.read_bytes() == why_causes.capture()
