"""`bsdplay why` on captures of a trunk (IEEE 802.1Q): hosts of two VLANs are two hosts, even if they have one address. The
host's VLAN is that of most packets for it, or the one that `--vlan` selects. Tags are packed by hand."""
import json
import struct

import pytest

from tests.bsdplay.runs import run
from tests.packets import HERE, PEER, checksum, datagram, fragment, ip
from tests.pcaps import ETHERNET, header, record

ADDRESSES = bytes.fromhex("020000000001020000000009")
COOKED = 113
# The datagrams of two customers, with the same addresses and the same identification.
ONE, TWO = (datagram(bytes([it]) * 40, ident=5) for it in (1, 2))
IN_TURNS = [fragment(ONE, 0, 3), fragment(TWO, 0, 3), fragment(ONE, 3, 9), fragment(TWO, 3, 9)]


def tagged(packet, *vlans, link=ETHERNET):
    """Returns a frame with these tags. The outer one of two has the type of 802.1ad."""
    front = ADDRESSES if link == ETHERNET else bytes(14)
    kinds = [0x8100] * len(vlans) if len(vlans) < 2 else [0x88A8, *[0x8100] * (len(vlans) - 1)]
    tags = b"".join(struct.pack("!HH", kind, 0x6000 | vlan) for kind, vlan in zip(kinds, vlans))
    return front + tags + struct.pack("!H", 0x0800) + packet


def capture(frames, link=ETHERNET):
    """Returns a capture with one frame each millisecond."""
    return header(link=link) + b"".join(record("<", 9, at * 1000, it) for at, it in enumerate(frames))


def why(bsdplay, tmp_path, frames, *words, link=ETHERNET):
    """Returns the end of a run, on a file."""
    file = tmp_path / "it.pcap"
    file.write_bytes(capture(frames, link))
    return run(bsdplay, "why", file, *words)


def objects(bsdplay, tmp_path, frames, *words, link=ETHERNET):
    """Returns the verdicts by records, with their VLANs, and the summary."""
    ended = why(bsdplay, tmp_path, frames, "--json", *words, link=link)
    assert (ended.returncode, ended.stderr) == (0, b""), ended
    rows = [json.loads(it) for it in ended.stdout.splitlines()]
    return {it["number"]: (it["verdict"], it["vlan"]) for it in rows if "number" in it}, rows[-1]["summary"]


# The tags of two customers, as `--vlan` has them.
PAIRS = [((100,), "100", (200,), "200"), ((), "0", (200,), "200"), ((7, 100), "7.100", (7, 200), "7.200"),
         ((7, 100), "7.100", (8, 100), "8.100"), ((0, 100), "100", (200,), "200"), ((0,), "0", (200,), "200")]  # fmt: skip


@pytest.mark.parametrize("one, its, two, others", PAIRS, ids=[f"{it[1]} and {it[3]}" for it in PAIRS])
@pytest.mark.parametrize("link", [ETHERNET, COOKED])
def test_fragments_belong_together_in_a_vlan(link, one, its, two, others, bsdplay, tmp_path):
    frames = [tagged(it, *(two if at % 2 else one), link=link) for at, it in enumerate(IN_TURNS)]
    numbers = [[int(it) for it in name.split(".") if it != "0"] for name in (its, others)]
    rows, summary = objects(bsdplay, tmp_path, frames, link=link)
    assert rows == {1: ("kept", numbers[0]), 3: ("delivered", numbers[0])}
    assert [summary[it] for it in ("vlan", "other_vlans", "delivered")] == [numbers[0], 2, 1]
    rows, summary = objects(bsdplay, tmp_path, frames, "--vlan", others, link=link)
    assert rows == {2: ("kept", numbers[1]), 4: ("delivered", numbers[1])}
    assert [summary[it] for it in ("vlan", "other_vlans", "delivered")] == [numbers[1], 2, 1]
    assert objects(bsdplay, tmp_path, frames, "--vlan", its, link=link)[0].keys() == {1, 3}


def test_the_first_lines_name_the_vlans(bsdplay, tmp_path):
    frames = [tagged(it, 100 + at % 2 * 100) for at, it in enumerate(IN_TURNS)]
    text = why(bsdplay, tmp_path, [*frames, tagged(ONE)]).stdout.decode()
    told = "Packets for it: 2 of VLAN 100, 2 of VLAN 200, 1 without a VLAN. Those of VLAN 100 are judged; --vlan takes others."
    assert text.splitlines()[1] == told, text
    assert text.splitlines()[-1] == "Records for other machines: 0. Of other VLANs: 3. Without IPv4: 0.", text
    text = why(bsdplay, tmp_path, [tagged(ONE, 7, 100)] * 3).stdout.decode()
    assert text.splitlines()[1] == "Packets for it: 3 of VLAN 7.100.", text
    text = why(bsdplay, tmp_path, [tagged(ONE, 0), tagged(ONE)]).stdout.decode()
    assert "VLAN" not in text, text


def test_the_vlan_of_most_packets_is_judged(bsdplay, tmp_path):
    frames = [tagged(ONE, 100), tagged(TWO, 200), tagged(ONE, 200)]
    rows, summary = objects(bsdplay, tmp_path, frames)
    assert (list(rows), summary["vlan"]) == ([2, 3], [200])
    assert list(objects(bsdplay, tmp_path, frames, "--addr", HERE)[0]) == [2, 3]


def test_in_a_stream_the_vlan_of_the_first_packet_is_judged(bsdplay):
    frames = [tagged(datagram(b"x", between=(PEER, "10.0.0.7")), 300), tagged(ONE, 100), tagged(TWO, 200), tagged(ONE, 200)]
    for words, numbers in (((), [2]), (("--vlan", "200"), [3, 4])):
        ended = run(bsdplay, "why", "--json", "--addr", HERE, *words, "-", script=capture(frames))
        rows = [json.loads(it) for it in ended.stdout.splitlines()]
        assert (ended.returncode, [it["number"] for it in rows if "number" in it]) == (0, numbers), ended


def test_an_icmp_error_is_for_its_vlan(bsdplay, tmp_path):
    """The host of another VLAN refused the datagram (RFC 792)."""
    body = struct.pack("!BBHI", 3, 3, 0, 0) + ONE[:28]
    body = body[:2] + struct.pack("!H", checksum(body)) + body[4:]
    error = ip(body, (HERE, PEER), protocol=1)
    frames = [tagged(ONE, 100), tagged(ONE, 200), tagged(error, 200)]
    for vlan, wanted in (("100", {1: ("delivered", [100])}), ("200", {2: ("refused", [200])})):
        assert objects(bsdplay, tmp_path, frames, "--vlan", vlan)[0] == wanted


@pytest.mark.parametrize("word", ["x", "4096", "100.x", "1.4096", "", "-1"])
def test_a_vlan_is_a_number(word, bsdplay, tmp_path):
    ended = why(bsdplay, tmp_path, [tagged(ONE, 100)], f"--vlan={word}")
    assert (ended.returncode, b"--vlan takes a number below 4096" in ended.stderr) == (2, True), ended


def test_no_packet_may_be_of_the_vlan(bsdplay, tmp_path):
    ended = why(bsdplay, tmp_path, [tagged(ONE, 100)] * 3, "--vlan", "300")
    assert (ended.returncode, b"no packet is for 10.0.0.1 in this VLAN: 3 of other VLANs" in ended.stderr) == (3, True), ended
    ended = why(bsdplay, tmp_path, [tagged(ONE, 100)], "--vlan", "100", "--ether")
    assert (ended.returncode, b"--vlan doesn't go with --ether" in ended.stderr) == (2, True), ended


def test_a_third_tag_is_named(bsdplay, tmp_path):
    """And other types are, by their numbers."""
    frames = [tagged(ONE), tagged(ONE, 1, 2, 3)]
    text = why(bsdplay, tmp_path, frames).stdout.decode()
    assert "Without IPv4: 1 (1 other frame (protocol 0x8100, a third VLAN tag))." in text, text
    frames = [tagged(ONE), *[ADDRESSES + struct.pack("!H", it) + bytes(40) for it in (0x88B5, 0x9000)]]
    text = why(bsdplay, tmp_path, frames).stdout.decode()
    assert "Without IPv4: 2 (2 other frames (first: protocol 0x88b5))." in text, text


def test_objects_have_the_time_of_their_record(bsdplay, tmp_path):
    """In seconds since 1970, with nine digits as tshark's `frame.time_epoch`."""
    ended = why(bsdplay, tmp_path, [tagged(ONE), tagged(ONE)], "--json")
    rows = [json.loads(it) for it in ended.stdout.splitlines()]
    assert [it["time_epoch"] for it in rows if "number" in it] == ["9.000000000", "9.001000000"]
