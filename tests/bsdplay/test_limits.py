"""Limits of bsdplay, each at its border from both sides: the numbers of docs/scripts.md, docs/captures.md and of the
messages. Other files have those of options and times (test_advice.py), of bytes (test_lines.py), of captures and their
addresses (test_why_options.py, test_from_pcap.py) and of packets under way (test_soak.py)."""
import json
import struct

import pytest

from tests.bsdplay.runs import of_lines, printed, run, same
from tests.packets import HERE, MORE, datagram, fragment, ip
from tests.pcaps import header, record

HOSTS = ["host a", "host b --addr 10.0.0.2", "wire a b"]
EMPTY = "a: sendto 3 10.0.0.2 7 -"
PLACE = "no packet is under way at this place"
CHANCE = "expected a chance (10%, 0.1 or 1/10) or a delay (0-3)"
CARRY = "expected `carry [all] [N]`"
# For each limit the lines before, the last line that is accepted with its reply or message, and the next with its own.
LINES = {
    "a name": (
        [], (f"host {'a' * 32}", "ok"),
        (f"host {'a' * 33}", "a name must be a letter, then letters, digits and _, at most 32"),
    ),
    "carries": (HOSTS, ("carry 1000000", "quiet"), ("carry 1000001", CARRY)),
    "carries at most": (HOSTS, ("carry all 1000000", "quiet"), ("carry all 1000001", CARRY)),
    "the decimals of a chance": (HOSTS, ("loss 0.000001", "ok"), ("loss 0.0000001", CHANCE)),
    "the fraction of a chance": (HOSTS, ("reorder 1/1000000", "ok"), ("reorder 1/1000001", CHANCE)),
    "the carries of a delay": (HOSTS, ("delay 0-1000000", "ok"), ("delay 0-1000001", CHANCE)),
    "a place to lose": (HOSTS, ("drop 65535", PLACE), ("drop 65536", "expected `drop PLACE`")),
    "a place to repeat": (HOSTS, ("repeat 65535", PLACE), ("repeat 65536", CHANCE)),
    "places to exchange": (
        HOSTS, ("swap 0 65535", PLACE), ("swap 0 65536", "expected `swap PLACE PLACE`")
    ),
}  # fmt: skip


@pytest.mark.parametrize("name", LINES)
def test_a_line_has_a_limit(name, bsdplay):
    before, *borders = LINES[name]
    for line, wanted in borders:
        said = printed(bsdplay, [*before, line])[-1]
        if said != f"-:{len(before) + 1}: {wanted}":
            same(line, said, f"{len(before) + 1}  {line} => {wanted}")


# ---- the length of a line ------------------------------------------------------------------------------------------

TOO_LONG = "the line is too long"


@pytest.mark.parametrize("size, wanted", [(262_144, []), (262_145, [f"-:1: {TOO_LONG}"])])
def test_a_line_has_up_to_262144_bytes(size, wanted, bsdplay):
    same(f"a comment of {size} bytes", printed(bsdplay, [f"#{'x' * (size - 1)}"]), wanted)


@pytest.mark.parametrize("word, fits", [("ab", True), ("abc", False)])
def test_a_line_has_up_to_262144_bytes_with_all_digits(word, fits, bsdplay):
    """Two digits for each of 65,535 and of 65,532 bytes, and `rx  => WORD ` between them."""
    said = printed(bsdplay, [f"rx @65534+00 => {word} 00*65532"])
    same(f"{word}: the line is too long", said[0].endswith(TOO_LONG), not fits)


# ---- what a line prints --------------------------------------------------------------------------------------------


@pytest.mark.parametrize("wait, reply", [(999, "quiet"), (1000, "left 1 under way")])
def test_carry_all_carries_1000_times(wait, reply, bsdplay):
    """A packet that waits N carries is delivered by the one after them."""
    said = printed(bsdplay, [*HOSTS, f"delay {wait}-{wait}", "a: socket", EMPTY, "carry all"])
    assert f"7  carry all => {reply}" in said, said


def on_the_wire(count, line=EMPTY):
    """Returns lines that put packets on the wire. A host's output queue has space for 50."""
    return [it for first in range(0, count, 50) for it in [*[line] * min(50, count - first), "collect"]]


@pytest.mark.parametrize("count", [200, 201])
def test_show_wire_lists_200_packets(count, bsdplay):
    said = printed(bsdplay, [*HOSTS, "delay 9-9", "a: socket", *on_the_wire(count), "show wire"])
    at = next(at for at, it in enumerate(said) if f" show wire => {count} packets under way" in it)
    same(f"lines for {count} packets", len(said[at + 1 :]), 200)


def arrivals(bsdplay, others, lines):
    """Returns the objects of the packets that arrive at these many hosts in one line, and their bytes."""
    names = [f"h{it}" for it in range(others)]
    script = ["host a --mtu 4352 --mbufs 2000 --clusters 400"]
    script += [f"host {it} --addr 10.0.0.{at + 2} --mtu 4352" for at, it in enumerate(names)]
    script += [f"wire a {' '.join(names)}", "a: socket", "a: setsockopt 3 broadcast 1", *lines, "deliver"]
    ended = run(bsdplay, "--json", "-", script=of_lines(script))
    told = [it for it in ended.stdout.decode().splitlines(keepends=True) if f'"number":{len(script)},"' in it]
    found = [it for it in told if "fate" in json.loads(it)]
    return [json.loads(it)["fate"] for it in found], sum(map(len, found))


@pytest.mark.parametrize("count, last", [(256, "dropped"), (257, "more")])
def test_256_packets_have_objects(count, last, bsdplay):
    fates, _ = arrivals(bsdplay, 1, on_the_wire(count))
    same(f"objects for {count} packets", (fates.count("dropped"), fates[-1]), (256, last))


@pytest.mark.parametrize("more, last", [(0, "dropped"), (1, "more")])
def test_4096_arrivals_have_objects(more, last, bsdplay):
    """128 broadcasts arrive at 32 hosts each."""
    lines = [*on_the_wire(128, "a: sendto 3 10.0.0.255 7 -"), *on_the_wire(more)]
    fates, _ = arrivals(bsdplay, 32, lines)
    same(f"objects for 4096 and {more} arrivals", (fates.count("dropped"), fates[-1]), (4096, last))


def test_a_megabyte_of_objects(bsdplay):
    """They end where no space is left for an object of 10 KiB. An object has two digits for each byte of a packet."""
    fates, size = arrivals(bsdplay, 1, on_the_wire(130, "a: sendto 3 10.0.0.2 7 @4324"))
    same("the last object", fates[-1], "more")
    assert 2**20 - 10 * 2**10 <= size <= 2**20, size


# ---- captures ------------------------------------------------------------------------------------------------------


def why(bsdplay, packets):
    """Returns the output for a capture of these packets, all at one time."""
    file = header() + b"".join(record("<", 0, 0, it) for it in packets)
    return run(bsdplay, "why", "-", "--addr", HERE, script=file).stdout.decode()


@pytest.mark.parametrize("others, ends", [
    (59, "delivered to port 9: 64 bytes"), (60, "dropped: no socket has the port")
])  # fmt: skip
def test_60_ports_are_bound(others, ends, bsdplay):
    """The port of the first fragment is closed before the last one arrives, if 60 others were bound."""
    whole = datagram(b"x" * 64, (5000, 9), ident=1)
    between = [datagram(b"hi", (5000, 1000 + it), ident=2 + it) for it in range(others)]
    said = why(bsdplay, [fragment(whole, 0, 4), *between, fragment(whole, 4, 9)])
    assert f"datagram 1 is whole with records 1 and {others + 2} => {ends}" in said, said


@pytest.mark.parametrize("gaps, others", [(32, ""), (33, " 1 other range,"), (34, " 2 other ranges,")])
def test_32_ranges_of_missing_bytes_are_listed(gaps, others, bsdplay):
    """Every second unit of 8 bytes has come."""
    said = why(bsdplay, [ip(bytes(8), ident=7, place=2 * it | MORE) for it in range(gaps + 1)])
    listed = "".join(f" bytes {16 * it + 8} to {16 * it + 15}," for it in range(32))
    assert f"lacks{listed}{others} all from byte {16 * gaps + 8} on, with records 1 to {gaps + 1}" in said, said


def block(size):
    """Returns a pcapng block of this length that readers pass over."""
    return struct.pack("<II", 0xBAD, size) + bytes(size - 12) + struct.pack("<I", size)


@pytest.mark.parametrize(
    "size, status, message", [(2**20, 3, b"no record has IPv4"), (2**20 + 4, 1, b"longer than 1048576 bytes at byte 32")]
)
def test_a_block_has_up_to_a_mebibyte(size, status, message, bsdplay):
    """The block follows a section's header of 28 bytes, and its length follows its type of 4. Without a packet for the
    host, the status is 3."""
    section = struct.pack("<IIIHHqI", 0x0A0D0D0A, 28, 0x1A2B3C4D, 1, 0, -1, 28)
    ended = run(bsdplay, "why", "-", "--addr", HERE, script=section + block(size))
    assert (ended.returncode, message in ended.stderr) == (status, True), ended


def test_a_written_capture_names_the_longest_packet(bsdplay, tmp_path):
    """The header's snapshot length (pcap-savefile(5)) is that of the longest IP packet."""
    file = tmp_path / "it.pcap"
    run(bsdplay, "--pcap", file)
    same("the header of a capture without packets", file.read_bytes(), header(snapshot=65_535))
