"""Captures that are opened on the page. The page and `bsdplay why` agree: they choose the same host, tick at the
capture's times, and report the same for each packet. The tests build the captures. How long a fragment is kept (30
seconds) and which addresses a host can have follow from RFC 1122 and RFC 791."""
import json
import random
import re
import struct
import subprocess

import pytest

from tests.cases import TOP
from tests.packets import HERE, PEER, UDP, checksum, datagram, ends, fragment, ip
from tests.pcaps import NANOSECONDS, header, record

pytestmark = [pytest.mark.needs("rt", "wasm-opt", "node"), pytest.mark.slow]

ALL = "255.255.255.255"


def capture(*packets, tail=b""):
    """Returns a file of raw IPv4 packets, each with its time in seconds."""
    records = (record("<", int(at), round(at % 1 * 1_000_000_000), packet) for at, packet in packets)
    return header(magic=NANOSECONDS) + b"".join(records) + tail


def halves(size=200, ident=9, between=("10.0.0.2", "10.0.0.1")):
    """Returns both fragments of a datagram."""
    whole = datagram(bytes(size), between=between, ident=ident)
    return fragment(whole, 0, 12), fragment(whole, 13, 99)


def to(address, port=7, data=b"hi", source="10.0.0.2", **header_fields):
    return datagram(data, (5000, port), (source, address), **header_fields)


@pytest.fixture(name="opened")
def of_bytes(plays_captures, tmp_path):
    """opened(BYTES) opens a capture on the page, and returns its script."""

    def play(data):
        path = tmp_path / "a.pcap"
        path.write_bytes(data)
        return plays_captures(path)[0]

    return play


def counted(script, name):
    return sum(step["changed"].get(name, 0) for step in script["steps"])


def lines(script, verb):
    return [step for step in script["steps"] if re.match(rf"(\+\S+ )?{verb}\b", step["line"])]


# ---- time


@pytest.mark.parametrize("apart, is_whole", [(0, True), (0.4, True), (29.9, True), (30.6, False), (40.5, False)])
def test_fragments_expire_after_thirty_seconds(apart, is_whole, opened):
    first, last = halves()
    script = opened(capture((100, first), (100 + apart, last)))
    assert counted(script, "ip.reassembled") == is_whole
    assert counted(script, "ip.fragtimeout") == (not is_whole)


def test_an_expired_datagram_has_a_line_of_its_own(opened):
    first, last = halves()
    script = opened(capture((100, first), (140.5, last)))
    assert [step["line"] for step in script["steps"] if step["changed"].get("ip.fragtimeout")] == ["tick 61"]
    assert "40.5 s pass before record 2" in script["text"] and "1 unfinished datagram expires" in script["text"]


def test_times_begin_at_the_first_record_of_the_file(opened):
    """The first record need not be for the host."""
    first, last = halves()
    other = to("10.0.0.9")
    script = opened(capture((100, other), (105, first), (106, last)))
    assert [step["line"].split(" rx")[0] for step in lines(script, "rx")] == ["+5s", "+1s"]
    assert "# Record 2, 5.000000 s.\n" in script["text"] and "# Record 3, 6.000000 s.\n" in script["text"]


def test_ticks_are_counted_from_the_first_record(opened):
    """They are counted as in `why`: between a packet at 0.4 s and one at 0.6 s is a tick."""
    script = opened(capture((7, to("10.0.0.1")), (7.4, to("10.0.0.1")), (7.6, to("10.0.0.1")), (7.9, to("10.0.0.1"))))
    assert [step["line"].startswith("+0.5s ") for step in lines(script, "rx")] == [False, False, True, False]


def test_a_time_that_goes_back_is_no_tick(opened):
    script = opened(capture((100, to("10.0.0.1")), (110, to("10.0.0.1")), (50, to("10.0.0.1")), (110, to("10.0.0.1"))))
    assert [step["line"][:5] for step in lines(script, "rx")] == ["rx 45", "+10s ", "rx 45", "rx 45"]


def test_what_is_unfinished_at_the_end_is_shown(opened):
    script = opened(capture((100, halves()[0]), (101, to("10.0.0.1"))))
    assert script["steps"][-1]["line"] == "show unfinished"
    assert "datagram 9 of udp 10.0.0.2 > 10.0.0.1" in script["steps"][-1]["below"][0]
    whole = opened(capture(*((100, it) for it in halves())))
    assert not lines(whole, "show")


# ---- the host


def test_a_capture_of_a_loopback_interface(opened):
    packet = to("127.0.0.1", source="127.0.0.1")
    script = opened(capture((100, packet), (101, packet), (102, to("127.0.0.1", 53, source="10.0.0.9"))))
    assert script.get("fault") is None
    assert script["address"] == "127.0.0.1" and script["counts"]["taken"] == 3
    assert script["code"] == 0 and counted(script, "ip.total") == 3
    assert len([step for step in lines(script, "recvfrom") if step["says"].startswith("from 127.0.0.1 5000")]) == 2


@pytest.mark.parametrize(
    "packets, address",
    [
        ([to("224.0.0.251", 5353)] * 3 + [to("10.0.0.1")], "10.0.0.1"),
        ([to("10.0.0.255")] * 2 + [to("10.0.0.1")], "10.0.0.255"),
        ([to("10.0.0.3"), to("10.0.0.1"), to("10.0.0.1"), to("10.0.0.3")], "10.0.0.3"),
        ([ip(b"", ("10.0.0.2", "10.0.0.4"), protocol=6)] * 3 + [to("10.0.0.1")], "10.0.0.1"),
        ([to(f"10.0.{n}.1") for n in range(256)] + [to("10.9.9.9")] * 5 + [to("10.0.77.1")], "10.0.77.1"),
    ],
    ids=["not a multicast group", "a broadcast address", "the first of two", "by UDP alone", "of the first 256"],
)
def test_the_host_is_the_one_that_most_datagrams_go_to(packets, address, opened):
    script = opened(capture(*((100, it) for it in packets)))
    assert script["address"] == address
    assert script["steps"][0]["says"] == "ok", "the settings aren't taken"


@pytest.mark.parametrize(
    "packets, fault",
    [
        ([], "no UDP datagram goes to a host"),
        ([to("224.0.0.251"), to(ALL)], "no UDP datagram goes to a host"),
        ([to("127.0.0.53", 53)], "127.0.0.53 isn't the address of a host"),
        ([to("0.0.0.0")], "0.0.0.0 isn't the address of a host"),
    ],
)
def test_without_a_host_the_reason_is_given(packets, fault, opened):
    assert opened(capture(*((100, it) for it in packets)))["fault"] == fault


# ---- ports and limits


def test_a_port_beyond_the_sixtieth_is_bound_too(opened):
    ports = [*range(1000, 1070), 1000, 1069]
    script = opened(capture(*((100, to("10.0.0.1", port)) for port in ports)))
    assert [step["says"][:4] for step in lines(script, "recvfrom")] == ["from"] * len(ports)
    assert counted(script, "udp.noport") == 0
    assert len(lines(script, "close")) == 11


def test_a_long_capture_says_how_many_packets_are_shown(opened):
    script = opened(capture(*((100, to("10.0.0.1", ident=n + 1)) for n in range(320))))
    assert script["counts"] == {"all": 320, "ip": 320, "ours": 320, "taken": 300}


# ---- headers

NAMES = "parts version words service total id flags offset ttl protocol sum rightSum source destination sourcePort"
NAMES += " destinationPort udpLength udpSum rightUdpSum pseudoSum"


def header_of(packet):
    """Returns the numbers in the headers of a packet (RFC 791, RFC 768) and the right checksums; 0 for missing ones."""
    found = [0] * 20
    if len(packet) >= 20:
        first, service, total, ident, place, *more = struct.unpack_from("!BBHHHBBH", packet)
        right = checksum(packet[:10] + bytes(2) + packet[12:20])
        found[:8] = 1, first >> 4, first & 15, service, total, ident, place >> 13, (place & 0x1FFF) * 8
        found[8:14] = *more, right, *struct.unpack_from("!II", packet, 12)
    if len(packet) >= 28:
        *ports, length, came = struct.unpack_from("!HHHH", packet, 20)
        pseudo = packet[12:20] + struct.pack("!HH", UDP, length)
        right = checksum(pseudo + packet[20:26] + bytes(2) + packet[28 : 20 + length]) or 0xFFFF
        found[0], found[14:] = 2, [*ports, length, came, right, 0xFFFF - checksum(pseudo)]
    return dict(zip(NAMES.split(), found))


def packets_of_any_length():
    """Yields packets for a host of up to 80 bytes: with any bytes, with few that aren't 0, and with all ones."""
    rng = random.Random(7)
    for size in range(1, 81):
        for fill in (rng.randbytes(80), bytes(rng.randrange(2) for _ in range(80)), b"\xff" * 80):
            addressed = fill[:12] + ends(PEER, HERE) + fill[20:24] + bytes([0, size % 70]) + fill[26:]
            yield (addressed if size >= 20 else fill)[:size]


def test_numbers_and_right_checksums_of_headers(opened):
    script = opened(capture((100, to("10.0.0.1")), *((100, it) for it in packets_of_any_length())))
    steps = [it for it in script["steps"] if it["header"]]
    assert len(steps) == 241
    for step in steps:
        assert step["header"] == header_of(bytes.fromhex(step["line"].split()[-1])), step["line"]


# ---- comparison with `bsdplay why`


def random_packets(rng):
    """Returns datagrams, fragments and damaged packets for several hosts, with pauses of up to a minute."""
    hosts = rng.choice([["10.0.0.1", "10.0.0.3"], ["127.0.0.1"], ["10.0.0.1", "10.0.0.255", ALL, "224.0.0.1"]])
    at, packets = 100.0, []
    for n in range(rng.randint(2, 60)):
        whole = to(rng.choice(hosts), rng.choice([7, 53, 0, 1000 + n]), bytes(rng.choice([0, 2, 40, 1600, 20_000])),
                   rng.choice(["10.0.0.2", "127.0.0.1"]), ident=rng.randint(1, 4))  # fmt: skip
        for _ in range(rng.choice([1, 1, 2, 3])):
            piece = fragment(whole, rng.choice([0, 0, 1, 13, 60]), rng.choice([1, 12, 9000]))
            packet = bytearray(rng.choice([whole, piece, piece]))
            if rng.random() < 0.15:
                packet[rng.randrange(len(packet))] ^= 1 << rng.randrange(8)
            packets.append((at, bytes(packet)))
            at += rng.choice([0, 0, 0.001, 0.3, 1.7, 20, 31, 60]) if rng.random() < 0.5 else 0.01
    return packets


def told_by_why(objects):
    """Returns, for each record, the cause of a drop or an empty text, and whether it was delivered. The page leaves out
    a packet of no bytes."""
    packets = (it for it in objects if "became" in it and not it["packet"].startswith("0 bytes "))
    return {it["number"]: (it["cause"], "delivered" in it["became"]) for it in packets}


def told_by_page(script):
    """Returns the same from the page's steps: the note before a packet has the record's number, and the datagrams that
    it delivers are read after it."""
    numbers, told = [int(it) for it in re.findall(r"(?m)^# Record (\d+), ", script["text"])], {}
    for step in script["steps"]:
        if step["header"]:
            told[numbers[len(told)]] = ("".join(step["causes"]), False)
        elif step["line"].startswith("recvfrom"):
            last = numbers[len(told) - 1]
            told[last] = (told[last][0], step["says"].startswith("from "))
    return told


SEEDS = range(30)
# Captures of other programs, in each format and byte order. The last record of another copy of each is cut short.
FOREIGN = sorted((TOP / "tests/bsdplay/captures").iterdir())
STORIES = [*map(str, SEEDS), *(f"{it.name}{cut}" for it in FOREIGN for cut in ("", " cut"))]


@pytest.fixture(scope="module")
def stories(plays_captures, tmp_path_factory):
    """These captures by name, each with the page's script. One process plays all of them."""
    folder = tmp_path_factory.mktemp("stories")
    for seed in SEEDS:
        (folder / str(seed)).write_bytes(capture(*random_packets(random.Random(seed))))
    for it in FOREIGN:
        (folder / it.name).write_bytes(it.read_bytes())
        (folder / f"{it.name} cut").write_bytes(it.read_bytes()[:-4])
    files = [folder / it for it in STORIES]
    return dict(zip(STORIES, zip(files, plays_captures(*files))))


@pytest.mark.xdist_group("stories")
@pytest.mark.parametrize("name", STORIES)
def test_the_page_says_what_why_says(name, bsdplay, stories):
    file, script = stories[name]
    done = subprocess.run([bsdplay, "why", "--json", file], capture_output=True, text=True, check=False)
    objects = [json.loads(it) for it in done.stdout.splitlines()]
    assert script["end"] in done.stderr, "the page says something else of the file's end"
    if not objects or objects[-1]["summary"]["host"] is None:
        assert script["fault"] == "no UDP datagram goes to a host"
        return
    by_page, by_why = told_by_page(script), told_by_why(objects)
    if objects[-1]["summary"]["other_vlans"]:  # the page plays the packets of all VLANs
        by_page = {it: by_page[it] for it in by_why}
    assert by_page == by_why
