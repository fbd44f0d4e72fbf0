"""Captures that a script plays with `rx pcap`. The tests build the files, in each byte order, resolution and link
type. Some are cut at each byte, and some have lengths at their limits. The expected reply to each file is computed
from pcap-savefile(5) only. tshark must agree on wrong checksums, and on the numbers and times of records."""
import json
import random
import re
import struct
import subprocess

import pytest

from tests.bsdplay.runs import objects, of_lines, run, same
from tests.packets import PEER, damaged, datagram, ip, udp
from tests.pcaps import ETHERNET, MICROSECONDS, NANOSECONDS, header, record, records

ORDERS = {"<": "little", ">": "big"}
MAGICS = {MICROSECONDS: 10**6, NANOSECONDS: 10**9}
BORDERS = [0, 1, 29, 30, 31, 65535, 65536, 0x7FFFFFFF, 0x80000000, 0xFFFFFFFF]
PACKET = datagram(b"hi", ident=7)
# Frames of each link type: one with the packet, one of another protocol, and one that is cut short.
ADDRESSES = bytes(12)
IPV4, ARP = ADDRESSES + b"\x08\0", ADDRESSES + b"\x08\x06" + bytes(28)
LINKS = {
    0: (b"\2\0\0\0" + PACKET, b"\x1e\0\0\0" + PACKET, b"\2\0\0"),
    1: (IPV4 + PACKET + bytes(16), ARP, ADDRESSES),
    9: (b"\0\x21" + PACKET, b"\xff\3\0\x21" + PACKET, b"\0\x57" + PACKET, b"\xff\3\0"),
    12: (PACKET, b"\x60" + PACKET, b""),
    101: (PACKET, b"\x60" + PACKET, b""),
    113: (bytes(14) + b"\x08\0" + PACKET, bytes(14) + b"\x86\xdd" + PACKET, bytes(15)),
    228: (PACKET,),
    276: (b"\x08\0" + bytes(18) + PACKET, b"\x08\x06" + bytes(18) + PACKET, bytes(19)),
}
SOCKET = ["socket", "bind 3 0.0.0.0 7"]


# ---- replies -------------------------------------------------------------------------------------------------------


def is_ipv4(link, frame):
    """Returns whether the frame contains an IPv4 packet, for the link types in LINKS, without VLAN tags."""
    if link in (12, 101):
        return frame[:1] != b"" and frame[0] >> 4 == 4
    if link == 228:
        return True
    if link == 0:
        return frame[:4] in (b"\2\0\0\0", b"\0\0\0\2")
    if link == 9:
        return frame.removeprefix(b"\xff\3")[:2] == b"\0\x21"
    at, size = {1: (12, 14), 113: (14, 16), 276: (0, 20)}[link]
    return len(frame) >= size and frame[at : at + 2] == b"\x08\0"


def reply_to(data, first=1, last=None, ticks=False):
    """Returns the reply to a capture, without the causes of drops, and the number of its packets."""
    if len(data) < 24:
        return "error file header cut short at byte 0", 0
    found = [(order, it) for order in ORDERS for it in MAGICS if data[:4] == struct.pack(f"{order}I", it)]
    if not found:
        return "error bad magic number at byte 0", 0
    order, magic = found[0]
    if struct.unpack(f"{order}HH", data[4:8]) != (2, 4):
        return "error unknown version at byte 4", 0
    link = struct.unpack(f"{order}I", data[20:24])[0] & 0xFFFF
    if link not in LINKS:
        return "error unknown link type at byte 20", 0
    fault, read = records_of(data, order, MAGICS[magic])
    if fault:
        return fault, 0
    if last is not None and last > len(read):
        return "error too few records", 0
    return played(read[first - 1 : last], link, ticks)


def records_of(data, order, units):
    """Returns the error for a capture's records, or None, and the records with their times in nanoseconds."""
    at, read = 24, []
    while at < len(data):
        if len(data) - at < 16:
            return f"error record header cut short at byte {at}", []
        seconds, fraction, size = struct.unpack_from(f"{order}III", data, at)
        if size > len(data) - at - 16:
            return f"error record cut short at byte {at + 8}", []
        read.append(((seconds * units + fraction) * (10**9 // units), data[at + 16 : at + 16 + size]))
        at += 16 + size
    return None, read


def played(chosen, link, ticks):
    """Returns the reply to records that are played, and the number of their packets."""
    passed, packets = 0, 0
    for time, frame in chosen:
        if is_ipv4(link, frame):
            packets += 1
            if ticks:
                passed = max(passed, min(max(time - chosen[0][0], 0) // 500_000_000, 65535))
    return f"ok {packets} packets, {len(chosen) - packets} others, {passed} ticks", packets


def each(order, *frames, link=228, **fields):
    """Returns a file with a record for each frame, all at time 0."""
    return header(order, link=link, **fields) + b"".join(record(order, 0, 0, it) for it in frames)


def resolutions(order, name):
    """Yields files with each magic number, of which all or some records are played, with ticks and without."""
    for magic in (*MAGICS, 0xA1B2C3D5, 0x0A0D0D0B):
        half = MAGICS.get(magic, 10**6) // 2
        data = header(order, magic) + b"".join(record(order, t, half * (t % 2), PACKET) for t in (9, 7, 10, 13))
        for words in ("", "ticks", "1-1", "2-3", "2-4 ticks", "4-4", "4-5", "1-4294967295 ticks"):
            yield f"{name}, magic {magic:#x}, {words or 'all'}", data, words


def fields(order, name):
    """Yields files with each link type and version, and with lengths and times at their limits."""
    for link, frames in LINKS.items():
        yield f"{name}, link type {link}", each(order, *frames, link=link), "ticks"
    for link in (2, 108 << 16, 147, 229, 1 << 16 | 228, 0xFFFFFFFF):
        yield f"{name}, link type {link:#x}", each(order, PACKET, link=link), ""
    two = record(order, 0, 0, PACKET)
    for it in BORDERS:
        yield f"{name}, {it} captured", header(order) + record(order, 0, 0, PACKET, captured=it) + two, ""
        yield f"{name}, {it} sent", header(order) + record(order, 0, 0, PACKET, original=it) + two, ""
        yield f"{name}, at most {it} captured", header(order, snapshot=it) + two, ""
        yield f"{name}, time {it}", header(order) + two + record(order, it, it, PACKET), "ticks"
    for version in ((2, 3), (2, 5), (1, 4), (3, 4), (4, 2), (0, 0)):
        yield f"{name}, version {version}", each(order, PACKET, version=version), ""


def files():
    """Yields names, files, and the words after the file's name in the line."""
    for order, name in ORDERS.items():
        yield from resolutions(order, name)
        yield from fields(order, name)
    whole = each("<", PACKET, b"")
    yield from ((f"cut at byte {size}", whole[:size], "") for size in range(len(whole) + 1))
    yield "no record 1", header(), "1-1"


FILES = list(files())


def wanted_of(data, words):
    """Returns the reply to a file, and the number of its packets, given the words after its name."""
    span = next((it.split("-") for it in words.split() if "-" in it), None)
    first, last = map(int, span) if span else (1, None)
    return reply_to(data, first, last, "ticks" in words)


def without_causes(told):
    """Returns a reply, or the error for a line, without the causes of drops."""
    return told.get("reply", told.get("fault")).split(" dropped ")[0]


def received(stat):
    """Returns how many packets the counters say were received. A counter of 0 isn't printed."""
    return int(dict(it.split("=") for it in stat["reply"].split() if "=" in it).get("ip.total", 0))


@pytest.mark.parametrize("data, words", [it[1:] for it in FILES], ids=[it[0] for it in FILES])
def test_the_reply_counts_packets_others_and_ticks(data, words, bsdplay, tmp_path):
    path = tmp_path / "a capture.pcap"
    path.write_bytes(data)
    told = objects(bsdplay, [f'rx pcap "{path}" {words}', "stat"])
    same("the number of replies", len(told), 2)
    came = without_causes(told[0]), received(told[1])
    same(f"rx pcap FILE {words}, of {data[:80].hex()}", came, wanted_of(data, words))


def test_the_replies_are_the_same_in_one_script(bsdplay, tmp_path):
    """Plays all these files in one script: no file affects the next one."""
    lines = []
    for number, (_, data, words) in enumerate(FILES):
        path = tmp_path / f"{number} a.pcap"
        path.write_bytes(data)
        lines += [f'rx pcap "{path}" {words}', "stat"]
    told, before = objects(bsdplay, lines), 0
    same("the number of replies", len(told), len(lines))
    for (name, data, words), line, stat in zip(FILES, told[::2], told[1::2]):
        after = received(stat)
        same(f"{name}: {words}", (without_causes(line), after - before), wanted_of(data, words))
        before = after


# ---- the same packets by lines -------------------------------------------------------------------------------------

AFTER = ["stat", "mbstat", "show sockets", *["recvfrom 3 9"] * 3]
SEVERAL = [(PACKET, 0), (damaged(PACKET, 11, 0), 0), (PACKET, 3), (PACKET[:29], 4), (PACKET, 40)]


def compared(told):
    """Returns what must be equal for both ways."""
    return [(it["reply"], it["below"]) for it in told]


@pytest.fixture
def several(tmp_path):
    """Writes a capture of good and bad packets, and returns its path."""
    path = tmp_path / "several.pcap"
    path.write_bytes(header() + b"".join(record("<", seconds, 0, frame) for frame, seconds in SEVERAL))
    return path


@pytest.fixture
def by_lines(bsdplay, several, tmp_path):
    """Returns the replies to the lines that --from-pcap prints for that capture, and the capture that --pcap writes."""
    lines = run(bsdplay, "--from-pcap", several, "--ticks").stdout.decode().splitlines()
    capture = tmp_path / "by_lines.pcap"
    return objects(bsdplay, [*SOCKET, *lines, *AFTER], "--pcap", capture), capture


def test_state_is_that_after_the_lines_of_from_pcap(bsdplay, several, by_lines):
    told = objects(bsdplay, [*SOCKET, f"rx pcap {several} ticks", *AFTER])
    for line, one, other in zip(AFTER, compared(told[-6:]), compared(by_lines[0][-6:])):
        same(f"{line}: after the capture, and after its lines", one, other)


def test_pcap_writes_the_packets_that_the_lines_give(bsdplay, several, by_lines, tmp_path):
    capture = tmp_path / "played_in.pcap"
    objects(bsdplay, [*SOCKET, f"rx pcap {several} ticks", *AFTER], "--pcap", capture)
    one, other = (
        [(seconds, fraction // 500_000, frame) for seconds, fraction, frame in records(it.read_bytes())]
        for it in (capture, by_lines[1])
    )
    same("--pcap with the capture, and with its lines", one, other)
    same("records in it", len(one), len(SEVERAL))


@pytest.fixture
def blocks(several, tmp_path):
    """The capture as a pcapng file, written by editcap."""
    path = tmp_path / "blocks.pcapng"
    subprocess.run(["editcap", "-F", "pcapng", several, path], check=True)
    return path


@pytest.mark.needs("editcap")
def test_a_pcapng_file_is_played_in_as_the_classic_one(bsdplay, several, blocks):
    classic, other = (objects(bsdplay, [*SOCKET, f"rx pcap {it} ticks", *AFTER]) for it in (several, blocks))
    same("the replies to the pcapng file", compared(other[2:]), compared(classic[2:]))


@pytest.mark.needs("editcap")
def test_a_pcapng_file_that_is_cut_is_an_error(bsdplay, blocks):
    blocks.write_bytes(blocks.read_bytes()[:-1])
    ended = run(bsdplay, "--json", "-", script=f"rx pcap {blocks}\n")
    assert b"error reading failed" in ended.stdout, ended.stdout
    assert b"block cut short at byte" in ended.stderr, ended.stderr


# ---- causes --------------------------------------------------------------------------------------------------------

HI = udp(b"hi")
# A packet for each cause for which a single packet is dropped, in the order of docs/behaviour.md, and one that is
# delivered.
BY_CAUSE = {
    "packet shorter than a header": PACKET[:19],
    "wrong version": ip(HI, ident=7, first=0x65),
    "header length too small": ip(HI, ident=7, first=0x44),
    "options are not taken": ip(HI, ident=7, first=0x46),
    "wrong header checksum": damaged(PACKET, 10, 0),
    "total length too small": ip(HI, ident=7, total=19),
    "packet shorter than its total length": PACKET[:29],
    "not addressed to this machine": datagram(b"hi", between=(PEER, "10.0.0.9"), ident=7),
    "unknown protocol": ip(HI, ident=7, protocol=1),
    "datagram shorter than a header": ip(HI, ident=7, total=27)[:27],
    "wrong datagram length": ip(udp(b"hi", length=7), ident=7),
    "wrong datagram checksum": damaged(PACKET, 27, 0),
    "no socket has the port": datagram(b"hi", (5000, 8), ident=7),
    None: PACKET,
}


def random_causes(seed):
    """Returns 60 records and the range that is played. A record is the cause of its packet, or "other" if it has no
    IPv4 packet."""
    chance = random.Random(seed)
    causes = [chance.choice([*BY_CAUSE, "other"] if seed % 2 else list(BY_CAUSE)[seed % 5 :: 5]) for _ in range(60)]
    return causes, chance.choice([(1, 60), (1, 60), (17, 41), (60, 60)])


@pytest.fixture(params=range(12), ids="seed {}".format)
def random_capture(request, tmp_path):
    """Returns a script that plays random packets, and the lines with causes that it must print."""
    causes, (first, last) = random_causes(request.param)
    path, wanted = tmp_path / "causes.pcap", []
    frames = [ARP if it == "other" else IPV4 + BY_CAUSE[it] for it in causes]
    path.write_bytes(header(link=ETHERNET) + b"".join(record("<", at, 0, it) for at, it in enumerate(frames)))
    part = list(enumerate(causes, 1))[first - 1 : last]
    for cause in filter(None, BY_CAUSE):
        numbers = [number for number, it in part if it == cause]
        wanted += [f"    {len(numbers)} dropped: {cause} (first: record {numbers[0]})"] if numbers else []
    return [*SOCKET, f"rx pcap {path} {first}-{last}"], wanted


def test_each_cause_has_its_count_and_its_first_record(bsdplay, random_capture):
    lines, wanted = random_capture
    below = objects(bsdplay, lines)[-1]["below"].splitlines()
    same(f"below {lines[-1]}", [it for it in below if " dropped: " in it], wanted)


def test_quiet_prints_no_causes(bsdplay, random_capture):
    printed = run(bsdplay, "--quiet", "-", script=of_lines(random_capture[0])).stdout
    assert b"record" not in printed, printed


# ---- the status, and where files are searched ----------------------------------------------------------------------

STATUS = {
    "whole.pcap": 0,
    "whole.pcap 1-1 ticks": 0,
    "whole.pcap => ok ..": 0,
    "whole.pcap => error ..": 1,
    "nosuch.pcap": 1,
    "nosuch.pcap => error can't be opened": 0,
    "nosuch.pcap => ok ..": 1,
    "cut.pcap": 1,
    "cut.pcap => error ..": 0,
    "whole.pcap 1-2": 1,
    "whole.pcap 1-2 => error ..": 0,
    ".": 1,
    "nosuch.pcap\nsocket": 1,
    "whole.pcap\nrx pcap nosuch.pcap => _ ..\nsocket => ok 3": 0,
}


@pytest.mark.parametrize("words", [[], ["--quiet"], ["--json"]], ids=["plain", "quiet", "json"])
@pytest.mark.parametrize("line", STATUS)
def test_status(line, words, bsdplay, tmp_path):
    """The status is 1 if a capture can't be played, unless its line expects an error."""
    (tmp_path / "whole.pcap").write_bytes(each("<", PACKET))
    (tmp_path / "cut.pcap").write_bytes(each("<", PACKET)[:-1])
    ended = run(bsdplay, *words, "-", script=f"rx pcap {line}\n", cwd=tmp_path)
    same(f"rx pcap {line}: status", ended.returncode, STATUS[line])


ONE, LOST = "ok 1 packets, 0 others, 0 ticks", "error can't be opened"
PLACES = [('rx pcap "cafe"', ONE), ("rx pcap cafe", LOST), ("rx pcap ./cafe", ONE), ("rx pcap nowhere", LOST),
          ("rx pcap .", "error reading failed"), ("rx pcap", "")]  # fmt: skip


@pytest.mark.parametrize("line, reply", PLACES, ids=[it[0] for it in PLACES])
def test_a_file_is_looked_for_beside_the_script(line, reply, bsdplay, tmp_path):
    """A name of hex digits needs quotes or a folder before it."""
    (tmp_path / "cafe").write_bytes(each("<", PACKET))
    script = tmp_path / "script.txt"
    script.write_text(of_lines(it[0] for it in PLACES), encoding="ascii")
    told = [json.loads(it) for it in run(bsdplay, "--json", script, cwd="/").stdout.splitlines()]
    same("the number of replies", len(told), len(PLACES))
    same(line, told[PLACES.index((line, reply))].get("reply", "").split(" dropped ")[0], reply)


# ---- tshark --------------------------------------------------------------------------------------------------------

FIELDS = ["frame.number", "frame.time_relative", "ip.checksum.status", "udp.checksum.status"]
BAD = "0"


@pytest.fixture
def asked(tmp_path):
    """Returns a capture of packets with right and wrong checksums, and the fields that tshark prints for each
    record."""
    chance, path = random.Random(7), tmp_path / "asked.pcap"
    kinds = ["wrong header checksum", "wrong datagram checksum", None]
    times = sorted(chance.randrange(4 * 10**6) for _ in range(40))
    frames = [chance.choice([IPV4 + BY_CAUSE[it] for it in kinds]) for _ in times]
    frames[5] = ARP
    made = (record("<", time // 10**6, time % 10**6, frame) for frame, time in zip(frames, times))
    path.write_bytes(header(link=ETHERNET) + b"".join(made))
    words = ["tshark", "-r", path, "-o", "ip.check_checksum:TRUE", "-o", "udp.check_checksum:TRUE", "-T", "fields"]
    ended = subprocess.run([*words, *(word for it in FIELDS for word in ("-e", it))], capture_output=True, check=True)
    return path, [dict(zip(FIELDS, line.split("\t"))) for line in ended.stdout.decode().splitlines()]


@pytest.mark.needs("tshark")
@pytest.mark.parametrize("layer", ["header", "datagram"])
def test_tshark_finds_the_same_wrong_checksums(layer, bsdplay, asked):
    path, rows = asked
    if layer == "header":
        numbers = [it["frame.number"] for it in rows if it["ip.checksum.status"] == BAD]
    else:
        right = (it for it in rows if it["ip.checksum.status"] != BAD)
        numbers = [it["frame.number"] for it in right if it["udp.checksum.status"] == BAD]
    below = objects(bsdplay, [*SOCKET, f"rx pcap {path}"])[-1]["below"].splitlines()
    line = f"    {len(numbers)} dropped: wrong {layer} checksum (first: record {numbers[0]})"
    same("the line below, and tshark", [it for it in below if f" wrong {layer} checksum " in it], [line])


@pytest.mark.needs("tshark")
def test_tshark_has_the_record_numbers_and_times_of_from_pcap(bsdplay, asked):
    path, rows = asked
    told = run(bsdplay, "--from-pcap", path).stdout.decode()
    times = ((it["frame.number"], it["frame.time_relative"][:-3]) for it in rows if it["ip.checksum.status"])
    same("--from-pcap, and tshark", re.findall("(?m)^# .*$", told), [f"# record {n}, {time} s" for n, time in times])


# ---- captures that are written -------------------------------------------------------------------------------------

WRITING = {
    "a machine": ["socket", 'rx udp 10.0.0.2:9 > 10.0.0.1:7 "hi"'],
    "two hosts": ["host a --addr 10.0.0.1", "host b --addr 10.0.0.2", "wire a b", "a: socket",
                  'a: sendto 3 10.0.0.2 7 "hi"', "carry"],
}  # fmt: skip


@pytest.mark.parametrize("name", WRITING)
def test_a_capture_that_cannot_be_written(name, bsdplay):
    """Nothing can be written to /dev/full. The replies are those of a run without a capture."""
    script = of_lines(WRITING[name])
    ended, without = run(bsdplay, "--pcap", "/dev/full", script=script), run(bsdplay, script=script)
    same("what is printed", ended.stdout, without.stdout)
    wanted = (4, b"bsdplay: write failed: the capture is incomplete\n")
    same("status, and what is said", (ended.returncode, ended.stderr), wanted)
