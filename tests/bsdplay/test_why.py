"""`bsdplay why` compared with tshark: both must agree, for each packet, on the header checksum and the UDP checksum, on
the right values, on the records that complete a datagram, and on the number of packets for the host. The captures are
made by scapy, with faults from a seed, whole and cut at 60 bytes; by tcpdump, from Linux's datagrams on a veth pair;
and those of tcpdump's own tests, for the two hosts that receive most of their datagrams. A capture in another format,
from a pipe, or after 20 MiB of other records must be judged in the same way."""
import collections
import functools
import gzip
import json
import pathlib
import random
import re
import socket
import struct
import subprocess
import sys

import pytest

from tests.bsdplay.runs import listed, run, same
from tests.cases import TOP
from tests.packets import HERE

PEER = "10.0.0.9"
SEEDS, PACKETS = range(1, 7), 200
FIELDS = ("frame.number", "ip.checksum.status", "ip.checksum", "ip.checksum_calculated", "udp.checksum.status",
          "udp.checksum", "udp.checksum_calculated", "ip.fragment", "ip.reassembled_in", "frame.len", "frame.cap_len",
          "frame.protocols", "ip.proto", "ip.flags.mf", "ip.frag_offset")  # fmt: skip
# tshark's protocols of a record in which IPv4 directly follows a link header that bsdplay knows.
DIRECT = re.compile(r"(eth:ethertype(:vlan:ethertype)*|ppp|raw|null|loop|sll(:ethertype)?):ip(:|$)")
BAD, GOOD, NONE = "0", "1", "3"
SENT = (0, 1, 2, 100, 1472, 1473, 3000, 9000, 40_000)

# ---- captures ------------------------------------------------------------------------------------------------------


def datagram(chance, number, size=None, to=HERE):
    """Returns a random datagram."""
    from scapy.all import IP, UDP, Raw  # noqa: PLC0415

    size = chance.choice((0, 1, 2, 9, 100, 1472)) if size is None else size
    ports = UDP(sport=chance.randrange(1, 65536), dport=chance.randrange(1, 65536))
    header = IP(src=PEER, dst=to, id=number, ttl=chance.randrange(1, 256))
    return IP(bytes(header / ports / Raw(chance.randbytes(size))))


def pseudo_sum(packet):
    """Gives a packet the partial checksum that a network card completes."""
    from scapy.all import UDP  # noqa: PLC0415

    covered = struct.pack("!BBH", 0, 17, packet[UDP].len)
    words = struct.unpack("!6H", socket.inet_aton(PEER) + socket.inet_aton(packet.dst) + covered)
    return (sum(words) - 1) % 65535 + 1


def with_fault(chance, packet, kind):
    """Returns a datagram with the fault of this number, or another packet."""
    from scapy.all import ICMP, IP, UDP  # noqa: PLC0415

    if kind == 0:
        packet.chksum ^= 1 << chance.randrange(16)
    elif kind == 1:
        packet[UDP].chksum ^= 1 << chance.randrange(16)
    elif kind == 2:
        packet[UDP].chksum = 0
    elif kind == 3:
        packet[UDP].len = chance.choice((0, 7, packet[UDP].len + 1, 65535))
    elif kind == 4:
        packet[UDP].chksum = pseudo_sum(packet)
    elif kind == 5:
        packet = IP(bytes(IP(src=PEER, dst=HERE, id=packet.id) / ICMP()))
    elif kind == 6:
        packet = datagram(chance, packet.id, to=chance.choice(("10.0.0.2", "10.0.0.255", "255.255.255.255")))
    return packet


def fragments(chance, number):
    """Returns the fragments of a datagram in any order. Some datagrams are damaged, and some lack a fragment."""
    from scapy.all import UDP, fragment  # noqa: PLC0415

    whole = datagram(chance, number, chance.choice((1473, 3000, 9000)))
    if chance.randrange(3) == 0:
        whole[UDP].chksum ^= 1
    parts = fragment(whole, fragsize=chance.choice((1480, 800, 1232)))
    chance.shuffle(parts)
    if chance.randrange(5) == 0:
        parts.pop()
    return parts


def by_scapy(seed, path, _):
    """Writes a capture of datagrams with faults, fragments in any order, and other protocols."""
    from scapy.all import Ether, wrpcap  # noqa: PLC0415

    chance, packets, waiting = random.Random(seed), [], []
    ether = Ether(src="02:00:00:00:00:09", dst="02:00:00:00:00:01")
    for number in range(1, PACKETS + 1):
        kind = chance.randrange(12)
        packet = datagram(chance, number)
        if kind in (7, 8):
            waiting.extend(fragments(chance, number))
        else:
            packets.append(with_fault(chance, packet, kind))
        while waiting and chance.randrange(2):
            packets.append(waiting.pop(0))
    frames = [ether / it for it in (*packets, *waiting)]
    for number, frame in enumerate(frames):
        frame.time = 1_700_000_000 + number / 1000
    wrpcap(str(path), frames)


LINUX = r"""
import socket, subprocess, sys, time
def run(*words): subprocess.run(words, check=True)
run("ip", "addr", "add", "10.0.0.2/24", "broadcast", "+", "dev", "w0")
run("ip", "link", "set", "w0", "up", "mtu", "1500")
snap, path = sys.argv[1:3]
words = ["tcpdump", "-i", "w0", "-s", snap, "-w", path, "-U", "-Z", "root", "ip"]
tcpdump = subprocess.Popen(words, stderr=subprocess.PIPE)
while b"listening" not in tcpdump.stderr.readline():
    if tcpdump.poll() is not None: sys.exit("tcpdump ended")
it = socket.socket(socket.AF_INET, socket.SOCK_DGRAM)
it.settimeout(20)
for size in %r:
    it.sendto(bytes(n %% 251 for n in range(size)), ("10.0.0.1", 7))
    if size <= 1400: it.recvfrom(65536)
time.sleep(1)
tcpdump.terminate()
tcpdump.wait(20)
""" % (SENT,)


def by_linux(snapshot, path, _):
    """Writes a capture of Linux's own datagrams by tcpdump, in a network namespace."""
    words = [sys.executable, TOP / "conform/tests/veth.py", sys.executable, "-c", LINUX, str(snapshot), path]
    ended = subprocess.run(words, capture_output=True, timeout=120, check=False)
    if ended.returncode:
        pytest.fail(f"no capture of Linux: {ended.stderr.decode().strip()[-500:]}", pytrace=False)


def big_endian(path, made):
    """Writes a pcapng file in the other byte order."""
    from scapy.all import PcapNgWriter, rdpcap  # noqa: PLC0415

    with PcapNgWriter(str(path)) as writer:
        writer.endian, writer.endian_magic = ">", bytes.fromhex("1a2b3c4d")
        for frame in rdpcap(str(made("seed-2.pcap"))):
            writer.write(frame)


def behind_others(path, made):
    """Writes a capture after 320 records of 64 KiB."""
    from scapy.all import Ether, Raw, wrpcap  # noqa: PLC0415

    filler = path.with_name("filler.pcap")
    frame = Ether(src="02:00:00:00:00:09", dst="02:00:00:00:00:01", type=0x88B5) / Raw(bytes(65_500))
    frame.time = 1_700_000_000
    wrpcap(str(filler), [frame] * 320)
    subprocess.run(["mergecap", "-a", "-w", path, filler, made("seed-1.pcap")], check=True)
    filler.unlink()


def edited(source, words, path, made):
    """Writes another capture with editcap."""
    subprocess.run(["editcap", *words, made(source), path], check=True)


def two_interfaces(path, made):
    """Writes a capture of an Ethernet, and of an interface without a link header."""
    subprocess.run(["mergecap", "-w", path, made("seed-1.pcap"), made("raw.pcap")], check=True)


def two_sections(path, made):
    """Writes a pcapng file with sections in both byte orders."""
    path.write_bytes(made("big_endian.pcapng").read_bytes() + made("interfaces.pcapng").read_bytes())


# How each capture is made. A maker gets its path, and a function that makes the captures it needs.
MAKERS = {
    **{f"seed-{it}.pcap": functools.partial(by_scapy, it) for it in SEEDS},
    "cut.pcap": functools.partial(edited, "seed-1.pcap", ["-F", "pcap", "-s", "60"]),
    "linux.pcap": functools.partial(by_linux, 0),
    "linux-60.pcap": functools.partial(by_linux, 60),
    "raw.pcap": functools.partial(edited, "seed-2.pcap", ["-F", "nsecpcap", "-C", "14", "-L", "-T", "rawip"]),
    "interfaces.pcapng": two_interfaces,
    "big_endian.pcapng": big_endian,
    "sections.pcapng": two_sections,
    "behind_others.pcapng": behind_others,
    "as-nsecpcap": functools.partial(edited, "seed-1.pcap", ["-F", "nsecpcap"]),
    "as-pcapng": functools.partial(edited, "seed-1.pcap", ["-F", "pcapng"]),
}


@pytest.fixture
def made(once):
    """made(NAME) returns the path of a capture in MAKERS. Each is made once, for all processes."""

    def path_of(name):
        return once(f"why-{name}", lambda folder: MAKERS[name](folder / name, path_of)) / name

    return path_of


# ---- comparison ----------------------------------------------------------------------------------------------------


def judged(program, path, *words, piped=b""):
    """Returns what `bsdplay why` reports for each record, by its number, and the status."""
    ended = run(program, "why", path, "--json", *words, script=piped)
    rows = map(json.loads, ended.stdout.splitlines())
    return {it["number"]: it for it in rows if "number" in it}, ended.returncode


def by_tshark(path):
    """Returns the first value of each field that tshark prints for each record with IPv4, by the record's number."""
    words = ["tshark", "-2", "-n", "-r", path, "-o", "ip.check_checksum:TRUE", "-o", "udp.check_checksum:TRUE",
             "-Y", "ip", "-T", "json", *(word for it in FIELDS for word in ("-e", it)), "-e", "ip.dst"]  # fmt: skip
    ended = subprocess.run(words, capture_output=True, timeout=300, check=True)
    rows = (it["_source"]["layers"] for it in json.loads(ended.stdout))
    firsts = ({field: values[0] for field, values in row.items()} for row in rows)
    return {int(row["frame.number"]): row for row in firsts}


def records_in(became):
    """Returns the records that are listed as those of a datagram."""
    if "is whole with records " not in became:
        return None
    words = became.split("is whole with records ")[1].split(" => ")[0]
    return sorted(listed(words))


def other_checksum(it, row, layer, cause):
    """Yields how the verdict on a checksum differs from tshark's, including whether it's the cause of the drop."""
    status, is_cause = row.get(f"{layer}.checksum.status"), it["cause"] == cause
    if is_cause != (status == BAD):
        yield f"{it['became']}, and tshark's status of the checksum is {status}"
    wanted = f"{row.get(f'{layer}.checksum')}, right would be {row.get(f'{layer}.checksum_calculated')}"
    if is_cause and it["values"] != wanted:
        yield f"{it['values']}, and tshark has {wanted}"


def differences(it, row, parts):
    """Yields how the verdict on a record differs from tshark's, for which `parts` are the records of its datagram."""
    cause, became, status = it["cause"], it["became"], row.get("udp.checksum.status")
    if it["values"] not in became:
        yield f"{became}, and by themselves the values are {it['values']}"
    if row.get("frame.len") != row.get("frame.cap_len") and cause.startswith("packet shorter"):
        if it["fault"] != "capture":
            yield f"{it['fault']} is to blame, and the capture cut it"
        return
    yield from other_checksum(it, row, "ip", "wrong header checksum")
    if cause == "wrong header checksum":
        return
    if status is not None and cause != "wrong datagram length":
        yield from other_checksum(it, row, "udp", "wrong datagram checksum")
    if "delivered" in became and status not in (GOOD, NONE):
        yield f"{became}, and tshark's status of the UDP checksum is {status}"
    if records_in(became) != parts:
        yield f"{became}, and tshark has the fragments {parts}"


def fragments_of(rows):
    """Returns the records of each datagram in several fragments, by the record that completes it."""
    others = collections.defaultdict(list)
    for number, row in rows.items():
        if "ip.reassembled_in" in row:
            others[int(row["ip.reassembled_in"])].append(number)
    return {number: sorted([*those, number]) for number, those in others.items()}


def compare(program, path, *words, address=HERE, rows=None):
    """Yields the differences between bsdplay's and tshark's verdicts on a capture, for the host with this address."""
    judgements, status = judged(program, path, *words)
    rows = by_tshark(path) if rows is None else rows
    same(f"bsdplay why {path.name} {words}: status", status, 0)
    taken = (address, address.rpartition(".")[0] + ".255", "255.255.255.255")
    wanted = [number for number, row in rows.items() if row["ip.dst"] in taken]
    same(f"{path.name}: records for {address}, by bsdplay and by tshark", sorted(judgements), sorted(wanted))
    parts = fragments_of(rows)
    for number, it in judgements.items():
        for fault in differences(it, rows[number], parts.get(number)):
            yield f"{path.name}, record {number}, for {address}: {fault}"


def agree(found):
    """Fails the test with the first differences, if there are any."""
    if found:
        pytest.fail("\n".join(found[:20]), pytrace=False)


# ---- tests ---------------------------------------------------------------------------------------------------------

OF_SCAPY = [*(f"seed-{it}.pcap" for it in SEEDS), "cut.pcap", "interfaces.pcapng", "sections.pcapng"]
OF_LINUX = ["linux.pcap", "linux-60.pcap"]


def test_the_page_shows_what_is_printed(bsdplay):
    """The output has each line of the example in docs/captures.md."""
    printed = run(bsdplay, "why", TOP / "examples/play/faults.pcap").stdout.decode().splitlines()
    page = (TOP / "docs/captures.md").read_text(encoding="utf-8")
    block = page.split("(../examples/play/faults.pcap):\n\n")[1].split("\n\nRecord numbers")[0]
    same("lines of docs/captures.md", [it for it in block.splitlines() if it.strip() and it[4:] not in printed], [])


@pytest.mark.needs("tshark", "editcap", "mergecap", "scapy")
@pytest.mark.parametrize("name", OF_SCAPY)
def test_tshark_agrees_on_each_packet_of_scapy(name, bsdplay, made):
    """bsdplay finds the host's address in the cut capture."""
    words = [] if name == "cut.pcap" else ["--addr", HERE]
    agree(list(compare(bsdplay, made(name), *words)))


@pytest.mark.needs("tshark", "tcpdump", "ip", "veth")
@pytest.mark.parametrize("name", OF_LINUX)
def test_tshark_agrees_on_each_packet_of_linux(name, bsdplay, made):
    agree(list(compare(bsdplay, made(name), "--addr", HERE)))


@pytest.fixture
def of_tcpdump(once):
    """The captures in tcpdump's sources that may contain an IPv4 packet."""

    def fetch(folder):
        words = [TOP / "tools/debian-source", folder, "tcpdump"]
        ended = subprocess.run(words, capture_output=True, text=True, check=False)
        (folder / "lacks").write_text(ended.stderr.strip() if ended.returncode else "", encoding="utf-8")

    folder = once("tcpdump", fetch)
    if lacks := (folder / "lacks").read_text(encoding="utf-8"):
        pytest.skip(lacks)
    return [it for it in sorted(folder.glob("tcpdump-*/tests/*.pcap*")) if may_have_datagrams(it)]


# The first bytes of an IPv4 header with the protocol number of UDP, or with the flag MF.
COMPARED = rb"[\x45-\x4f](?:.{8}\x11|.{5}[\x20-\x3f\x60-\x7f\xa0-\xbf\xe0-\xff])"


def may_have_datagrams(path: pathlib.Path):
    """Returns whether a capture has a link type that bsdplay knows and bytes that can be a header of `busiest`; on an
    Ethernet also those of an IPv4 type."""
    data = path.read_bytes()
    (link,) = struct.unpack(">H" if data[:1] == b"\xa1" else "<H", data[22:24] if data[:1] == b"\xa1" else data[20:22])
    if link == 1:
        return b"\x08\x00\x45" in data and re.search(rb"\x08\x00" + COMPARED, data, re.DOTALL)
    return link in (0, 9, 12, 14, 101, 108, 113, 228, 276) and re.search(COMPARED, data, re.DOTALL)


def busiest(rows):
    """Returns the two hosts that receive the most datagrams and fragments."""
    to = collections.Counter(
        row["ip.dst"] for row in rows.values() if row.get("ip.proto") == "17" or row.get("ip.flags.mf") in ("1", "True")
    )
    hosts = [it for it, _ in to.most_common() if 0 < int(it.split(".")[0]) < 224 and not it.startswith("127.")]
    return hosts[:2]


PARTS = 16


@pytest.mark.slow
@pytest.mark.needs("tshark", "dpkg-source")
@pytest.mark.parametrize("part", range(PARTS))
def test_tshark_agrees_on_the_captures_of_tcpdump(part, bsdplay, of_tcpdump):
    """Every sixteenth capture."""
    assert len(of_tcpdump) > 100, f"only {len(of_tcpdump)} captures"
    found = []
    for path in of_tcpdump[part::PARTS]:
        rows = {number: row for number, row in by_tshark(path).items() if DIRECT.match(row["frame.protocols"])}
        for address in busiest(rows):
            found += compare(bsdplay, path, "--addr", address, address=address, rows=rows)
    agree(found)


WAYS = {"from the file": (False, ["--addr", HERE]), "from a pipe": (True, ["--addr", HERE]), "guessed": (True, [])}


@pytest.mark.needs("editcap", "scapy")
@pytest.mark.parametrize("way", WAYS)
@pytest.mark.parametrize("kind", ["nsecpcap", "pcapng"])
def test_another_format_is_judged_alike(kind, way, bsdplay, made):
    path, (is_piped, words) = made(f"as-{kind}"), WAYS[way]
    found = judged(bsdplay, "-" if is_piped else path, *words, piped=path.read_bytes())
    same(f"{path.name}, {words}", found, judged(bsdplay, made("seed-1.pcap"), "--addr", HERE))


@pytest.mark.needs("scapy")
def test_what_gzip_compressed_is_refused(bsdplay, made, tmp_path):
    packed = tmp_path / "packed.pcap.gz"
    packed.write_bytes(gzip.compress(made("seed-1.pcap").read_bytes()))
    ended = run(bsdplay, "why", packed)
    same(f"{ended.stderr}: status", (ended.returncode, ended.stdout), (1, b""))
    assert b"zcat FILE | bsdplay why - reads it" in ended.stderr, ended.stderr


@pytest.mark.needs("editcap", "scapy")
def test_a_file_that_is_cut_is_an_error(bsdplay, made):
    whole = made("as-pcapng").read_bytes()
    ended = run(bsdplay, "why", "-", "--addr", HERE, script=whole[:-5])
    at = len(whole) - int.from_bytes(whole[-4:], "little") + 4
    same(f"{ended.stderr}: status", ended.returncode, 1)
    assert f"bsdplay: -: block cut short at byte {at}" in ended.stderr.decode(), ended.stderr


@pytest.mark.needs("mergecap", "scapy")
@pytest.mark.parametrize("words", [[], ["--addr", HERE]], ids=["guessed", "--addr"])
def test_a_capture_behind_20_mib_is_judged_alike(words, bsdplay, made):
    found, status = judged(bsdplay, made("behind_others.pcapng"), *words)
    alone, _ = judged(bsdplay, made("seed-1.pcap"), "--addr", HERE)
    same("status", status, 0)
    causes = [(number + 320, it["cause"]) for number, it in alone.items()]
    same("numbers and causes", [(number, it["cause"]) for number, it in found.items()], causes)


@pytest.mark.needs("mergecap", "scapy")
def test_a_long_pipe_wants_an_address(bsdplay, made):
    ended = run(bsdplay, "why", "-", script=made("behind_others.pcapng").read_bytes())
    same(f"{ended.stderr}: status", ended.returncode, 2)
    assert b"--addr says for whom packets are judged as they come" in ended.stderr, ended.stderr
