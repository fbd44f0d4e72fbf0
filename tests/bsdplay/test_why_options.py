"""What `bsdplay why` says of checksums that are left to the card, of ICMP errors and of captures without UDP, and what its
options select. The expected checksums are scapy's, and the ICMP errors are packed by hand from RFC 792."""
import ctypes
import json
import pathlib
import re
import struct
import subprocess
import threading

import pytest

from tests.bsdplay.runs import run
from tests.cases import TOP
from tests.packets import ALL, HERE, MORE, PEER, checksum, datagram, ends, fragment, ip
from tests.pcaps import ETHERNET, header, record

OTHER = "10.0.0.3"
ADDRESSES = bytes.fromhex("020000000001020000000009")


def capture(packets, link=228):
    """Returns a capture of packets, one each millisecond, or each at its time in seconds."""
    timed = [it if isinstance(it, tuple) else (at / 1000, it) for at, it in enumerate(packets)]
    return header(link=link) + b"".join(record("<", int(at), round(at % 1 * 1e6), it) for at, it in timed)


def why(bsdplay, tmp_path, packets, *words, link=228):
    """Runs `why` on a file with a capture of these packets."""
    file = tmp_path / "it.pcap"
    file.write_bytes(capture(packets, link))
    return run(bsdplay, "why", file, *words)


def objects(bsdplay, tmp_path, packets, *words, status=0):
    """Returns the objects of records by their numbers, and the summary."""
    ended = why(bsdplay, tmp_path, packets, "--json", *words)
    assert (ended.returncode, ended.stderr) == (status, b""), ended
    rows = [json.loads(it) for it in ended.stdout.splitlines()]
    return {it["number"]: it for it in rows if "number" in it}, rows[-1]["summary"]


# ---- checksums that are left to the card -----------------------------------------------------------------------------


def left_to_card(packet):
    """Returns a packet with the sum of only the pseudo header as its UDP checksum."""
    words = struct.unpack("!8H", ends(PEER, HERE) + struct.pack("!HH", 17, len(packet) - 20) + bytes(4))
    return packet[:26] + struct.pack("!H", (sum(words) - 1) % 65535 + 1) + packet[28:]


@pytest.mark.needs("scapy")
def test_a_checksum_left_to_the_card_is_no_drop(bsdplay, tmp_path):
    from scapy.all import IP, UDP  # noqa: PLC0415

    packet = left_to_card(datagram(b"hello"))
    again = IP(packet)
    del again[UDP].chksum
    rows, summary = objects(bsdplay, tmp_path, [packet, datagram(b"hi", ident=2)])
    assert [rows[1][it] for it in ("verdict", "fault", "got", "want", "filled")] == [
        "offload", "card", IP(packet)[UDP].chksum, IP(bytes(again))[UDP].chksum, False]  # fmt: skip
    assert (summary["offload"], summary["dropped"], summary["delivered"]) == (1, 0, 1)
    text = why(bsdplay, tmp_path, [packet, datagram(b"hi", ident=2)]).stdout.decode()
    assert "Delivered: 1. Kept as fragments: 0. Left to the card: 1. Dropped: 0." in text, text
    assert "    1 left to the card: " in text and " 1 dropped" not in text, text


def test_the_later_checks_follow_if_the_checksum_is_filled_in(bsdplay, tmp_path):
    packets = [left_to_card(datagram(b"hello")), left_to_card(datagram(b"x", (5000, 9), ident=2))]
    rows, summary = objects(bsdplay, tmp_path, packets, "--offload", "--port", "7")
    assert [(it["verdict"], it["filled"], it["cause"]) for it in rows.values()] == [
        ("delivered", True, ""), ("dropped", True, "no socket has the port")]  # fmt: skip
    assert (summary["offload"], summary["delivered"], summary["dropped"]) == (0, 1, 1)
    text = why(bsdplay, tmp_path, packets, "--offload").stdout.decode()
    assert "checksum filled in for the card => delivered to port 7: 5 bytes" in text
    assert "    2 with the checksum filled in that was left to the card (first: record 1)" in text


def test_only_what_was_left_to_the_card_is_filled_in(bsdplay, tmp_path):
    """A wrong checksum stays wrong, and fragments are judged as they are."""
    wrong = bytearray(datagram(b"hello"))
    wrong[26] ^= 1
    whole = left_to_card(datagram(bytes(32), ident=3))
    packets = [bytes(wrong), fragment(whole, 0, 1), fragment(whole, 2, 9)]
    rows, _ = objects(bsdplay, tmp_path, packets, "--offload")
    assert [it["verdict"] for it in rows.values()] == ["dropped", "kept", "offload"]
    assert not any(it["filled"] for it in rows.values())


def test_what_the_capture_cut_is_not_filled_in(bsdplay, tmp_path):
    """The checksum covers bytes that the capture doesn't have."""
    file = tmp_path / "it.pcap"
    file.write_bytes(cut([left_to_card(datagram(bytes(100)))], 60))
    ended = run(bsdplay, "why", "--json", "--offload", "--fail-on", "offload,packet,stack", file)
    row = json.loads(ended.stdout.splitlines()[0])
    assert (ended.returncode, row["fault"], row["filled"]) == (0, "capture", False)
    assert run(bsdplay, "why", "--fail-on", "cut", file).returncode == 1


def test_what_the_capture_cut_is_no_drop(bsdplay, tmp_path):
    """The checks of what it kept are named: none, the header's, and the UDP length's, which may be wrong."""
    file = tmp_path / "it.pcap"
    wrong = datagram(bytes(100), ident=4)
    wrong = wrong[:24] + struct.pack("!H", 109) + wrong[26:]
    for packet, kept, told in [
        (datagram(bytes(100)), 28, "; its header and header checksum are right, and so is the UDP length"),
        (datagram(bytes(100)), 27, "; its header and header checksum are right"),
        (fragment(datagram(bytes(100), ident=3), 0, 5), 30, "; its header and header checksum are right"),
        (wrong, 60, "; its header and header checksum are right; wrong datagram length: length 109, 108 are carried"),
        (datagram(b"hi"), 19, ""),
    ]:
        file.write_bytes(cut([packet], kept))
        ended = run(bsdplay, "why", "--json", "--addr", HERE, "--fail-on", "packet,stack", file)
        row, *_, last = [json.loads(it) for it in ended.stdout.splitlines()]
        assert (ended.returncode, row["verdict"], row["fault"]) == (0, "cut", "capture")
        assert [last["summary"][it] for it in ("cut", "dropped", "causes")] == [1, 0, []]
        text = run(bsdplay, "why", "--addr", HERE, file).stdout.decode()
        told = f"the capture kept {kept} of its {len(packet)} bytes (snap length){told}\n"
        assert " => cut: " in text and told in text and "Cut by the capture: 1. Dropped: 0." in text, text
        assert run(bsdplay, "why", "--dropped", "--addr", HERE, file).stdout.count(b" => ") == 0


def test_a_cut_packet_with_a_wrong_header_is_dropped(bsdplay, tmp_path):
    """The checks before the length find it."""
    file = tmp_path / "it.pcap"
    wrong = bytearray(datagram(bytes(100)))
    wrong[10] ^= 1
    file.write_bytes(cut([bytes(wrong)], 60))
    ended = run(bsdplay, "why", "--json", "--addr", HERE, "--fail-on", "packet", file)
    row = json.loads(ended.stdout.splitlines()[0])
    assert (ended.returncode, row["verdict"], row["fault"]) == (1, "dropped", "packet")


def cut(packets, kept):
    """Returns a capture of packets that kept so many bytes of each."""
    return header() + b"".join(record("<", 0, at, it[:kept], original=len(it)) for at, it in enumerate(packets))


# ---- what this stack lacks -------------------------------------------------------------------------------------------

# TCP, a ping, GRE, IPv6 in IPv4, and IP options.
LACKING = [*(ip(bytes(20), protocol=it) for it in (6, 1, 47, 41)),
           ip(datagram(b"hello")[20:], options=b"\x01\x01\x01\x01")]  # fmt: skip


def test_what_this_stack_lacks_is_no_fault_of_the_packet(bsdplay, tmp_path):
    packets = [datagram(b"hi"), *LACKING]
    ended = why(bsdplay, tmp_path, packets, "--json", "--fail-on", "packet,offload,cut,unfinished")
    rows = [json.loads(it) for it in ended.stdout.splitlines()]
    assert (ended.returncode, [(it["verdict"], it["fault"]) for it in rows[:6]]) == (
        0, [("delivered", ""), *[("dropped", "stack")] * 5])  # fmt: skip
    assert rows[-2] == {"apart": {"stack": 5, "copies": 0, "repeats": 0}}
    assert why(bsdplay, tmp_path, packets, "--fail-on", "stack").returncode == 1
    text = why(bsdplay, tmp_path, packets).stdout.decode()
    assert "    5 of the dropped need what this stack lacks: no fault of the packets (first: record 2)\n" in text, text
    assert text.count("    not the packet's fault: this stack ") == 5 and "    rule: " not in text, text


@pytest.mark.parametrize("what, status", [("packet", 0), ("stack", 1)])
def test_a_datagram_that_is_too_long_for_a_queue(what, status, bsdplay, tmp_path):
    """A host with a longer receive queue takes it."""
    whole = datagram(bytes(41_585), ident=3)
    parts = [fragment(whole, first, 184) for first in range(0, len(whole) // 8, 185)]
    rows, _ = objects(bsdplay, tmp_path, parts)
    assert [it["cause"] for it in rows.values() if it["verdict"] == "dropped"] == ["receive queue full"]
    assert why(bsdplay, tmp_path, parts, "--fail-on", what).returncode == status


# ---- ICMP errors -----------------------------------------------------------------------------------------------------


def unreachable(packet, code=3, source=None):
    """Returns the ICMP error "unreachable" with this code, for a packet (RFC 792)."""
    quoted = packet[:28]
    body = struct.pack("!BBHI", 3, code, 0, 0) + quoted
    body = body[:2] + struct.pack("!H", checksum(body)) + body[4:]
    to, by = (".".join(map(str, packet[at : at + 4])) for at in (12, 16))
    return ip(body, (source or by, to), protocol=1)


CLOSED = [datagram(b"one", (5000, 443), ident=11), datagram(b"two", (5000, 443), ident=12)]


def test_the_host_refused_a_port(bsdplay, tmp_path):
    """A datagram is refused by its own error. Without one, the port is closed until the host sends from it."""
    sent = datagram(b"up", (443, 5000), (HERE, PEER), ident=90)
    later = datagram(b"three", (5000, 443), ident=13)
    packets = [datagram(b"hi"), CLOSED[0], unreachable(CLOSED[0]), CLOSED[1], sent, later]
    rows, summary = objects(bsdplay, tmp_path, packets, "--addr", HERE)
    assert {n: (it["verdict"], it["refused"], it["fault"]) for n, it in rows.items()} == {
        1: ("delivered", None, ""), 2: ("refused", 3, "host"), 4: ("refused", 3, "host"), 6: ("delivered", None, "")}  # fmt: skip
    assert (summary["refused"], summary["dropped"], summary["delivered"]) == (2, 0, 2)
    text = why(bsdplay, tmp_path, packets).stdout.decode()
    assert "=> refused by the host: port 443 (record 3)" in text, text
    assert "Refused by the host: 2. Dropped: 0." in text, text


def test_a_refused_datagram_may_be_left_to_the_card(bsdplay, tmp_path):
    """As in a capture on the machine that sends: its card computes the checksum, and the port is closed."""
    sent = left_to_card(CLOSED[0])
    rows, summary = objects(bsdplay, tmp_path, [sent, unreachable(sent)], "--addr", HERE)
    assert [rows[1][it] for it in ("verdict", "refused", "fault")] == ["refused", 2, "card"]
    assert (summary["refused"], summary["offload"], summary["dropped"]) == (1, 0, 0)
    text = why(bsdplay, tmp_path, [sent, unreachable(sent)]).stdout.decode()
    assert "=> left to the card: wrong datagram checksum" in text and "=> refused by the host (record 2)\n" in text, text
    words = ("--addr", HERE, "--fail-on")
    assert why(bsdplay, tmp_path, [sent, unreachable(sent)], *words, "offload").returncode == 1
    assert why(bsdplay, tmp_path, [sent, unreachable(sent)], *words, "packet,stack,cut").returncode == 0


@pytest.mark.parametrize("error", [
    unreachable(CLOSED[0], code=1), unreachable(CLOSED[0], source="10.0.0.254"), unreachable(CLOSED[1])[:40]
], ids=["host unreachable", "of a router", "cut"])  # fmt: skip
def test_other_errors_refuse_nothing(error, bsdplay, tmp_path):
    rows, _ = objects(bsdplay, tmp_path, [CLOSED[0], error, CLOSED[0]], "--addr", HERE)
    assert [it["verdict"] for it in rows.values()] == ["delivered", "delivered"]


def test_an_error_is_for_its_datagram(bsdplay, tmp_path):
    """Another identification, port or sender isn't refused before the error."""
    others = [datagram(b"x", (5000, 443), ident=99), datagram(b"x", (5001, 443), ident=11),
              datagram(b"x", (5000, 443), (OTHER, HERE), ident=11)]  # fmt: skip
    rows, _ = objects(bsdplay, tmp_path, [*others, CLOSED[0], unreachable(CLOSED[0])], "--addr", HERE)
    assert [it["verdict"] for it in rows.values()] == ["delivered"] * 3 + ["refused"]


def test_a_refused_port_closes_its_socket(bsdplay, tmp_path):
    """Datagrams arrived at the port before, and another port stays open."""
    packets = [CLOSED[1], datagram(b"hi"), CLOSED[0], unreachable(CLOSED[0]), datagram(b"hi", ident=2)]
    rows, _ = objects(bsdplay, tmp_path, packets, "--addr", HERE)
    assert [it["verdict"] for it in rows.values()] == ["delivered", "delivered", "refused", "delivered"]


# ---- live ------------------------------------------------------------------------------------------------------------


def test_records_are_judged_as_they_come(bsdplay):
    """As after `tcpdump -U -w -`: each line is there before the next record is."""
    with subprocess.Popen(
        [bsdplay, "why", "--addr", HERE, "-"], stdin=subprocess.PIPE, stdout=subprocess.PIPE
    ) as program:
        watch = threading.Timer(60, program.kill)
        watch.start()
        program.stdin.write(header())
        packets = [datagram(b"hi"), CLOSED[0], unreachable(CLOSED[0]), CLOSED[1]]
        assert (program.stdout.readline()[:20], program.stdout.readline()) == (b"A UDP/IP stack alone", b"\n")
        lines = []
        for at, packet in enumerate(packets):
            program.stdin.write(record("<", 0, at * 1000, packet))
            program.stdin.flush()
            lines.append(program.stdout.readline().decode().split("  ", 1)[0])
        rest, _ = program.communicate()
        watch.cancel()
    assert lines == ["1", "2", "3", "4"]
    assert b"Delivered: 2. Kept as fragments: 0. Refused by the host: 1. Dropped: 0." in rest, rest


def test_a_reader_that_ends_first_is_no_fault(bsdplay, tmp_path):
    """As `head -1` does. The lines of 5,000 packets don't fit into a pipe."""
    file = tmp_path / "it.pcap"
    file.write_bytes(capture([datagram(b"hi")] * 5000))
    for words in ((), ("--json",)):
        with subprocess.Popen([bsdplay, "why", *words, file], stdout=subprocess.PIPE, stderr=subprocess.PIPE) as program:
            program.stdout.readline()
            program.stdout.close()
            assert (program.wait(60), program.stderr.read()) == (4, b"")


# ---- captures without UDP --------------------------------------------------------------------------------------------

TCP = ip(bytes(20), protocol=6)


def framed(kind, carried):
    """Returns an Ethernet frame."""
    return ADDRESSES + struct.pack("!H", kind) + carried


# Frames, what is said on standard error, and of a capture that isn't read twice.
UNHEARD = [
    ([framed(0x0800, datagram(b"hi"))] * 3, b"no packet is for 1.2.3.4: 3 of 3 datagrams go to 10.0.0.1",
     b"no packet is for 1.2.3.4: 3 for other machines"),
    ([framed(0x86DD, bytes(40))], *[b"no packet is for 1.2.3.4: no record has IPv4"] * 2),
    ([framed(0x0800, TCP)] * 2, *[b"no packet is for 1.2.3.4: 2 for other machines"] * 2),
]  # fmt: skip


@pytest.mark.parametrize("frames, told, told_of_a_stream", UNHEARD, ids=["another address", "IPv6", "TCP"])
def test_a_status_says_that_no_packet_is_for_the_host(frames, told, told_of_a_stream, bsdplay, tmp_path):
    words = ("--addr", "1.2.3.4", "--fail-on", "packet")
    for more in (words, (*words, "--json"), (*words[:2], "--all")):
        ended = why(bsdplay, tmp_path, frames, *more, link=ETHERNET)
        assert (ended.returncode, told in ended.stderr) == (3, True), ended
    ended = run(bsdplay, "why", *words, "-", script=capture(frames, ETHERNET))
    assert (ended.returncode, told_of_a_stream in ended.stderr) == (3, True), ended
    heard = [*frames, framed(0x0800, datagram(b"x", between=(PEER, "1.2.3.4")))]
    ended = why(bsdplay, tmp_path, heard, *words, link=ETHERNET)
    assert (ended.returncode, ended.stderr) == (0, b"")


def test_a_capture_without_udp_is_a_result(bsdplay, tmp_path):
    ended = why(bsdplay, tmp_path, [TCP] * 4)
    assert (ended.returncode, ended.stderr) == (3, b"")
    assert ended.stdout.splitlines()[0] == b"4 records: 4 TCP."
    ended = why(bsdplay, tmp_path, [TCP] * 4, "--json")
    assert json.loads(ended.stdout)["summary"]["tcp"] == 4


def test_other_records_are_counted_by_kind(bsdplay, tmp_path):
    frames = [framed(0x0800, TCP), framed(0x0806, bytes(28)), framed(0x86DD, bytes(40)), framed(0x8864, bytes(20)),
              framed(0x88B5, bytes(20)), framed(0x0800, ip(bytes(8), protocol=1)), framed(0x0800, ip(b"", protocol=89)),
              bytes(5)]  # fmt: skip
    ended = why(bsdplay, tmp_path, frames, link=ETHERNET)
    told = "8 records: 1 TCP, 1 ICMP, 1 other IPv4, 1 IPv6, 1 ARP, 1 PPPoE, 1 other frame (protocol 0x88b5), "
    told += "1 cut in the link header."
    assert (ended.returncode, ended.stdout.decode().splitlines()[0]) == (3, told)
    ended = why(bsdplay, tmp_path, [framed(0x0800, datagram(b"hi")), *frames[:3]], link=ETHERNET)
    assert ended.stdout.decode().splitlines()[-1] == (
        "Records for other machines: 0. Without IPv4: 2 (1 IPv6, 1 ARP).")  # fmt: skip


# ---- link types ------------------------------------------------------------------------------------------------------


@pytest.mark.needs("scapy")
@pytest.mark.parametrize("framing", [b"", b"\xff\x03"], ids=["plain", "as HDLC"])
def test_ppp_is_read(framing, bsdplay, tmp_path):
    """ns-3's point-to-point devices write such captures. The protocol may have one byte."""
    from scapy.all import IP, UDP, PPP, Raw  # noqa: PLC0415

    packet = IP(src=PEER, dst=HERE, id=7) / UDP(sport=5000, dport=7) / Raw(b"hello")
    frames = [framing + bytes(PPP(proto=0x21) / packet), framing + b"\x21" + bytes(packet),
              framing + bytes(PPP(proto=0xC021)) + bytes(8), framing + bytes(PPP(proto=0x57)) + bytes(40), framing]  # fmt: skip
    text = why(bsdplay, tmp_path, frames, link=9).stdout.decode()
    assert text.count("udp 10.0.0.2:5000 > 10.0.0.1:7, 5 bytes, id 7 => delivered to port 7: 5 bytes") == 2, text
    assert "Without IPv4: 3 (1 IPv6, 1 other frame (protocol 0xc021), 1 cut in the link header)." in text, text


def table():
    """Returns the link types by number that the program has names for."""
    source = (TOP / "crates/bsdplay/src/link_names.rt").read_text(encoding="utf-8")
    return {int(number): name for number, name in re.findall(r'number: (\d+),\s+name: "([^"]*)"', source)}


@pytest.mark.needs("libpcap")
def test_the_names_of_link_types_are_those_of_libpcap():
    library = ctypes.CDLL("libpcap.so.0.8")
    library.pcap_datalink_val_to_description.restype = ctypes.c_char_p
    named = {number: library.pcap_datalink_val_to_description(number).decode() for number in table()}
    assert table() == named and len(named) > 40


def test_an_unknown_link_type_is_named(bsdplay, tmp_path):
    ended = why(bsdplay, tmp_path, [bytes(40)], link=105)
    assert (ended.returncode, ended.stdout) == (1, b"")
    assert b"unknown link type 105 at byte 20: 802.11; docs/captures.md" in ended.stderr, ended.stderr
    ended = why(bsdplay, tmp_path, [bytes(40)], link=300)
    assert b"unknown link type 300 at byte 20: not one that bsdplay knows" in ended.stderr, ended.stderr


def test_records_of_an_unknown_link_type_are_counted(bsdplay):
    """A pcapng file may have interfaces of several link types."""
    ended = run(bsdplay, "why", "-", script=interface(1, link=127))
    told = b"1 record: 1 of link type 127 (802.11 plus radiotap header).\n"
    assert (ended.returncode, ended.stdout[: len(told)]) == (3, told), ended


# ---- time ------------------------------------------------------------------------------------------------------------


def test_nanoseconds_are_printed_if_there_are_some(bsdplay, tmp_path):
    """In a file with this resolution, by its magic number (pcap-savefile(5))."""
    file = tmp_path / "it.pcap"
    head = struct.pack("<I", 0xA1B23C4D) + header()[4:]
    file.write_bytes(head + b"".join(record("<", 5, at, datagram(b"hi")) for at in (0, 7, 12_000, 1_234_567)))
    lines = run(bsdplay, "why", "--addr", HERE, file).stdout.decode().splitlines()
    assert [it.split("  ")[1] for it in lines if " => " in it] == ["0.000000", "0.000000007", "0.000012", "0.001234567"]


@pytest.mark.parametrize("last", [datagram(b"hi", between=(PEER, "10.0.0.9")), framed(0x0806, bytes(28))])
def test_time_passes_up_to_the_last_record(last, bsdplay, tmp_path):
    """It's for another host, or has no IPv4."""
    first = framed(0x0800, ip(bytes(16), ident=9, place=MORE))
    last = last if last[:6] == ADDRESSES[:6] else framed(0x0800, last)
    text = why(bsdplay, tmp_path, [(0, first), (100, last)], "--addr", HERE, link=ETHERNET).stdout.decode()
    told = "datagram 9 of udp 10.0.0.2 > 10.0.0.1 expired after 30 seconds, with record 1; lacks all from byte 16 on\n"
    assert told in text and text.count("lacks") == 1, text


# ---- options ---------------------------------------------------------------------------------------------------------

WRONG = datagram(b"hello")[:27] + b"\0" + datagram(b"hello")[28:]
MIXED = [datagram(b"hi", (5000, 53)), WRONG, left_to_card(datagram(b"x")), datagram(b"hi", (5001, 7), ident=3)]


@pytest.mark.parametrize("words, numbers", [
    (["--dropped"], [2]), (["--flow", f"{HERE}:53"], [1]), (["--flow", f"{PEER}:5001"], [4]),
    (["--flow", f"{PEER}:53"], []), (["--flow", f"{HERE}:7", "--dropped"], [2]), ([], [1, 2, 3, 4]),
])  # fmt: skip
def test_what_is_selected(words, numbers, bsdplay, tmp_path):
    """The summary is of all packets."""
    rows, summary = objects(bsdplay, tmp_path, MIXED, *words)
    assert (list(rows), summary["packets"]) == (numbers, 4)


PART = ip(bytes(16), ident=9, place=MORE)


@pytest.mark.parametrize("packets, what, status", [
    (MIXED, "packet", 1), (MIXED, "offload", 1), (MIXED, "unfinished", 0), (MIXED, "unfinished,offload", 1),
    (MIXED[2:], "packet", 0), ([PART], "unfinished", 1), ([PART], "packet,offload", 0),
    ([PART, (100, MIXED[0])], "unfinished", 1),
])  # fmt: skip
def test_the_status_says_what_was_found(packets, what, status, bsdplay, tmp_path):
    ended = why(bsdplay, tmp_path, packets, "--fail-on", what)
    assert (ended.returncode, ended.stderr) == (status, b"")


@pytest.mark.parametrize("words", [["--fail-on", "drops"], ["--flow", "10.0.0.1"], ["--bcast", "x"]])
def test_a_wrong_option_says_what_it_takes(words, bsdplay, tmp_path):
    ended = why(bsdplay, tmp_path, MIXED, *words)
    assert (ended.returncode, ended.stdout) == (2, b"")
    assert words[0].encode() + b" " in ended.stderr and b"take" in ended.stderr, ended.stderr


def test_the_broadcast_address_of_a_larger_network(bsdplay, tmp_path):
    """10.9.3.255 is that of 10.9.0.0/22."""
    packets = [datagram(b"hi", between=(PEER, to)) for to in ("10.9.0.1", "10.9.3.255", "10.9.0.255")]
    rows, summary = objects(bsdplay, tmp_path, packets, "--addr", "10.9.0.1", "--bcast", "10.9.3.255")
    assert ([it["verdict"] for it in rows.values()], summary["elsewhere"]) == (["delivered", "delivered"], 1)
    rows, _ = objects(bsdplay, tmp_path, packets, "--addr", "10.9.0.1")
    assert list(rows) == [1, 3]


def test_records_in_a_row_are_a_range(bsdplay, tmp_path):
    whole = datagram(bytes(800))
    parts = [fragment(whole, first, 0) for first in range(101)]
    text = why(bsdplay, tmp_path, parts).stdout.decode()
    assert "datagram 1 is whole with records 1 to 101 => delivered" in text, text
    text = why(bsdplay, tmp_path, [parts[0], MIXED[0], *parts[1:4], MIXED[3], parts[5]]).stdout.decode()
    assert "with records 1, 3 to 5 and 7" in text, text


def test_the_fields_of_an_object(bsdplay, tmp_path):
    rows, _ = objects(bsdplay, tmp_path, [datagram(b"hello", (5000, 7), ident=77), ip(bytes(4), protocol=99)])
    fields = ("verdict", "src", "sport", "dst", "dport", "proto", "id", "got", "want", "refused")
    assert [rows[1][it] for it in fields] == ["delivered", PEER, 5000, HERE, 7, 17, 77, None, None, None]
    assert [rows[2][it] for it in fields] == ["dropped", PEER, None, HERE, None, 99, 1, 99, 17, None]


def test_a_failed_write_is_said(bsdplay, tmp_path):
    file = tmp_path / "it.pcap"
    file.write_bytes(capture(MIXED))
    for words in (["--json"], ["--addr", HERE]):
        with pathlib.Path("/dev/full").open("wb") as full:
            ended = subprocess.run([bsdplay, "why", file, *words], stdout=full, stderr=subprocess.PIPE, check=False)
        assert (ended.returncode, b"write failed" in ended.stderr) == (4, True), ended


# ---- limits ----------------------------------------------------------------------------------------------------------


def test_any_number_of_ports_is_bound(bsdplay, tmp_path):
    """A stack has 64 sockets, so an older one is closed for a new one."""
    packets = [datagram(b"hi", (5000, 1000 + n), ident=n + 1) for n in range(200)]
    _, summary = objects(bsdplay, tmp_path, packets)
    assert summary["delivered"] == 200


@pytest.mark.parametrize("others, chosen", [(255, "10.2.0.1"), (256, "10.1.0.0")])
def test_the_first_256_addresses_are_counted(others, chosen, bsdplay, tmp_path):
    packets = [datagram(b"hi", between=(PEER, f"10.1.{n // 256}.{n % 256}")) for n in range(others)]
    packets += [datagram(b"hi", between=(PEER, "10.2.0.1"))] * 3
    text = why(bsdplay, tmp_path, packets).stdout.decode()
    assert text.startswith(f"The machine is {chosen}, "), text[:100]


@pytest.mark.parametrize("errors, verdict", [(4095, "refused"), (4096, "delivered")])
def test_the_first_4096_refusals_are_read_ahead(errors, verdict, bsdplay, tmp_path):
    there = [unreachable(datagram(b"x", (5000, 443), (PEER, OTHER), ident=1))] * errors
    rows, _ = objects(bsdplay, tmp_path, [*there, CLOSED[0], unreachable(CLOSED[0])], "--addr", HERE)
    assert [it["verdict"] for it in rows.values()] == [verdict]


def interface(count, link=101):
    """Returns a pcapng file that describes interfaces of a link type, and has a packet of the last one."""
    section = struct.pack("<IIIHHqI", 0x0A0D0D0A, 28, 0x1A2B3C4D, 1, 0, -1, 28)
    described = struct.pack("<IIHHII", 1, 20, link, 0, 0, 20)
    packet = datagram(b"hi") + bytes(2)
    block = struct.pack("<IIIIIII", 6, 32 + len(packet), count - 1, 0, 0, len(packet) - 2, len(packet) - 2)
    return section + described * count + block + packet + struct.pack("<I", 32 + len(packet))


@pytest.mark.parametrize("count, fault", [(64, b""), (65, b"more than 64 interfaces at byte 1308")])
def test_a_section_has_up_to_64_interfaces(count, fault, bsdplay):
    """The 65th one follows a section's header of 28 bytes and 64 descriptions of 20."""
    ended = run(bsdplay, "why", "-", script=interface(count))
    assert (ended.returncode, fault in ended.stderr) == (1 if fault else 0, True), ended


@pytest.mark.parametrize("size, fault", [(1_048_560, b""), (1_048_561, b"longer than 1048576 bytes at byte 32")])
def test_a_record_has_up_to_a_mebibyte_with_its_header(size, fault, bsdplay):
    file = header(link=ETHERNET) + record("<", 0, 0, framed(0x0806, bytes(size - 14)))
    file += record("<", 0, 0, framed(0x0800, datagram(b"hi")))
    ended = run(bsdplay, "why", "-", "--addr", HERE, script=file)
    assert (ended.returncode, fault in ended.stderr) == (1 if fault else 0, True), ended
    assert (b"Delivered: 1." in ended.stdout) == (not fault)


def test_broadcasts_are_for_the_host(bsdplay, tmp_path):
    """The broadcast address of the network of 256 addresses is the default."""
    rows, _ = objects(bsdplay, tmp_path, [datagram(b"hi"), datagram(b"hi", between=(PEER, ALL))])
    assert [it["verdict"] for it in rows.values()] == ["delivered", "delivered"]
