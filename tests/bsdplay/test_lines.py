"""What people write in a line: the bytes that texts, repetitions and patterns stand for, the packets that words name,
and what is wrong with a line, in which column. The bytes of a packet that a line lets arrive are those of `--pcap`.
scapy 2.5.0 made most of the packets; the other rows were worked out by hand."""
import pytest

from tests.bsdplay.runs import of_lines, printed, run, same
from tests.pcaps import records

UDP, RAW = "rx udp 10.0.0.2:5000 > 10.0.0.1:7 ", "rx raw 10.0.0.2 > 10.0.0.1 "
# Lines with bytes, and these in digits.
BYTES = {
    "rx -": "",
    "rx 0aFF": "0aff",
    'rx "hi"': "6869",
    'rx " #=+*@\\\\\\""': "20233d2b2a405c22",
    'rx "\\n\\r\\t\\0"': "0a0d0900",
    "rx 00ff*3": "00ff00ff00ff",
    'rx "ab"*02': "61626162",
    "rx @17": "000102030405060708090a0b0c0d0e0f10",
    'rx "a"+00*2+@1+62': "6100000062",
    'rx  "a"  +\t00*2 +  @1': "61000000",
    "rx 00=> ok": "00",
    'rx "udp"': "756470",
}
# Lines with a packet by name, and its bytes.
NAMED = {
    UDP + '"hi"': "4500001e00010000401166cc0a0000020a00000113880007000a6fdf6869",
    UDP + "6869 id 65535": "4500001effff0000401166cd0a0000020a00000113880007000a6fdf6869",
    UDP + "6869 ttl 3": "4500001e000100000311a3cc0a0000020a00000113880007000a6fdf6869",
    UDP + "6869 df": "4500001e00014000401126cc0a0000020a00000113880007000a6fdf6869",
    UDP + "-": "4500001c00010000401166ce0a0000020a000001138800070008d84c",
    UDP + "6869 nosum": "4500001e00010000401166cc0a0000020a00000113880007000a00006869",
    UDP + "@40 id 9 at 0 more size 16": "4500002400092000401146be0a0000020a0000011388000700305a6b0001020304050607",
    UDP + "@40 at 16 more size 16 id 9": "4500002400092002401146bc0a0000020a00000108090a0b0c0d0e0f1011121314151617",
    UDP + "@40 id 9 at 32 last": "4500002400090004401166ba0a0000020a00000118191a1b1c1d1e1f2021222324252627",
    UDP + "@40 size 16 id 9 at 32 last": "4500002400090004401166ba0a0000020a00000118191a1b1c1d1e1f2021222324252627",
    UDP + '"h" + 69': "4500001e00010000401166cc0a0000020a00000113880007000a6fdf6869",
    UDP + "6869 ttl 64 id 1 at 0 last size 10": "4500001e00010000401166cc0a0000020a00000113880007000a6fdf6869",
    UDP + "6869 badsum": "4500001e00010000401166cd0a0000020a00000113880007000a6fdf6869",
    UDP + "6869 badudp": "4500001e00010000401166cc0a0000020a00000113880007000a6fe06869",
    UDP + "6869 badsum badudp df ttl 3": "4500001e00014000031163cd0a0000020a00000113880007000a6fe06869",
    UDP + "6869 nosum badsum": "4500001e00010000401166cd0a0000020a00000113880007000a00006869",
    UDP + "6869 size 9": "4500001d00010000401166cd0a0000020a00000113880007000a6fdf68",
    UDP + "6869 size 0": "4500001400010000401166d60a0000020a000001",
    UDP + "6869 at 8 more df": "4500001600016001401106d30a0000020a0000016869",
    UDP + "6869 ttl 0": "4500001e000100000011a6cc0a0000020a00000113880007000a6fdf6869",
    UDP + "6869 tos 16 off 8 udpsum 0": "4510001e00010001401166bb0a0000020a00000113880007000a00006869",
    UDP + "6869 udplen 11 udpsum 28639": "4500001e00010000401166cc0a0000020a00000113880007000b6fdf6869",
    UDP + "6869 proto 6 len 29": "4500001d00010000400666d80a0000020a00000113880007000a6fdf6869",
    "rx udp 192.168.1.200:65535 > 255.255.255.255:0 00": "4500001d000100004011b85fc0a801c8ffffffffffff000000093d6c00",
    RAW + '"h" + 69': "4500001600010000401166d40a0000020a0000016869",
    RAW + "6869 version 6 ihl 15 tos 255": "6fff00160001000040113bd50a0000020a0000016869",
    RAW + "6869 len 65535 id 0": "4500ffff00000000401166eb0a0000020a0000016869",
    RAW + "6869 off 65528 mf df rf": "450000160001ffff401166d40a0000020a0000016869",
    RAW + "6869 ttl 0 proto 1 sum 4660": "4500001600010000000112340a0000020a0000016869",
    RAW + "- version 0 ihl 0 sum 0": "0000001400010000401100000a0000020a000001",
    RAW + "@12 at 8 last size 3": "4500001700010001401166d20a0000020a00000108090a",
    RAW + "13880007000a6fdf6869": "4500001e00010000401166cc0a0000020a00000113880007000a6fdf6869",
}
# The longest packet, the longest datagram whose last part is one, and the longest line: 262,144 bytes with all digits.
LONG = {UDP + "@65507": 65_535, UDP + "@65527 at 65528 last": 27, "rx @65534+00 => 00*65533": 65_535}
NOT_HEX, ODD = 'expected a hex digit (put text in quotes: "hi")', "odd number of hex digits"
NO_BYTES, NO_NUMBER, TWICE = "missing bytes", "missing number", "given twice"
NO_END, NO_SUCH = "expected an address and port, such as 10.0.0.2:7", "past the end of the datagram"
# Lines with an error: its column, and what it is.
WRONG = {
    "rx 0g": (5, NOT_HEX),
    "rx udq": (4, NOT_HEX),
    "rx pcaq": (4, NOT_HEX),
    "send 3 pcap": (8, NOT_HEX),
    "rx 00+pcap": (7, NOT_HEX),
    "rx pcap a+b": (10, ODD),
    "send 3 hi": (8, NOT_HEX),
    "send 3 udp": (8, NOT_HEX),
    "rx 00+udp": (7, NOT_HEX),
    "rx udp a > b id 3": (14, NOT_HEX),
    "sendto 3 10.0.0.2 9 0x12": (22, NOT_HEX),
    "rx 450": (7, ODD),
    "rx 00+1": (8, ODD),
    "rx 123*2": (7, ODD),
    "rx *3": (4, NO_BYTES),
    "rx 00 *3": (7, NO_BYTES),
    "rx 00+": (7, NO_BYTES),
    "rx 00+ # none": (8, NO_BYTES),
    "rx 00++00": (7, NO_BYTES),
    'rx "a"00': (7, "expected `+` or a blank"),
    'rx 00"a"': (6, "expected `+` or a blank"),
    "rx 00*2*2": (8, "expected `+` or a blank"),
    'rx ""': (5, "empty text (for no bytes, write `-`)"),
    'rx "a': (6, "missing closing quote"),
    'rx "a\\q"': (7, "unknown escape"),
    "rx 00*": (7, NO_NUMBER),
    "rx @ 3": (5, NO_NUMBER),
    "rx 00*0": (8, "the number must be at least 1"),
    "rx 00+@0": (9, "the number must be at least 1"),
    "rx @65536": (10, "more than 65535 bytes"),
    "rx 00*65536": (12, "more than 65535 bytes"),
    "rx @65535+00": (13, "more than 65535 bytes"),
    "rx udp": (4, NO_END),
    "rx udp 10.0.0.2": (8, NO_END),
    "rx udp 10.0.0.256:7 > 10.0.0.1:7 -": (8, NO_END),
    "rx udp 010.0.0.2:7 > 10.0.0.1:7 -": (8, NO_END),
    "rx udp 10.0..2:7 > 10.0.0.1:7 -": (8, NO_END),
    "rx udp 10.0.0.0.2:7 > 10.0.0.1:7 -": (8, NO_END),
    "rx udp 10.0.0.2:65536 > 10.0.0.1:7 -": (8, "expected a port, 0 to 65535"),
    "rx udp 10.0.0.2: > 10.0.0.1:7 -": (8, "expected a port, 0 to 65535"),
    "rx udp 10.0.0.2:5000": (8, "expected `>`"),
    "rx  udp  10.0.0.2:5000  10.0.0.1:7 -": (25, "expected `>`"),
    "rx udp 10.0.0.2:5000 > 10.0.0.1:x -": (24, "expected a port, 0 to 65535"),
    UDP + "# none": (24, NO_BYTES),
    UDP + '"a" + "b"  idd 4': (46, "unknown word"),
    UDP + '"a id 9 " id': (45, NO_NUMBER),
    UDP + "00 id 65536": (41, "expected an identification, 0 to 65535"),
    UDP + "00 ttl 256": (42, "expected a time to live, 0 to 255"),
    UDP + "00 ttl 064": (42, "expected a time to live, 0 to 255"),
    UDP + "00 size 65516": (43, "expected a size, 0 to 65515"),
    UDP + "00 at 4 more": (41, "expected a multiple of 8, 0 to 65528"),
    UDP + "00 at 8": (41, "expected `more` or `last`"),
    UDP + "00 at 8 df": (43, "expected `more` or `last`"),
    UDP + "00 df id 3 df": (46, TWICE),
    UDP + "00 id 3 id 3": (43, TWICE),
    UDP + "00 nosum badudp": (44, TWICE),
    UDP + "@8 at 16 last": (41, NO_SUCH),
    UDP + "@8 size 17": (43, NO_SUCH),
    UDP + "@65508": (35, "too many bytes for a packet"),
    UDP + "@65528 at 0 more size 8": (35, "too many bytes for a packet"),
    "rx raw": (4, "expected an address, such as 10.0.0.2"),
    "rx raw 10.0.0.2:5000 > 10.0.0.1 00": (8, "expected an address, such as 10.0.0.2"),
    RAW + "00 ihl 16": (35, "expected a number, 0 to 15"),
    RAW + "00 proto 256": (37, "expected a number, 0 to 255"),
    RAW + "00 sum 65536": (35, "expected a number, 0 to 65535"),
    RAW + "00 off 4": (35, "expected a multiple of 8, 0 to 65528"),
    RAW + "00 nosum": (31, "unknown word"),
    RAW + "00 mf at 0 last": (34, TWICE),
    RAW + "00 at 0 last mf": (41, TWICE),
    RAW + "00 sum 0 badsum": (37, TWICE),
    RAW + "- at 8 last": (33, NO_SUCH),
    UDP + "00 udpsum 1 nosum": (47, TWICE),
    "rx @65534+00 => 00*65534": (25, "the line is too long"),
}


@pytest.fixture(scope="module")
def packets(bsdplay, tmp_path_factory):
    """The packet of each line, which one script has."""
    capture, lines = tmp_path_factory.mktemp("lines") / "lines.pcap", [*BYTES, *NAMED, *LONG]
    run(bsdplay, "--quiet", "--pcap", capture, script=of_lines(lines))
    found = [packet for _, _, packet in records(capture.read_bytes())]
    same("the number of packets", len(found), len(lines))
    return dict(zip(lines, found))


@pytest.mark.parametrize("line", [*BYTES, *NAMED])
def test_bytes(line, packets):
    same(line, packets[line].hex(), {**BYTES, **NAMED}[line])


@pytest.mark.parametrize("line", LONG)
def test_length(line, packets):
    same(line, len(packets[line]), LONG[line])


@pytest.mark.parametrize("line", WRONG)
def test_column_of_what_is_wrong(line, bsdplay):
    column, what = WRONG[line]
    same(line, printed(bsdplay, [line]), [f"-:1:{column}: {what}"])
