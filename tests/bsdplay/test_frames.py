"""Frames of hosts on an Ethernet, compared with scapy's. In the scripts in examples/play/ether, each line `NAME: frame
BYTES` follows a comment `# scapy: ..` that builds the same bytes, and comments `# goes: ..` build the frames of the
script's capture, in order."""
import contextlib
import re

import pytest

from tests.bsdplay.runs import run, same
from tests.cases import TOP
from tests.pcaps import ETHERNET

PLAY = TOP / "examples/play/ether"
TEXTS = {it.name: it.read_text(encoding="utf-8") for it in sorted(PLAY.glob("*.txt"))}
LINE = re.compile(r"# scapy: (.+)\n\w+: frame ([0-9a-f]+) ")
ANY_LINE = re.compile(r"(?m)^\w+: frame ")
GOES = re.compile(r"(?m)^# goes: (.+)$")
NAMES = {"all": "ff:ff:ff:ff:ff:ff"} | {it: f"02:00:00:00:00:{n:02x}" for it, n in zip("abcn", (1, 2, 3, 9))}

RECEIVED = [(f"{name}, {n}", *it) for name, text in TEXTS.items() for n, it in enumerate(LINE.findall(text), 1)]
SENT = {name: GOES.findall(text) for name, text in TEXTS.items() if GOES.search(text)}

pytestmark = pytest.mark.needs("scapy")


def by_scapy(words):
    """Returns the frame that a comment builds."""
    from scapy import all as scapy  # noqa: PLC0415

    names = {name: getattr(scapy, name) for name in ("Ether", "ARP", "IP", "ICMP", "UDP")}
    return bytes(eval(words, names | NAMES))  # pylint: disable=eval-used


@pytest.mark.parametrize("comment, digits", [it[1:] for it in RECEIVED], ids=[it[0] for it in RECEIVED])
def test_a_frame_in_a_script_is_the_one_that_scapy_builds(comment, digits):
    same(comment, digits, by_scapy(comment).hex())


@pytest.mark.parametrize("script", TEXTS)
def test_each_line_with_a_frame_has_a_comment_for_scapy(script):
    text = TEXTS[script]
    same(f"{script}: comments, and lines `frame`", len(LINE.findall(text)), len(ANY_LINE.findall(text)))


def test_a_script_has_comments_on_what_it_sends():
    assert SENT, f"no script of {PLAY} has a comment `# goes: ..`"


@pytest.mark.parametrize("script", TEXTS)
def test_a_capture_has_the_frames_that_scapy_builds(script, bsdplay, tmp_path):
    from scapy.all import RawPcapReader  # noqa: PLC0415

    capture = tmp_path / "wire.pcap"
    run(bsdplay, "--quiet", "--pcap", capture, PLAY / script)
    with contextlib.closing(RawPcapReader(str(capture))) as reader:
        same("the link type of the capture", reader.linktype, ETHERNET)
        came = [frame for frame, _ in reader]
    if script not in SENT:
        return
    for number, (comment, frame) in enumerate(zip(SENT[script], came), 1):
        same(f"frame {number}, {comment}", frame.hex(), by_scapy(comment).hex())
    same(f"{script}: frames sent, and comments `# goes: ..`", len(came), len(SENT[script]))
