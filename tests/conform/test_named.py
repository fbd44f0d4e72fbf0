"""Faults of an adapter's stack, each planted in the text of replying_stack.py or small_stack.py: the first screen of
the report names its cause, in one line for all rules that it breaks. The stack without a fault breaks nothing."""
import functools
import sys

import pytest

from bsdudp_conform import cases
from bsdudp_conform._judge import judge
from bsdudp_conform._report import text
from tests.cases import TOP
from tests.conform.conftest import PATHS

pytestmark = pytest.mark.slow
HERE = TOP / "tests/conform"
RULES = ("icmp.", "hold.lost", "hold.order", "udp.len.", "frag.udp", "frag.options", "ip.version", "ip.padding")
SCREEN = 24
VALID = "if len(packet) < 20 or packet[0] >> 4 != 4 or not 20 <= size"
LENGTH = "        if not 8 <= length <= len(data):\n            return\n"
PLACE = "begin, more = place % 0x2000 * 8, bool(place & 0x2000)"
LINE = "            self.held[socket].append((address, port, data))"
DATA = "        data: bytes | None = packet[size:total]\n"
OWN_GOT = "            super().got("
REQUEST = "        elif len(data) >= 8 and data[:2]"
FILLED_IN = """        if packet[20:23] == b'\\7\\7\\4':
            packet = packet[:20] + returned(packet[20:28]) + packet[28:]
"""

# A fault, pairs of old and new text, and the words of its cause.
FAULTS = [
    (
        "an error quotes 28 bytes, whatever the options",
        [("quote = packet[: (packet[0] & 15) * 4 + 8]", "quote = packet[:28]")],
        "the quote ends after 28 bytes",
    ),
    (
        "the header of a reassembled datagram is quoted with the first fragment's checksum",
        [("head = with_sum(first[:6] + bytes(2) + first[8:size], 10)", "head = first[:6] + bytes(2) + first[8:size]")],
        "the header checksum in the quote of a reassembled datagram is wrong",
    ),
    (
        "a record route is filled in before the packet is quoted",
        [("        quote =", f"{FILLED_IN}        quote =")],
        "the quote changes the packet's options",
    ),
    (
        "a record route is returned as it came",
        [("found += brought_up_to_date(options[at : at + size])", "found += options[at : at + size]")],
        "the record route of a ping isn't brought up to date",
    ),
    (
        "a ping with options gets no reply",
        [(REQUEST, REQUEST.replace("len(data) >= 8", "self.packet[0] == 0x45 and len(data) >= 8"))],
        "a ping with options gets no reply",
    ),
    (
        "what waits is read from its end",
        [("for it in line[:count]:", "for it in line[::-1][:count]:")],
        "a datagram that waited is read after one that came later",
    ),
    (
        "a full queue replaces the last that waits",
        [(LINE, f"            self.held[socket][1:] = self.held[socket][1:][:2]\n{LINE}")],
        "a datagram that waited is lost",
    ),
    (
        "a read gives each datagram twice",
        [("            Adapter.got(self, *it, socket)", "            Adapter.got(self, *it, socket)\n" * 2)],
        "a datagram that waited is read twice",
    ),
    (
        "what waits is dropped if a datagram comes for another socket",
        [(OWN_GOT, f"            self.held = {{it: [] for it in self.held}}\n{OWN_GOT}")],
        "a datagram that waited isn't read",
    ),
    (
        "the UDP length of a reassembled datagram isn't looked at",
        [(LENGTH, f"        length = len(data) if cut else length\n{LENGTH}")],
        "the UDP length isn't looked at",
    ),
    (
        "the version isn't looked at",
        [(VALID, VALID.replace("packet[0] >> 4 != 4 or ", ""))],
        "the version isn't looked at",
    ),
    (
        "a fragment is taken for a datagram",
        [(PLACE, "begin, more = 0, False")],
        "whether it's a fragment isn't looked at",
    ),
    (
        "padded packets are dropped",
        [("if not size <= total <= len(packet) or", "if not size <= total == len(packet) or")],
        "a datagram with padding doesn't come",
    ),
    (
        "a fragment with options is dropped",
        [(DATA, f"{DATA}        if size > 20 and place % 0x4000:\n            return\n")],
        "a datagram with options doesn't come",
    ),
]


@functools.lru_cache(maxsize=None)
def chosen():
    return [it for it in cases.make(1, 0) if it.rule.startswith(RULES)]


def report(edits, scratch):
    """Returns the report on the stack with these edits."""
    texts = {name: (HERE / f"{name}.py").read_text(encoding="utf-8") for name in ("small_stack", "replying_stack")}
    for old, new in edits:
        homes = [name for name, it in texts.items() if it.count(old)]
        assert len(homes) == 1 and texts[homes[0]].count(old) == 1, f"{old!r} isn't in one place"
        texts[homes[0]] = texts[homes[0]].replace(old, new)
    for name, it in texts.items():
        (scratch / f"{name}.py").write_text(it, encoding="utf-8")
    judged = judge([sys.executable, str(scratch / "replying_stack.py")], chosen(), progress=False)
    return judged, text([judged], {}, set())


@pytest.fixture(autouse=True)
def for_adapters(monkeypatch):
    monkeypatch.setenv("PYTHONPATH", PATHS)


def test_the_stack_without_a_fault_breaks_nothing(tmp_path):
    judged, said = report([], tmp_path)
    assert not judged.deviations, said[:2000]


@pytest.mark.parametrize("edits, cause", [it[1:] for it in FAULTS], ids=[it[0] for it in FAULTS])
def test_a_fault_is_named_by_its_cause(edits, cause, tmp_path):
    _, said = report(edits, tmp_path)
    named = [line for line in said.splitlines()[:SCREEN] if cause in line]
    assert len(named) == 1, said[:2500]
