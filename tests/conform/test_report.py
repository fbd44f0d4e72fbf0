"""What the judge reports about a deviation: the number of cases that have it, and the sender of a datagram; about a file
that can't be read or written, one line."""
import functools
import re
import sys
import xml.etree.ElementTree as ElementTree

import pytest

from bsdudp_conform._addresses import PEER, PEER2
from bsdudp_conform._case import Answer, Case, Connect, Got, Receive
from bsdudp_conform._html import html
from bsdudp_conform._judge import Deviation, Judged
from bsdudp_conform._packets import packet, pieces, udp
from bsdudp_conform._report import PLAYED, junit, text
from bsdudp_conform._verdict import verdict
from tests.cases import TOP

# An adapter that is there: the template, which isn't filled in.
TEMPLATE = [sys.executable, str(TOP / "conform/bsdudp_conform/templates/template.py")]


@functools.lru_cache(maxsize=None)
def whole():
    return Receive(packet(udp(b"0123456789")))


def breaches(steps, *got):
    """Returns the level, the rule and the text of each deviation."""
    found = verdict(Case("udp.data", 1, "a case", tuple(steps)), Answer(got), frozenset())
    return [(it.level, it.rule, it.what) for it in found]


def told(*senders):
    """Returns the deviations if the stack reports these senders for the datagram of whole(), one for each arrival."""
    return breaches([whole()] * len(senders), *(Got(at, *it, b"0123456789") for at, it in enumerate(senders)))


def test_the_right_sender_breaks_nothing():
    assert not told((PEER, 5000))
    assert not told((None, 0)), "an adapter that can't know the sender"


@pytest.mark.parametrize(
    "sender, words",
    [
        ((PEER, 0x8813), "10 bytes with a wrong source port: 10.0.0.2 port 34835"),
        ((PEER2, 5000), "10 bytes with a wrong source address: 10.0.0.3 port 5000"),
        ((PEER2, 1), "10 bytes with a wrong source address and port: 10.0.0.3 port 1"),
    ],
)
def test_a_wrong_sender_is_named_and_nothing_else(sender, words):
    assert told(sender) == [("NEVER", "udp.source", words)]


def test_a_wrong_sender_of_fragments_is_named():
    halves = map(Receive, pieces(udp(bytes(range(40))), [24], id=9))
    wrong = Got(1, PEER, 1, bytes(range(40)))
    assert breaches(halves, wrong) == [("NEVER", "udp.source", "40 bytes with a wrong source port: 10.0.0.2 port 1")]


def test_a_wrong_length_is_no_wrong_sender():
    same = Receive(packet(udp(b"0123456789", sport=6000)))
    short = Receive(packet(udp(b"0123456789", length=2, check=0)))
    wrong = Got(1, PEER, 5000, b"0123456789")
    words = "10 bytes reach the user, as if the UDP length weren't looked at"
    assert breaches([same, short], Got(0, PEER, 6000, b"0123456789"), wrong) == [("NEVER", "udp.data", words)]


def test_a_stranger_is_no_wrong_sender():
    steps = [Connect(0, PEER2, 5000), whole()]
    words = "a connected socket gets 10 bytes from another than its peer"
    assert breaches(steps, Got(1, PEER, 5000, b"0123456789")) == [("MUST", "socket.connected", words)]


def test_bytes_that_nobody_sent_are_named_so():
    assert breaches([whole()], Got(0, PEER, 5000, b"0123456780"))[0][1:] == (
        "udp.data",
        "10 bytes reach the user that nobody sent",
    )


def test_the_report_counts_cases_and_not_what_they_break():
    steps = (whole(), whole(), whole())
    judged = Judged("a stack", frozenset())
    for number in (1, 2):
        case = Case("udp.data", number, "three times", steps)
        answer = Answer(tuple(Got(at, PEER, 1, b"0123456789") for at in range(3)))
        judged.cases.append(case)
        judged.deviations += [Deviation(case, it, answer) for it in verdict(case, answer, frozenset())]
    assert len(judged.deviations) == 6
    assert re.findall(r"(?m)NEVER 2: .* wrong source port.*; (\d+) cases$", text([judged], {}, set())) == ["2"]
    page = html([judged], {}, set(), {})
    assert re.findall(r"\((\d+) cases\)", page) == ["2"] and page.count("udp.data:2") == 1


@pytest.mark.parametrize(
    "words, said",
    [
        (["run", "--baseline", "FILE", "--only", "ip.tos", "--", "./none"], ": No such file or directory"),
        (["run", "--write-baseline", "FILE/x", "--only", "udp.data:1", "--", *TEMPLATE], "/x: Not a directory"),
        (["run", "--report", "FILE/x", "--only", "udp.data:1", "--", *TEMPLATE], "/x: Not a directory"),
        (["reduce", "--pcap", "FILE/x", "udp.data:1", *TEMPLATE], "/x: Not a directory"),
        (["template", "FILE/x"], "/x: Not a directory"),
    ],
)
def test_a_file_that_cannot_be_used_is_named_in_one_line(words, said, conform, tmp_path):
    """FILE is a file, and not a folder; as a baseline it isn't there."""
    file = tmp_path / "file"
    if "--baseline" not in words:
        file.touch()
    status, printed = conform(sys.executable, "-m", "bsdudp_conform", *(it.replace("FILE", str(file)) for it in words))
    last = printed.splitlines()[-1]
    assert (status, last) == (2, f"bsdudp-conform: {file}{said}") and "Traceback" not in printed


def test_junit_has_the_packets_of_a_failing_case():
    """All of them, or the first and the last ones of a long case; a case that passes has none."""
    judged = Judged("a stack", frozenset())
    for number, count in ((1, 2), (2, 3 * PLAYED), (3, 1)):
        case = Case("udp.data", number, "a case", (whole(),) * count)
        answer = Answer(tuple(Got(at, PEER, 5000, b"0123456789") for at in range(count - (number < 3))))
        judged.cases.append(case)
        judged.deviations += [Deviation(case, it, answer) for it in verdict(case, answer, frozenset())]
    few, many, passed = ElementTree.fromstring(junit([judged], set())).iter("testcase")
    line = f"rx {whole().packet.hex()}"
    assert few.findtext("system-out").splitlines() == ["case udp.data:1", line, line, "end"]
    assert many.findtext("system-out").count(line) == 2 * PLAYED - 2
    assert f".. {PLAYED + 2} more lines .." in many.findtext("system-out")
    assert few.find("failure") is not None and [it.tag for it in passed] == []


# Two builds of one stack: the first delivers each packet, the second none with the reserved flag.
TWIN = """import sys
from bsdudp_conform.kit import Adapter, serve


class Twin(Adapter):
    name = "twin 1.0"

    def rx(self, packet):
        if sys.argv[1] == "takes" or not packet[6] & 0x80:
            self.got("10.0.0.2", 5000, packet[28:])


serve(Twin)
"""


def test_stacks_of_one_name_are_kept_apart(conform, tmp_path):
    """Each has its own column, choices and captures."""
    (tmp_path / "twin.py").write_text(TWIN, encoding="utf-8")
    stacks = [word for it in ("takes", "drops") for word in ("--stack", f"{sys.executable} {tmp_path}/twin.py {it}")]
    only = ["--only", "ip.flags.reserved", "--only", "udp.data:1", "--only", "udp.short:1"]
    words = ["run", "--jobs", "1", *only, "--report", tmp_path / "out", *stacks]
    status, said = conform(sys.executable, "-m", "bsdudp_conform", *words)
    assert status == 1 and re.search(r"(?m)^rule +cases +twin 1\.0 +twin 1\.0 \(2\)$", said), said
    choices = re.findall(r"(?m)^(twin .*): policy.*\n(?:  .*\n)*?  the reserved flag: (\w+)", said)
    assert choices == [("twin 1.0", "taken"), ("twin 1.0 (2)", "dropped")]
    captures = {it.parent.name for it in (tmp_path / "out").glob("*/*.pcap")}
    assert captures == {"twin-1.0", "twin-1.0-2"}


def test_an_unknown_rule_names_the_list(conform):
    status, said = conform(sys.executable, "-m", "bsdudp_conform", "run", "--only", "frag.kye", "--", "./none")
    assert (status, said) == (2, "bsdudp-conform: no case matches frag.kye: bsdudp-conform run --list prints all\n")
