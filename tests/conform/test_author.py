"""What an author of an adapter sees in the first half hour: steps that say what is unusual about a packet, one entry
for one cause, a run that ends early, and commands that play a case again."""
import os
import re
import shlex
import signal
import subprocess
import sys
import time

import pytest

from bsdudp_conform import cases
from bsdudp_conform._adapter import Limit
from bsdudp_conform._case import Answer, Case, Connect, Got, Open, Receive, Refused, Wait
from bsdudp_conform._freedom import Path
from bsdudp_conform._judge import Judged, judge, judge_answers
from bsdudp_conform._machine import play
from bsdudp_conform._packets import packet, pieces, udp
from bsdudp_conform._policy import settings_of
from bsdudp_conform._report import policy_text, steps_of, text
from bsdudp_conform._verdict import applies, verdict
from bsdudp_conform._words import described
from tests.cases import TOP
from tests.conform.conftest import PATHS

DATA = b"0123456789"
# What serves cases without a stack. The name says what it does in each.
HEAD = """
import os, sys, time
for line in sys.stdin:
    line = line.strip()
    if line == "hello 1":
        print("stack one\\nhas\\nend", flush=True)
    elif line.startswith("case "):
        print(line)
    elif line == "end":
        %s
        print("end", flush=True)
"""


@pytest.fixture
def adapter(tmp_path):
    """Writes an adapter that does this at the end of each case, and returns its command."""

    def write(body):
        (tmp_path / "adapter.py").write_text(HEAD % body, encoding="utf-8")
        return [sys.executable, str(tmp_path / "adapter.py")]

    return write


def of_datagram(**fields):
    """Returns a packet with this UDP header."""
    return packet(udp(DATA, **fields))


UNUSUAL = {
    "header length 24: record route": lambda: packet(udp(DATA), options=b"\7\4\4\0"),
    "UDP length 12 of 18": lambda: of_datagram(length=12),
    "UDP length 7": lambda: of_datagram(length=7),
    "wrong UDP checksum": lambda: of_datagram(check=0x1111),
    "no UDP checksum": lambda: of_datagram(check=0),
    "wrong header checksum": lambda: packet(udp(DATA), chksum=0x1111),
    "total length 99 of 38": lambda: packet(udp(DATA), len=99),
    "version 5": lambda: packet(udp(DATA), version=5),
    "header length 16": lambda: packet(udp(DATA), ihl=4),
    "6 bytes after the total length": lambda: packet(udp(DATA), pad=bytes(6)),
    "time to live 1": lambda: packet(udp(DATA), ttl=1),
    "an address in 127/8 as source": lambda: packet(udp(DATA), source=0x7F000001),
    "protocol 253": lambda: packet(udp(DATA), proto=253),
    "fragment 24-48, the last": lambda: pieces(udp(bytes(40)), [24], id=9)[1],
    "fragment 0-24, more follow, UDP length 48": lambda: pieces(udp(bytes(40)), [24], id=9)[0],
}


@pytest.mark.parametrize("words", UNUSUAL)
def test_a_step_says_what_is_unusual_about_its_packet(words):
    told = described(UNUSUAL[words]()).partition(": ")[2]
    assert words in told and len(told) < len(words) + 60, told


def test_a_plain_packet_has_nothing_unusual():
    assert described(of_datagram()) == "UDP 10.0.0.2:5000 > 10.0.0.1:7, 10 bytes"


def test_a_long_case_shows_the_steps_before_the_deviation():
    steps = [Receive(of_datagram())] * 30
    lines = steps_of(Case("run", 1, "many", tuple(steps)), 20)
    assert [it.split(".")[0] for it in lines[1:-1]] == [str(it) for it in range(14, 21)]
    assert lines[0] == ".. 14 more .." and lines[-1] == ".. 9 more .."


def test_one_cause_is_one_entry_over_all_rules():
    """A stack that looks at no UDP length: it delivers what the length leaves out."""
    chosen = {"udp.len.trim", "udp.len.below", "frag.udp"}
    judged = Judged("a stack", frozenset())
    for case in cases.make(1, 0):
        if case.rule in chosen and len(case.steps) < 30:
            judged.cases.append(case)
            judged.answers[case.name] = Answer(tuple(of_all_bytes(case)))
    judge_answers(judged, Limit())
    told = text([judged], {}, set()).splitlines()
    assert [re.sub(r"\d+", "N", line) for line in told[1:3]] == [
        "  never N, should N: the UDP length isn't looked at (udp.len.below:N and N more)",
        "",
    ], told[:6]


def of_all_bytes(case):
    """Yields the datagrams of a stack that takes all that IP carries, if the checksum over these bytes is right."""
    machine = play(case, Path({}))
    data = b"".join(it.header.data for it in sorted((it for it in case.steps), key=lambda it: it.header.offset))
    check = int.from_bytes(data[6:8], "big")
    if machine.events and len(machine.events[0].data) == len(data) - 8:
        return machine.events
    return [] if check or len(data) < 8 else [Got(len(case.steps) - 1, 0x0A000002, 5000, data[8:])]


def test_a_refused_connect_is_named_and_nothing_else():
    case = Case("socket.connected", 1, "a case", (Connect(0, 0x0A000003, 6), Receive(of_datagram())))
    answer = Answer((Refused(0), Got(1, 0x0A000002, 5000, DATA)))
    found = verdict(case, answer, frozenset())
    assert [it.what for it in found] == ["the stack refuses to connect"]


@pytest.mark.parametrize("body", ["print('crash of the stack')", "sys.exit(3)"])
def test_twenty_crashes_in_a_row_end_the_run(body, adapter):
    chosen = [it for it in cases.make(1, 0) if it.rule == "udp.data"]
    judged = judge(adapter(body), chosen, progress=False)
    assert len(judged.cases) == 20 and judged.not_run == len(chosen) - 20
    assert len(judged.kinds()) == 1
    assert "513 weren't run: 20 crashes or faults in a row" in text([judged], {}, set()).splitlines()[0]


@pytest.mark.parametrize("number", [signal.SIGTERM, signal.SIGINT])
def test_a_signal_prints_what_was_found(number, adapter, tmp_path):
    begun = tmp_path / "begun"
    words = [sys.executable, "-m", "bsdudp_conform", "run", "--only", "udp.data", "--jobs", "1", "--no-policy", "--"]
    running = subprocess.Popen(
        [*words, *adapter(f"open({str(begun)!r}, 'w').close(); time.sleep(0.1)")],
        env={**os.environ, "PYTHONPATH": PATHS}, stdout=subprocess.PIPE, stderr=subprocess.PIPE, text=True,
    )  # fmt: skip
    until = time.monotonic() + 60
    while not begun.exists() and time.monotonic() < until:
        time.sleep(0.1)
    time.sleep(1)
    running.send_signal(number)
    told, _ = running.communicate(timeout=60)
    assert running.returncode == 1
    first = told.splitlines()[0]
    assert re.search(rf"deviate, by 1 cause; \d+ weren't run: stopped by {number.name}$", first), told[:500]


@pytest.mark.slow
def test_a_case_of_a_sweep_is_played_again_by_the_printed_command(tmp_path, judged, conform):
    """A small stack that doesn't look at UDP checksums."""
    source = (TOP / "tests/conform/small_stack.py").read_text(encoding="utf-8")
    (tmp_path / "stack.py").write_text(source.replace("if check and folded", "if False and folded"), encoding="utf-8")
    status, told = judged("--seeds", "5-9", "--", sys.executable, tmp_path / "stack.py")
    assert status == 1 and "the UDP checksum isn't looked at" in told, told
    again = shlex.split(re.search(r"bsdudp-conform (run --seeds \d .*)", told)[1])
    status, told = conform(sys.executable, "-m", "bsdudp_conform", *again)
    assert status == 1 and "1 case, 1 deviate" in told and "the UDP checksum isn't looked at" in told, told
    case = again[again.index("--only") + 1]
    short = ["reduce", case, "--seeds", again[2], *again[again.index("--") :]]
    status, told = conform(sys.executable, "-m", "bsdudp_conform", *short)
    assert status == 1 and told.startswith(f"{case}, mix "), told


def test_policy_cases_that_no_setting_explains_are_listed():
    chosen = [it for it in cases.make(1, 0) if it.rule == "ip.src.policy"]
    judged = Judged("a stack", frozenset(), cases=chosen)
    for number, case in enumerate(chosen):
        events = play(case, Path({"own source": "drop", "other source": "drop" if number % 2 else "take"})).events
        judged.answers[case.name] = Answer(tuple(events))
    told = policy_text(settings_of(judged)[1])
    assert any("class E" in line and "at best 2 of 3 cases; not ip.src.policy:" in line for line in told), told


def test_cases_with_wrong_sums_are_left_out_if_the_link_checks_them():
    made = cases.make(1, 0)
    offload = frozenset({"offload"})
    for rule, applied in (("udp.checksum", 0), ("ip.checksum", 0), ("udp.data", 533), ("udp.checksum.zero", 5)):
        assert sum(applies(it, offload) for it in made if it.rule == rule) == applied, rule


def test_a_case_of_a_run_is_named():
    case = Case("run", 1, "two", (Open(1, 70), Wait(1), Wait(2)), parts=(("udp.data:1", 1), ("udp.data:2", 2)))
    assert [case.part(it) for it in (0, 1, 2, None)] == ["udp.data:1", "udp.data:2", "udp.data:2", None]
