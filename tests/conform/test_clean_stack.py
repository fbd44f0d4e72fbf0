"""The course's clean stack in C: the judge reports nothing about it, and it sees each bug that is planted there."""
import functools
import re
import sys

import pytest

from bsdudp_conform import cases
from bsdudp_conform._judge import judge
from bsdudp_conform._main import wanted
from bsdudp_conform._policy import settings_of
from bsdudp_conform._report import text
from tests.conform import bugs

pytestmark = [pytest.mark.slow, pytest.mark.needs("cc")]
BEGUN = "    struct unfinished **at = find(it, now), *in = *at;"
BOUNDED = f"""    int kept = 0;
    bool is_there = false;
    for (struct unfinished *each = all; each != NULL; each = each->next) {{
        kept++;
        is_there = is_there || is_same(&each->key, it);
    }}
    if (kept >= BOUND && !is_there) return false;
{BEGUN}"""
FIRST = "    if ((it.offset > 0 || it.more) && !reassemble"
TO_ALL = "        if (it->destination != HOST) deliver("


def of_name(name):
    return next(it for it in bugs.BUGS if it.name == name)


@functools.lru_cache(maxsize=None)
def every(is_long=False):
    return cases.make(1, cases.MIXES, is_long)


@pytest.fixture
def judge_bug(tmp_path):
    """Judges the clean stack with a bug in cases of these rules, or in all. Returns the status and the report, with the
    stack's choices if `policy`."""

    def run(bug, *only, policy=False, is_long=False):
        chosen = [it for it in every(is_long) if wanted(it.name, only)]
        judged = judge([str(bugs.build(tmp_path, bug))], chosen, 2, progress=False)
        policies = {judged.name: settings_of(judged)[1]} if policy else {}
        return int(bool(judged.deviations)), text([judged], policies, set())

    return run


@pytest.fixture
def command(conform, tmp_path):
    """Judges the clean stack with a bug by the command, with these options. Returns the status and its output."""

    def run(bug, *words):
        adapter = bugs.build(tmp_path, bug)
        return conform(sys.executable, "-m", "bsdudp_conform", "run", "--jobs", "2", *words, "--", adapter)

    return run


def test_it_deviates_in_no_case(command):
    status, said = command(None, "--no-policy")
    assert status == 0 and re.search(r"(?m)^the lab's stack: 6,?\d+ cases, 0 deviate, by 0 causes$", said), said[:3000]


@pytest.mark.parametrize(
    "name, rules, words",
    [
        ("identifications have 8 bits", ["send.id"], "after more than 255 others: two cut sends have one identification"),
        ("data of 4,068 bytes is dropped", ["frag.large"], "a datagram of exactly 4,068 bytes doesn't come"),
        ("data above 32,767 bytes is dropped", ["frag.large"], "a datagram of more than 32,767 bytes doesn't come"),
        ("own fragments have don't fragment", ["send.cut"], "fragments leave with the flag don't fragment"),
        ("the length of a quote is swapped", ["icmp.port"], "the quote changes the packet's total length"),
        ("the length of a quote is swapped", ["hold.lost"], "the quote changes the packet's total length"),
        ("an odd tail is summed as the low byte", ["udp.data"], "a datagram of odd length doesn't come"),
        ("no checksum is dropped", ["udp.checksum", "icmp.port", "frag.udp"], "a datagram with no UDP checksum doesn't"),
        ("the key lacks the destination", ["frag.key"], "the destination of fragments isn't looked at"),
        ("nothing expires", ["frag.time", "icmp.reass"], "the age of fragments isn't looked at"),
        ("invalid sources are taken", ["ip.src", "icmp.never"], "sources that no host may have are accepted"),
        ("a peer's port isn't compared", ["socket."], "a connected socket gets 10 bytes from another than its peer"),
    ],
)
def test_a_bug_is_one_cause(name, rules, words, judge_bug):
    status, said = judge_bug(of_name(name), *rules)
    first = said.splitlines()[1]
    assert status == 1 and words in first and "by 1 cause" in said, said[:2000]


@pytest.mark.parametrize(
    "bound, words",
    [
        (64, "41 to 64; then newcomers"),
        pytest.param(3, "3; then newcomers", marks=pytest.mark.planted),
        pytest.param(2048, "1,025 to 4,000; then newcomers", marks=pytest.mark.planted),
    ],
)
def test_a_bound_on_unfinished_datagrams_is_a_choice(bound, words, judge_bug):
    bounded = bugs.bug("bounded", "step6.c", BEGUN, BOUNDED.replace("BOUND", str(bound)))
    status, said = judge_bug(bounded, "frag.many", policy=True)
    assert status == 0 and f"unfinished datagrams at once: {words} are refused" in said, said[-1500:]


def on_error(code):
    """Returns a bug: this happens if an ICMP error arrives."""
    return bugs.bug("on an error", "host.c", FIRST, f"    if (it.protocol == PROTOCOL_ICMP && it.data[0] == 3) {code};\n{FIRST}")


def test_an_icmp_error_that_is_reported_is_a_choice(judge_bug):
    reported = on_error('printf("refused %d\\n", kit_step)')
    status, said = judge_bug(reported, "icmp.error", policy=True)
    about = "an ICMP error about a send of a connected socket: a call reports Unreachable of each code"
    assert status == 0 and about in " ".join(said.split()), said[-1500:]


def test_an_icmp_error_that_closes_a_socket_is_seen(judge_bug):
    status, said = judge_bug(on_error("socket_count = 0"), "icmp.error")
    assert status == 1 and "by 1 cause" in said and "doesn't come" in said.splitlines()[1], said[:1500]


ONCE = "    part.identification = identification < 65535 ? ++identification : identification;"


@pytest.mark.planted
def test_identifications_that_do_not_wrap_are_seen_in_a_long_run(judge_bug):
    """The first 65,534 of 65,600 sends are sound, and the judge says nothing about them."""
    status, said = judge_bug(bugs.bug("no wrap", "step5.c", bugs.ID, ONCE), "send.id:10", is_long=True)
    words = "a datagram after more than 65,534 others: two cut sends have one identification"
    assert status == 1 and words in said.splitlines()[1], said[:1500]


def test_two_datagrams_at_once_are_no_choice(judge_bug):
    bounded = bugs.bug("bounded", "step6.c", BEGUN, BOUNDED.replace("BOUND", "1"))
    status, said = judge_bug(bounded, "frag.key")
    assert status == 1 and "must" in said.splitlines()[1], said[:1500]


@pytest.mark.planted
def test_most_bugs_are_one_cause(tmp_path):
    """Of 42 bugs, at least 32 are one cause of all cases; it takes ten minutes."""
    alone = []
    for number, it in enumerate(bugs.BUGS + bugs.LATER):
        (tmp_path / str(number)).mkdir()
        judged = judge([str(bugs.build(tmp_path / str(number), it))], every(), 2, progress=False)
        alone += [it.name] * (len(judged.kinds()) == 1)
    assert len(alone) >= 32, alone


def test_a_choice_that_changes_is_a_deviation(command, tmp_path):
    known = tmp_path / "known.txt"
    words = ["--quiet", "--only", "socket."]
    assert command(None, *words, "--write-baseline", known)[0] == 0
    assert "POLICY several, broadcast = all" in known.read_text(encoding="utf-8")
    assert command(None, *words, "--baseline", known)[0] == 0
    to_one = bugs.bug("to one", "step3.c", TO_ALL, TO_ALL.replace("!= HOST", "!= HOST && i == 0"))
    status, said = command(to_one, *words, "--baseline", known)
    assert status == 1 and "a choice changed: the lab's stack: a broadcast that several sockets" in said, said
    known.write_text("POLICY overlaps = last\n", encoding="utf-8")
    status, said = command(None, *words, "--baseline", known)
    assert status == 2 and "known.txt:1: expected `POLICY SETTING = VALUE`" in said, said


def test_a_stack_that_delivers_nothing_has_no_choices(judge_bug):
    deaf = bugs.bug("deaf", "host.c", "    if (!read_header", "    if (true || !read_header")
    _, said = judge_bug(deaf, "ip.flags", "udp.checksum.zero", "frag.odd", policy=True)
    assert "policy, where" not in said, said[-1500:]


@pytest.mark.planted
def test_the_longest_datagram_is_told_by_what_came(judge_bug):
    _, said = judge_bug(of_name("data above 32,767 bytes is dropped"), "frag.large", policy=True)
    assert "the longest datagram: 32,767 bytes of data come, 32,768 don't" in said, said[-1500:]
