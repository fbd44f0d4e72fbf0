"""A case's verdict: the laws first, then the results on which all permitted machines agree."""
from __future__ import annotations

import functools
from collections import Counter
from dataclasses import dataclass, replace
from typing import FrozenSet, Iterable, Iterator, List, Mapping, Tuple

from ._addresses import BROADCAST, HOST, ZERO_BROADCAST, is_host, text_of
from ._case import Answer, Case, Connect, Got, Receive
from ._cause import extra as extra_cause
from ._cause import NO_DATAGRAM, NO_EXPIRY
from ._echoes import pings
from ._freedom import Path, Value, runs
from ._laws import NO_CHECK_OMITTED, OFFLOADED, STRANGER, Seen
from ._machine import TIME_EXCEEDED, Delivered, Due, Machine, answer_of, delivered, play
from ._queue_laws import held_reads
from ._read import UDP, read
from ._wire_laws import LOST, MUST, SHOULD, UNANSWERED, WRONG, Breach, is_error, leaving

ERROR_OF_SEND = "icmp.error"
FAULT, NEVER, POLICY = "FAULT", "NEVER", "policy"
LEVELS = (FAULT, NEVER, MUST, SHOULD)
# The number of wrong datagrams of a case that are reported: the more packets came, the longer each explanation takes.
MOST_WRONG = 3
ANY_BYTES = "bytes reach the user that nobody sent"


@dataclass(frozen=True)
class Expected:
    """The result of the reference machines for a case: the level at which they agree, their deliveries, and the ICMP
    errors that a host sends."""

    level: str
    answer: Delivered
    due: Tuple[Due, ...]
    arrivals: Tuple[Got, ...]
    sums_hold: bool


def play_delivered(case: Case, path: Path) -> Delivered:
    return delivered(answer_of(play(case, path)).got)


@functools.lru_cache(maxsize=None)
def expected(case: Case) -> Expected:
    """MUST if all permitted machines agree, SHOULD if those that keep the SHOULDs agree, otherwise policy."""
    machine: Machine = play(case, Path({}))
    answer = delivered(answer_of(machine).got)
    level = POLICY
    if alike(case, True):
        level = MUST if alike(case, False) else SHOULD
    return Expected(level, answer, tuple(machine.due), tuple(machine.arrivals), machine.sums_hold)


def alike(case: Case, strict: bool) -> bool:
    """Whether all machines agree."""
    answers = [answer for _, answer in runs(lambda path: play_delivered(case, path), strict)]
    return answers.count(answers[0]) == len(answers)


def same(wanted: Tuple[int, int, int, bytes], got: Got) -> bool:
    """Whether a datagram is the expected one. A sender that the adapter can't know isn't compared."""
    sender = got.source is None or (wanted[1], wanted[2]) == (got.source, got.port)
    return sender and wanted[0] == got.socket and wanted[3] == got.data


def matched(
    wanted: Iterable[Tuple[int, int, int, bytes]], got: List[Got]
) -> Tuple[List[Tuple[int, int, int, bytes]], List[Got]]:
    """The deliveries that are missing, and those that aren't expected."""
    left, missing = list(got), []
    for it in wanted:
        hit = next((one for one in left if same(it, one)), None)
        if hit is None:
            missing.append(it)
        else:
            left.remove(hit)
    return missing, left


def verdict(case: Case, answer: Answer, abilities: FrozenSet[str]) -> List[Breach]:
    """All rules that a stack's behaviour in a case breaks."""
    if answer.fault is not None:
        told_whole = "an answer to the end of the case"
        return [Breach(FAULT, case.rule, answer.fault, None, told_whole, within=(answer.fault,))]
    refused = [number for number, it in enumerate(case.steps) if isinstance(it, Connect) and answer.refused(number)]
    if refused:
        return [Breach(MUST, "socket.connected", "the stack refuses to connect", refused[0], "a connected socket")]
    seen = Seen(case, OFFLOADED if "offload" in abilities else NO_CHECK_OMITTED)
    found, arrived = by_laws(case, seen, answer)
    if "hold" in case.needs:
        found += held_reads(case, expected(case).arrivals, Answer(tuple(arrived)))
    is_plain = not found and seen.is_all_promised(answer.got)
    if not found and not is_plain:
        found = by_machines(case, seen, answer)
    if "out" in abilities:
        found += leaving(seen, answer, "echo" in abilities)
        if "gateway" not in abilities:
            found += pings(seen, answer, abilities)
        if not is_plain and not abilities & {"gateway", "echo"}:
            found += missing_errors(case, answer)
    return list(dict.fromkeys(found))


def by_laws(case: Case, seen: Seen, answer: Answer) -> Tuple[List[Breach], List[Got]]:
    """What the two laws find, and what arrived, with the right senders."""
    found: List[Breach] = []
    left: List[Got] = []
    promised = {(0, it.source, it.port, it.data): it.step for it in reversed(seen.promises)}
    for got in answer.got:
        due = promised.get((got.socket, got.source or 0, got.port, got.data))
        is_sound = len(found) >= MOST_WRONG or due is not None and due <= got.step
        wrong = None if is_sound else seen.fault(got)
        if due is None and len(found) >= MOST_WRONG:  # a fault that isn't looked for
            got = next((replace(got, source=it[1], port=it[2]) for it in promised if it[3] == got.data), got)
        if wrong:
            level = MUST if wrong.rule == STRANGER else NEVER
            way = WRONG + ANY_BYTES if wrong.words.endswith("nobody sent") else ""
            rule = wrong.rule or case.rule
            found.append(Breach(level, rule, wrong.words, got.step, wrong.expected, wrong.cause, way=way))
        if wrong and wrong.sender:  # it arrived, and its fault is already reported
            got = replace(got, source=wrong.sender[0], port=wrong.sender[1])
        left.append(got)
    arrived = list(left)
    for promise in seen.promises:
        wanted = (0, promise.source, promise.port, promise.data)
        hit = next((it for it in left if same(wanted, it)), None)
        if hit is None:
            words = f"a datagram of {len(promise.data)} bytes doesn't come"
            sender = f"{text_of(promise.source)} port {promise.port}"
            lost = Got(promise.step, promise.source, promise.port, promise.data)
            expect = f"{len(promise.data)} bytes from {sender}"
            found.append(Breach(promise.level, case.rule, words, promise.step, expect, NO_DATAGRAM, (), LOST, lost))
        else:
            left.remove(hit)
    return found, arrived


def by_machines(case: Case, seen: Seen, answer: Answer) -> List[Breach]:
    """If all machines agree, a stack must do the same."""
    want = expected(case)
    if want.level == POLICY:
        return []
    missing, extra = matched(want.answer, answer.got)
    found = []
    if missing:
        words = (
            "a datagram doesn't come"
            if len(want.answer) == 1
            else f"{len(missing)} of {len(want.answer)} datagrams don't come"
        )
        socket, source, port, data = missing[0]
        lost = Got(0, source, port, data, socket)
        parts = seen.parts_of(lost)
        step = parts[-1].step if parts else None
        found.append(Breach(want.level, case.rule, words, step, told(want.answer), NO_DATAGRAM, (), LOST, lost))
    if extra:
        words = "a datagram comes that shouldn't" if len(extra) == 1 else f"{len(extra)} datagrams come that shouldn't"
        cause = extra_cause(seen, extra[0])
        found.append(Breach(want.level, case.rule, words, extra[0].step, told(want.answer), cause))
    return found


def told(answer: Delivered) -> str:
    """What is delivered, in words."""
    if not answer:
        return "nothing is delivered"
    parts = [f"{len(data)} bytes from {text_of(source)} port {port}" for _, source, port, data in answer[:3]]
    return ", ".join(parts) + (f" and {len(answer) - 3} more" if len(answer) > 3 else "")


ERROR_RULES = {
    (3, 3): (SHOULD, "icmp.port", "no Port Unreachable"),
    (3, 2): (SHOULD, "icmp.proto", "no Protocol Unreachable"),
    (11, 1): (MUST, "icmp.reass", "no Time Exceeded"),
}


def missing_errors(case: Case, answer: Answer) -> List[Breach]:
    """The ICMP errors of a host that are missing. Errors may be rate-limited, so floods and runs are excluded."""
    found = []
    for due, is_missing in errors_due(case, answer):
        if is_missing:
            level, rule, words = ERROR_RULES[due.type, due.code]
            of_time = due.type == TIME_EXCEEDED
            within, way = ((NO_EXPIRY,), "") if of_time else ((), UNANSWERED + words)
            expect = f"ICMP type {due.type} code {due.code}"
            found.append(Breach(level, rule, words, due.step, expect, words, within, way))
    return found


def errors_due(case: Case, answer: Answer) -> Iterator[Tuple[Due, bool]]:
    """The ICMP errors that a host sends in a case, and whether each is missing. None is due for a datagram that a user
    got: that is another fault."""
    if case.rule in ("frag.many", "run", "mix"):
        return
    delivered_at = {it.step for it in answer.got}
    sent: "Counter[Tuple[int, int]]" = Counter()
    for out in answer.out:
        header = read(out.packet)
        if header and is_error(header) and len(header.data) >= 2:
            sent[header.data[0], header.data[1]] += 1
    for due in expected(case).due:
        is_there = sent[due.type, due.code] > 0
        sent[due.type, due.code] -= is_there
        if is_there or due.step not in delivered_at:
            yield due, not is_there


def applies(case: Case, abilities: FrozenSet[str]) -> bool:
    """Whether a case applies to a stack. Cases about a host's addresses don't apply to a gateway that translates
    them."""
    if not case.needs <= abilities:
        return False
    if "reassembly" in abilities and not case.rule.startswith("frag."):
        return False
    if "offload" in abilities and not expected(case).sums_hold:
        return False
    if "echo" in abilities:
        return all(echoed(step.packet) for step in case.steps if isinstance(step, Receive))
    if "gateway" not in abilities:
        return True
    if case.rule.startswith(("ip.dst.", "ip.src.", "ip.ttl", "icmp.")):
        return False
    return all(for_gateway(step.packet) for step in case.steps if isinstance(step, Receive))


def for_gateway(packet: bytes) -> bool:
    """Whether a packet is one that a gateway passes on: for the one address, from a host, with a time to live."""
    if len(packet) < 20:
        return True
    source = int.from_bytes(packet[12:16], "big")
    return packet[16:20] == HOST.to_bytes(4, "big") and packet[8] > 1 and is_host(source)


def echoed(packet: bytes) -> bool:
    """Whether an echo can show what happened to a packet: it comes from another host of the network, and from a
    port."""
    if len(packet) < 20:
        return True
    source = int.from_bytes(packet[12:16], "big")
    near = ZERO_BROADCAST < source < BROADCAST and source != HOST
    header = read(packet)
    first = header is not None and header.offset == 0 and header.protocol == UDP
    return near and not (first and header is not None and header.data[:2] == bytes(2))


def explains(case: Case, answer: Answer, settings: Mapping[str, Value]) -> bool:
    """Whether a machine with these settings delivers what the stack did, and reports ICMP errors about sends alike."""
    if answer.fault is not None:
        return False
    machine = answer_of(play(case, Path(settings)))
    missing, extra = matched(delivered(machine.got), answer.got)
    reports = case.rule != ERROR_OF_SEND or machine.has_refused == answer.has_refused
    return not missing and not extra and reports
