"""One bug, one cause: failing and passing datagrams of a run are compared by their features, and what all failing ones
share and no passing one has is the cause, whatever the rules and the ways in which it's seen."""
from __future__ import annotations

from typing import Dict, Iterator, List, Mapping, NamedTuple, Sequence, Set, Tuple

from ._case import Answer, Case, Got, Send
from ._cause import ACCEPTED, ANY_SOURCE, NAMED, NO_DATAGRAM
from ._features import IN_FRAGMENTS, Unit, passed, received, refuted_by, sent, shared, widest
from ._laws import Seen
from ._read import read
from ._verdict import ERROR_RULES, errors_due
from ._wire_laws import ERROR_TO, HELD, LOST, QUOTED_WRONG, SENT, UNANSWERED, WRONG, Breach, is_error

# A part of the failing datagrams that is smaller than this share isn't a cause of its own.
LEAST_PART = 0.05
MANY_KINDS = 3
# So few failing datagrams have many numbers in common by chance.
LEAST = 3


class Compared(NamedTuple):
    """The datagrams that one way of failing concerns: each deviation with its unit, and the units that passed."""

    failing: List[Tuple[int, Unit]]
    passing: List[Unit]


Found = Tuple[Case, Breach]
Ways = Dict[str, Compared]


def with_shared_causes(cases: Sequence[Case], answers: Mapping[str, Answer], found: List[Found]) -> List[Breach]:
    """The same breaches, with the causes that comparing gives."""
    ways: Ways = {breach.way: Compared([], []) for _, breach in found if breach.way}
    places: Dict[str, List[int]] = {}
    for place, (case, _) in enumerate(found):
        places.setdefault(case.name, []).append(place)
    for case in cases if ways else ():
        broken = {place: found[place][1] for place in places.get(case.name, ())}
        compare(Seen(case), answers[case.name], broken, ways)
    return renamed([breach for _, breach in found], ways)


def compare(seen: Seen, answer: Answer, broken: Mapping[int, Breach], ways: Ways) -> None:
    """Adds a case's datagrams to the ways in which they can fail: failing and passing ones."""
    failed: Set[Tuple[str, int]] = set()
    for place, breach in broken.items():
        step = -1 if breach.step is None else breach.step
        failed.add((breach.way, step))
        unit = unit_of(seen, breach, step) if breach.way else None
        if unit:
            ways[breach.way].failing.append((place, unit))
    wrong = {it.step for it in broken.values() if it.level == "NEVER"}
    for kind, step, unit in (*arrived(seen, answer, wrong, ways), *left(seen, answer, ways)):
        for way, compared in ways.items():
            if way.startswith(kind) and (way, step) not in failed:
                compared.passing.append(unit)


def unit_of(seen: Seen, breach: Breach, step: int) -> "Unit | None":
    """The datagram that a breach is about."""
    it = seen.case.steps[step] if 0 <= step < len(seen.case.steps) else None
    if breach.way.startswith(SENT):
        return sent(seen, step, it) if isinstance(it, Send) else None
    if breach.way.startswith(QUOTED_WRONG) and breach.datagram is not None:
        return arriving(seen, breach.datagram.step)
    if breach.datagram is not None:
        parts = seen.parts_of(breach.datagram)
        return received(seen, parts, breach.datagram) if parts else None
    return arriving(seen, step)


def arriving(seen: Seen, step: int) -> "Unit | None":
    """The datagram whose packet, or last fragment, arrives at a step."""
    parts = seen.parts_at(step)
    header = parts[0].header if parts else None
    if header is None:
        return None
    length = max(it.header.end for it in parts if it.header)
    port = int.from_bytes(header.data[:2], "big")
    return received(seen, parts, Got(step, header.source, port, bytes(max(length - 8, 0))))


def arrived(seen: Seen, answer: Answer, wrong: "Set[int | None]", ways: Ways) -> Iterator[Tuple[str, int, Unit]]:
    """The datagrams that users rightly get, and those of which an ICMP error is rightly sent."""
    if any(it.startswith((LOST, WRONG, HELD)) for it in ways):
        for got in answer.got:
            parts = seen.parts_of(got) if got.step not in wrong else []
            if parts:
                unit = passed(seen, parts, got)
                yield LOST, -2, unit
                yield WRONG, got.step, unit
                if "hold" in seen.case.needs:
                    yield HELD, -2, unit
    if any(it.startswith(UNANSWERED) for it in ways):
        for due, is_missing in errors_due(seen.case, answer):
            about = None if is_missing else arriving(seen, due.step)
            if about:
                yield UNANSWERED + ERROR_RULES[due.type, due.code][2], due.step, about


def left(seen: Seen, answer: Answer, ways: Ways) -> Iterator[Tuple[str, int, Unit]]:
    """The datagrams that are sent, and those that ICMP errors quote."""
    if any(it.startswith(SENT) for it in ways):
        for number, step in enumerate(seen.case.steps):
            if isinstance(step, Send) and not answer.refused(number):
                yield SENT, number, sent(seen, number, step)
    if any(it.startswith(QUOTED_WRONG) for it in ways):
        for out in answer.out:
            header = read(out.packet)
            unit = arriving(seen, out.step) if header and is_error(header) else None
            if unit:
                yield QUOTED_WRONG, out.step, unit


def renamed(found: List[Breach], ways: Ways) -> List[Breach]:
    """The breaches with what they share as their cause. Ways that share the same feature are one cause."""
    there = {it.cause for it in found}
    of_laws = [flag for flag, law in NAMED.items() if law in there]
    features: Dict[int, str] = {}
    for way, compared in ways.items():
        features.update(feature_of_each(way, compared, of_laws))
    counts: Dict[str, Dict[str, int]] = {}
    for place, feature in features.items():
        words = found[place].way.partition(":")[2] or NO_DATAGRAM
        group = counts.setdefault(feature or words, {})
        group[words] = group.get(words, 0) + 1
    made = list(found)
    for place, feature in features.items():
        law = NAMED.get(feature, "")
        words = found[place].way.partition(":")[2] or NO_DATAGRAM
        cause = law if law and law in there else cause_of(feature, counts[feature or words])
        made[place] = found[place]._replace(cause=cause, within=())
    return with_sources_as_one(made)


def with_sources_as_one(found: List[Breach]) -> List[Breach]:
    """The same breaches. If sources of many kinds are accepted, they're one cause, with the ICMP errors to them."""
    accepted = {it.cause for it in found if it.cause.endswith(ACCEPTED)}
    if len(accepted) < MANY_KINDS:
        return found
    return [it._replace(cause=ANY_SOURCE) if it.cause.endswith(ACCEPTED) or it.rule == "icmp.never" and
            it.cause.startswith(ERROR_TO) else it for it in found]


def cause_of(feature: str, counts: Mapping[str, int]) -> str:
    """A cause in words: which datagrams fail, and how."""
    words = sorted(counts, key=lambda it: -counts[it])
    if not feature:
        return words[0]
    if words[0] == NO_DATAGRAM:
        also = f"; also: {'; '.join(words[1:])}" if words[1:] else ""
        return f"a datagram {feature} doesn't come{also}"
    return f"a datagram {feature}: {'; '.join(words)}"


def feature_of_each(way: str, compared: Compared, of_laws: Sequence[str]) -> Iterator[Tuple[int, str]]:
    """What each breach of one way shares with others. Lost datagrams are those of a law that the stack breaks, if they
    have the flag; if the others have nothing in common, they are divided by what most of them have."""
    failing, passing = compared.failing, compared.passing
    if way == LOST:
        named = {place: flag for flag in of_laws for place, unit in failing if flag in unit.has}
        yield from named.items()
        failing = [it for it in failing if it[0] not in named]
    for flag in (IN_FRAGMENTS, "in one packet"):
        if way != LOST and all(flag in it.has for _, it in failing):
            passing = [it for it in passing if flag in it.has]
    whole, refuted = len(failing), refuted_by(passing, len(failing))
    while failing:
        units = [unit for _, unit in failing]
        known = next((it for it in NAMED if all(it in unit.has for unit in units)), "")
        feature = shared(units, passing, refuted, way != LOST and whole < LEAST) if passing else known
        chosen = set(range(len(failing)))
        if not feature and passing and way == LOST:
            feature, chosen = widest(units, passing, refuted)
            if len(chosen) < LEAST_PART * whole or not chosen:
                feature, chosen = "", set(range(len(failing)))
        yield from ((failing[at][0], feature) for at in sorted(chosen))
        failing = [it for at, it in enumerate(failing) if at not in chosen]
