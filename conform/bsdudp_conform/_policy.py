"""A stack's policy by name: the settings of the reference machine that explain most of its behaviour."""
from __future__ import annotations

from typing import Dict, List, Mapping, NamedTuple, Optional, Tuple

from ._case import Answer, Case, ReadHeld
from ._freedom import SETTINGS, Path, Settings, Value
from ._judge import Judged
from ._machine import play
from ._verdict import explains

ROUNDS = 3
# The settings of fragments: a stack that puts none together has no choice there.
OF_FRAGMENTS = ("overlap", "odd", "empty", "ends", "whole", "expire", "largest", "kept", "ecn")
WAITING = ("waiting", "waiting without data")
# The rules whose cases are long because a choice is about length.
OF_LIMITS = ("frag.large", "frag.many", "hold.many")
# A setting isn't reported if this many of its values explain the same.
MANY_VALUES = 4
MOST_CASES, MOST_BYTES = 40, 60_000
# The settings that only long cases distinguish.
LIMITS = ("kept", "largest", "expire", "waiting", "waiting without data")
# The number of cases that are listed if a policy doesn't explain them.
MOST_NAMED = 4


class Explained(NamedTuple):
    """One setting: the values that explain most, how many of the cases that depend on it, and the others by name.
    measured: what the cases show in words, if they show more than these values."""

    setting: str
    values: Tuple[Value, ...]
    explained: int
    cases: int
    others: Tuple[str, ...] = ()
    measured: str = ""

    @property
    def title(self) -> str:
        return SETTINGS[self.setting].title

    @property
    def told_apart(self) -> bool:
        """Whether the cases leave less than all values."""
        return bool(self.measured) or len(self.values) < min(MANY_VALUES, len(SETTINGS[self.setting].all))

    @property
    def is_good(self) -> bool:
        """Whether it explains nine of ten cases."""
        return self.explained * 10 >= self.cases * 9

    @property
    def choice(self) -> str:
        """The values in words."""
        told = list(dict.fromkeys(SETTINGS[self.setting].told(it) for it in self.values))
        apart = ", which these cases don't tell apart" if len(told) > 1 else ""
        return self.measured or ", or ".join(told) + apart

    @property
    def words(self) -> str:
        return f"{self.title}: {self.choice} ({self.cases_told})"

    @property
    def cases_told(self) -> str:
        """How many cases are explained, and which aren't."""
        shown = ", ".join(self.others[:MOST_NAMED])
        more = f" and {len(self.others) - MOST_NAMED} more" if len(self.others) > MOST_NAMED else ""
        return f"{self.explained} of {self.cases} cases{f'; not {shown}{more}' if shown else ''}"


def asking(cases: List[Case], settings: Mapping[str, Value]) -> Dict[str, List[Case]]:
    """The cases that depend on each setting."""
    found: Dict[str, List[Case]] = {name: [] for name in SETTINGS}
    for case in cases:
        if case.size[1] > MOST_BYTES and case.rule not in OF_LIMITS:
            continue
        path = Noting(settings)
        play(case, path)
        for name in path.noted:
            found[name].append(case)
    return found


class Noting(Path):
    """A path that records which settings are read, given or not."""

    def __init__(self, given: Mapping[str, Value]) -> None:
        super().__init__(given)
        self.noted: List[str] = []

    def choose(self, name: str) -> Value:
        if name not in self.noted:
            self.noted.append(name)
        return super().choose(name)


def chosen(cases: List[Case], name: str) -> List[Case]:
    """Enough cases for a setting: those that depend on few others first, with few floods."""
    fit = [case for case in cases if case.size[1] < MOST_BYTES or name in LIMITS]
    own = sorted((case for case in fit if case.rule not in ("run", "mix")), key=lambda case: case.size)
    if name == "largest":
        return own  # each length tells
    mixed = [case for case in fit if case.rule == "mix"]
    return own[:: max(1, len(own) // MOST_CASES)][: 2 * MOST_CASES] + mixed[:MOST_CASES]


def settings_of(judged: Judged) -> Tuple[Settings, List[Explained]]:
    """The settings that explain a stack, and how well each does: first by itself, then with the others found in
    this way."""
    settings: Settings = {name: setting.default for name, setting in SETTINGS.items()}
    found: List[Explained] = []
    sound = [case for case in judged.cases if judged.answers[case.name].fault is None]
    there = known_of(sound, judged.answers)
    for left in range(ROUNDS, 0, -1):
        found = []
        cases_of = asking(sound, settings)
        for name in there:
            if name in LIMITS and left > 1:
                continue  # no other setting depends on it, and its cases are long
            cases = chosen(cases_of[name], name)
            if not cases:
                continue
            best = best_value(cases, judged.answers, settings, name)
            settings[name] = best.values[0]
            found.append(best)
    return settings, found


def known_of(cases: List[Case], answers: Mapping[str, Answer]) -> List[str]:
    """The settings that a stack's replies can show: none if it delivers nothing, and those of fragments only if it
    delivers a datagram that came in some."""
    came = [case for case in cases if answers[case.name].got]
    is_cut = any(case.fragment_keys and answers[case.name].got for case in came if case.rule.startswith("frag."))
    return [name for name in SETTINGS if came and (is_cut or name not in OF_FRAGMENTS)]


def values_of(cases: List[Case], answers: Mapping[str, Answer], name: str) -> List[Value]:
    """The values that may explain a setting. The bounds of a queue are those that were seen."""
    found = list(SETTINGS[name].all)
    if name in WAITING:
        first_reads = {case.name: first_read(case) for case in cases}
        counts = {sum(it.step == first_reads[case] for it in answers[case].got) for case in first_reads}
        found += [(how, count) for count in sorted(counts) if count > 1 for how in ("refuse", "oldest")]
    return found


def first_read(case: Case) -> int:
    """The step at which what waits is read first, or -1."""
    return next((number for number, step in enumerate(case.steps) if isinstance(step, ReadHeld)), -1)


def best_value(cases: List[Case], answers: Mapping[str, Answer], settings: Settings, name: str) -> Explained:
    """The values with which most cases are explained. The machine takes the first."""
    best: Dict[Value, Tuple[str, ...]] = {}
    least = len(cases)
    values = values_of(cases, answers, name)
    if name == "largest":
        values.append(longest(cases, answers)[0] + 8)
    for value in values:
        missed = unexplained(cases, answers, {**settings, name: value}, least)
        if len(missed) < least:
            best.clear()
        if len(missed) <= least:
            best[value], least = missed, len(missed)
    measured = bounds_of_length(*longest(cases, answers)) if name == "largest" else ""
    return Explained(name, tuple(best), len(cases) - least, len(cases), next(iter(best.values())), measured)


def unexplained(cases: List[Case], answers: Mapping[str, Answer], fixed: Settings, most: int) -> Tuple[str, ...]:
    """The cases that a machine doesn't explain: all of them, or one more than `most`."""
    missed: List[str] = []
    for case in cases:
        if not explains(case, answers[case.name], fixed):
            missed.append(case.name)
            if len(missed) > most:
                break
    return tuple(missed)


def longest(cases: List[Case], answers: Mapping[str, Answer]) -> Tuple[int, Optional[int]]:
    """The longest data that comes, and the shortest that is longer and doesn't, or None."""
    came, lost = [0], []  # type: List[int], List[int]
    for case in cases:
        got = {it.data for it in answers[case.name].got}
        for it in play(case, Path({})).arrivals:
            (came if it.data in got else lost).append(len(it.data))
    most = max(came)
    return most, min((it for it in lost if it > most), default=None)


def bounds_of_length(most: int, more: Optional[int]) -> str:
    """These two in words."""
    return "as IPv4 allows" if more is None else f"{most:,} bytes of data come, {more:,} don't"
