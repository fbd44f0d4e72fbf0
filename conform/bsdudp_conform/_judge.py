"""Runs cases through a stack, and collects the results."""
from __future__ import annotations

import concurrent.futures
import contextlib
import signal
import sys
import threading
from collections import Counter
from dataclasses import dataclass, field, replace
from typing import Dict, FrozenSet, Iterable, Iterator, List, Optional, Sequence, Tuple

from ._adapter import TIMEOUT_S, Adapter, Limit, Stopped
from ._case import Answer, Case
from ._rules import RULES
from ._shared import with_shared_causes
from ._verdict import LEVELS, applies, verdict
from ._wire_laws import Breach


@dataclass(frozen=True)
class Deviation:
    """One thing that a stack broke in one case."""

    case: Case
    breach: Breach
    answer: Answer

    @property
    def cause(self) -> str:
        """The name by which deviations are grouped: what the law names, or the text without its numbers."""
        words = " ".join("N" if any(it.isdigit() for it in word) else word for word in self.breach.what.split())
        return self.breach.cause or words

    @property
    def kind(self) -> Tuple[int, str, str]:
        """What a shorter case must have too: level, rule and cause."""
        return LEVELS.index(self.breach.level), self.breach.rule, self.cause


@dataclass
class Judged:
    """A stack's verdicts."""

    name: str
    abilities: FrozenSet[str]
    answers: Dict[str, Answer] = field(default_factory=dict)
    cases: List[Case] = field(default_factory=list)
    left_out: "Counter[str]" = field(default_factory=Counter)
    not_run: int = 0
    why_not: str = ""  # why these weren't run
    deviations: List[Deviation] = field(default_factory=list)

    def cell(self, rule: str) -> "Counter[str]":
        """How many cases of a rule there are, and how many deviate at each level."""
        found: "Counter[str]" = Counter()
        found["cases"] = sum(case.rule == rule for case in self.cases)
        for level in LEVELS:
            found[level] = len(
                {it.case.name for it in self.deviations if it.breach.rule == rule and it.breach.level == level}
            )
        return found

    def kinds(self) -> List[List[Deviation]]:
        """The deviations by cause, the most serious first, and of one level those of most cases. Of each cause the most
        serious ones are first, and among these the shortest case that isn't a run."""
        sizes = Counter(it.cause for it in self.deviations)
        if self.not_run:  # a stack that always crashes does it by one cause
            sizes.update(it.breach.what for it in self.deviations if it.breach.level == LEVELS[0])

        def group_of(it: Deviation) -> str:
            """A wider cause explains it, unless that has few deviations of its own."""
            return next((wide for wide in it.breach.within if 2 * sizes[wide] >= sizes[it.cause]), it.cause)

        groups: Dict[str, List[Deviation]] = {}
        for it in self.deviations:
            groups.setdefault(group_of(it), []).append(it)
        return sorted((sorted(group, key=place_in_group) for group in groups.values()), key=place_of_group)


def place_of_group(group: Sequence[Deviation]) -> Tuple[int, int, int]:
    breach = group[0].breach
    return LEVELS.index(breach.level), -len(cases_of(group)), list(RULES).index(breach.rule)


def place_in_group(it: Deviation) -> Tuple[int, bool, Tuple[int, int]]:
    return LEVELS.index(it.breach.level), it.case.rule in ("run", "mix"), it.case.size


def title(kind: Sequence[Deviation]) -> str:
    """The cause of a kind: the one that explains all of it."""
    for it in kind:
        if all(it.cause in (one.cause, *one.breach.within) for one in kind):
            return it.breach.cause or it.breach.what
    return kind[0].breach.what


def cases_of(kind: Iterable[Deviation]) -> List[str]:
    """The names of the cases with a deviation, each once, in order."""
    return list(dict.fromkeys(it.case.name for it in kind))


class Progress:
    """A line on standard error, rewritten as cases end."""

    def __init__(self, name: str, total: int, shown: Optional[bool]) -> None:
        self.name, self.total, self.done = name, total, 0
        self.shown = sys.stderr.isatty() if shown is None else shown
        self.lock = threading.Lock()

    def one(self) -> None:
        with self.lock:
            self.done += 1
            if self.shown and (self.done % 20 == 0 or self.done == self.total):
                print(f"\r{self.name}: {self.done} of {self.total}", end="", file=sys.stderr, flush=True)

    def end(self) -> None:
        if self.shown and self.done:
            print(file=sys.stderr)


def judge(
    command: Sequence[str],
    cases: Iterable[Case],
    jobs: int = 1,
    timeout: float = TIMEOUT_S,
    progress: Optional[bool] = None,
) -> Judged:
    """Runs all cases that apply to a stack through its adapter. Raises Fault if the adapter can't be started."""
    limit = Limit()
    with stopped_by_signals(limit):
        judged = asked(command, cases, jobs, timeout, progress, limit)
        judge_answers(judged, limit)
    return judged


def asked(
    command: Sequence[str],
    cases: Iterable[Case],
    jobs: int,
    timeout: float,
    progress: Optional[bool],
    limit: Limit,
) -> Judged:
    """A stack's replies, without verdicts."""
    with Adapter(command, timeout, limit) as first:
        judged = Judged(first.name or command[0], first.abilities)
        for case in cases:
            if applies(case, first.abilities):
                judged.cases.append(case)
            else:
                judged.left_out[case.rule] += 1
        told = Progress(judged.name, len(judged.cases), progress)
        ordered = sorted(judged.cases, key=lambda case: not case.slow)
        adapters = [first, *(Adapter(command, timeout, limit) for _ in range(min(jobs, len(ordered)) - 1))]
        try:
            judged.answers = ask_all(adapters, ordered, told)
        finally:
            told.end()
    return judged


def judge_answers(judged: Judged, limit: Limit) -> None:
    """The verdicts on all replies, or, if a signal arrives meanwhile, on the first ones."""
    every, signals = judged.cases, limit.signals
    judged.cases = []
    for case in every:
        answer = judged.answers.get(case.name)
        if limit.signals > signals:
            break
        if answer is not None:
            judged.cases.append(case)
            judged.deviations += [Deviation(case, it, answer) for it in verdict(case, answer, judged.abilities)]
    compared = with_shared_causes(judged.cases, judged.answers, [(it.case, it.breach) for it in judged.deviations])
    judged.deviations = [replace(it, breach=breach) for it, breach in zip(judged.deviations, compared)]
    judged.not_run, judged.why_not = len(every) - len(judged.cases), limit.why


@contextlib.contextmanager
def stopped_by_signals(limit: Limit) -> Iterator[None]:
    """SIGTERM and SIGINT end the run, so that what was found so far can be reported."""
    if threading.current_thread() is not threading.main_thread():
        yield
        return

    def stop(number: int, _: object) -> None:
        limit.why = f"stopped by {signal.Signals(number).name}"
        limit.signals += 1

    kept = {number: signal.signal(number, stop) for number in (signal.SIGTERM, signal.SIGINT)}
    try:
        yield
    finally:
        for number, handler in kept.items():
            signal.signal(number, handler)


def ask_all(adapters: List[Adapter], cases: List[Case], told: Progress) -> Dict[str, Answer]:
    """Each adapter takes the next case as soon as it's free."""
    answers: Dict[str, Answer] = {}
    lock, todo = threading.Lock(), iter(cases)

    def work(adapter: Adapter) -> None:
        while True:
            with lock:
                case = next(todo, None)
            if case is None:
                return
            try:
                answers[case.name] = adapter.ask(case)
            except Stopped:
                return
            told.one()

    with concurrent.futures.ThreadPoolExecutor(max(1, len(adapters))) as pool:
        try:
            for done in [pool.submit(work, adapter) for adapter in adapters]:
                done.result()
        finally:
            for adapter in adapters[1:]:
                adapter.stop()
    return answers
