"""Deviations that are known: a file with a line for each, `LEVEL RULE:NUMBER`, or `LEVEL RULE:*` for all of a rule; and
the stack's choices, `POLICY SETTING = VALUE`, with several values if the cases don't distinguish them. What follows a
`#` is for readers."""
from __future__ import annotations

import pathlib
from typing import Dict, List, Sequence, Set, Tuple

from ._freedom import SETTINGS
from ._judge import Deviation, Judged, title
from ._policy import Explained
from ._verdict import LEVELS

POLICY = "POLICY"
Known = Set[Tuple[str, str]]


class BadBaseline(Exception):
    """What is wrong with the file, with its line."""


def read_baseline(path: pathlib.Path) -> Known:
    """The known deviations. BadBaseline if a line is of another form."""
    known: Known = set()
    try:
        lines = path.read_text(encoding="utf-8").splitlines()
    except UnicodeDecodeError as fault:
        raise BadBaseline(f"{path}: {fault}") from None
    for number, line in enumerate(lines, 1):
        words = line.split("#")[0].split()
        if not words:
            continue
        if words[0] == POLICY:
            known.add((POLICY, choice_of(" ".join(words[1:]), f"{path}:{number}")))
            continue
        if len(words) != 2 or words[0] not in LEVELS or ":" not in words[1]:
            raise BadBaseline(f"{path}:{number}: expected `LEVEL RULE:NUMBER`, with one of {', '.join(LEVELS)}")
        known.add((words[0], words[1]))
    return known


def choice_of(text: str, where: str) -> str:
    """A line's setting and its values. BadBaseline if there is no such setting."""
    name, _, values = text.partition(" = ")
    if name not in SETTINGS or not values:
        raise BadBaseline(f"{where}: expected `POLICY SETTING = VALUE`, with one of {'; '.join(SETTINGS)}")
    return text


def value_text(it: Explained) -> str:
    """How the file has the values of a setting."""
    names = (" ".join(map(str, one)) if isinstance(one, tuple) else str(one) for one in it.values)
    return " | ".join([it.measured] if it.measured else names)


def has_choices(known: Known) -> bool:
    """Whether the file has a stack's choices."""
    return any(level == POLICY for level, _ in known)


def changed_choices(explained: Sequence[Explained], known: Known) -> List[str]:
    """The choices that differ from those in the file, in words. A setting of which this run has no case isn't one."""
    before: Dict[str, Set[str]] = {}
    for level, text in known:
        if level == POLICY:
            name, _, values = text.partition(" = ")
            before.setdefault(name, set()).update(values.split(" | "))
    found = []
    for it in explained:
        old = before.get(it.setting)
        if old and not (it.is_good and old & set(value_text(it).split(" | "))):
            now = it.choice if it.is_good else "no choice that the judge knows explains it"
            found.append(f"{it.title}: {now} ({it.cases_told}); the baseline has {' | '.join(sorted(old))}")
    return found


def entry(deviation: Deviation) -> Tuple[str, str]:
    """How the file has a deviation."""
    return deviation.breach.level, deviation.case.name


def is_known(deviation: Deviation, known: Known) -> bool:
    """Whether a deviation is in the file."""
    level, name = entry(deviation)
    return (level, name) in known or (level, f"{deviation.case.rule}:*") in known


def new_ones(judged: Judged, known: Known) -> List[Deviation]:
    """The deviations that aren't known."""
    return [it for it in judged.deviations if not is_known(it, known)]


def baseline_of(judged: Judged, explained: Sequence[Explained] = ()) -> str:
    """The file that knows all deviations of a stack, and these choices."""
    lines = [f"# Known deviations of {judged.name}"]
    for kind in judged.kinds():
        lines.append(f"\n# {title(kind)}")
        lines += sorted({" ".join(entry(it)) for it in kind}, key=lambda line: (len(line), line))
    chosen = [f"{POLICY} {it.setting} = {value_text(it)}" for it in explained if it.is_good and it.told_apart]
    lines += ["\n# Choices, where the RFCs leave one", *chosen] if chosen else []
    return "\n".join(lines) + "\n"
