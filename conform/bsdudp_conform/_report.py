"""The report as text, and as JUnit's XML."""
from __future__ import annotations

import sys
import textwrap
import xml.etree.ElementTree as ElementTree
from collections import Counter
from typing import Dict, List, Optional, Sequence, Set

from ._baseline import Known, is_known
from ._case import Case, Receive
from ._judge import Deviation, Judged, cases_of, title
from ._policy import Explained
from ._rules import RULES
from ._verdict import FAULT, LEVELS, NEVER
from ._wire_laws import MUST, SHOULD
from ._words import described

WORDS = {FAULT: "crash", NEVER: "never", MUST: "must", SHOULD: "should"}
MEANING = {
    FAULT: "the stack crashed, hung or sent no reply",
    NEVER: "a user received bytes that the packets don't carry",
    MUST: "against a MUST: all hosts that the RFCs permit reply alike, and this stack differently",
    SHOULD: "against a SHOULD: all hosts that keep the SHOULDs reply alike, and this stack differently",
}
SHOWN, MOST_RULES, PLAYED = 8, 6, 40


def cell(count: "Counter[str]") -> str:
    """A cell of the matrix."""
    if not count["cases"] and not any(count[level] for level in LEVELS):
        return "-"
    return ", ".join(f"{WORDS[level]} {count[level]}" for level in LEVELS if count[level]) or "ok"


def rules_of(stacks: Sequence[Judged]) -> List[str]:
    """The rules that have cases or deviations."""
    there = {case.rule for it in stacks for case in it.cases} | {
        it.breach.rule for one in stacks for it in one.deviations
    }
    return [rule for rule in RULES if rule in there]


def matrix(stacks: Sequence[Judged]) -> str:
    """A row for each rule, a column for each stack."""
    rows = [["rule", "cases", *(it.name for it in stacks)]]
    for rule in rules_of(stacks):
        counts = [it.cell(rule) for it in stacks]
        rows.append([rule, str(max(it["cases"] for it in counts) or ""), *map(cell, counts)])
    rows.append(["all", str(max(len(it.cases) for it in stacks)), *map(total, stacks)])
    widths = [max(len(row[place]) for row in rows) + 2 for place in range(len(rows[0]))]
    return "\n".join("".join(it.ljust(width) for it, width in zip(row, widths)).rstrip() for row in rows)


def total(judged: Judged) -> str:
    """A stack's last cell: over all rules."""
    levels = {level: len({it.case.name for it in judged.deviations if it.breach.level == level}) for level in LEVELS}
    return cell(Counter(cases=len(judged.cases), **levels))


def steps_of(case: Case, at: Optional[int] = None) -> List[str]:
    """The steps of a case in words, with what is unusual about each packet. If there are many, only those before step
    `at`, or the first and the last ones."""
    told = [described(it.packet) if isinstance(it, Receive) else it.line[:80] for it in case.steps]
    lines = [f"{number}. {words}" for number, words in enumerate(told)]
    if len(lines) <= SHOWN:
        return lines
    end = len(lines) if at is None else min(len(lines), max(at + 1, SHOWN))
    begin = end - SHOWN + 1
    before = [*lines[: SHOWN - 2], f".. {begin - SHOWN + 3} more .."] if at is None else [f".. {begin} more .."]
    shown = lines[end - 1 : end] if at is None else lines[begin:end]
    after = [f".. {len(lines) - end} more .."] if end < len(lines) else []
    return [*(before if begin else []), *shown, *after]


def levels_of(kind: Sequence[Deviation]) -> str:
    """How many cases of a kind deviate at each level."""
    counts = {level: len({it.case.name for it in kind if it.breach.level == level}) for level in LEVELS}
    return ", ".join(f"{WORDS[level]} {count}" for level, count in counts.items() if count)


def rules_of_kind(kind: Sequence[Deviation]) -> str:
    """The rules that a kind breaks: the first one in words, the others by name, with the numbers of cases."""
    names: Dict[str, Set[str]] = {kind[0].breach.rule: set()}
    for it in kind:
        names.setdefault(it.breach.rule, set()).add(it.case.name)
    (first, _), *others = names.items()
    also = ", ".join(f"{rule} {len(there)}" for rule, there in others[:MOST_RULES])
    also += f" and {len(others) - MOST_RULES} more rules" if len(others) > MOST_RULES else ""
    said = RULES[first]
    return f"{first}: {said.sentence} ({said.source}){f'; also {also}' if also else ''}"


def shortest_of(kind: Sequence[Deviation]) -> str:
    """The shortest case of a kind, and which case of a run it was."""
    first = kind[0]
    part = first.case.part(first.breach.step)
    return f"{first.case.name}, {first.case.title}{f'; step {first.breach.step} is of {part}' if part else ''}"


def kind_text(kind: List[Deviation], known: Known) -> str:
    """One kind of deviation, by its shortest case."""
    first = kind[0]
    breach = first.breach
    old = ", known" if all(is_known(it, known) for it in kind) else ""
    count = len(cases_of(kind))
    lines = [
        f"{levels_of(kind).upper()}: {title(kind)}; {count} case{'s' * (count > 1)}{old}",
        f"    rule: {rules_of_kind(kind)}",
        f"    seen: {breach.what}",
        f"    expected: {breach.expected or RULES[breach.rule].sentence}",
        f"    shortest: {shortest_of(kind)}",
    ]
    lines += [f"      {line}" for line in steps_of(first.case, breach.step)]
    return "\n".join(lines)


def causes_text(judged: Judged, known: Known) -> str:
    """A stack's summary, with a line for each cause."""
    lines = [summary(judged, known)]
    for kind in judged.kinds():
        names = cases_of(kind)
        more = f" and {len(names) - 1} more" if len(names) > 1 else ""
        lines.append(textwrap.shorten(f"  {levels_of(kind)}: {title(kind)} ({names[0]}{more})", 118))
    return "\n  ".join(lines)


def policy_text(explained: Sequence[Explained]) -> List[str]:
    """A stack's policy in words: the settings that explain nine of ten cases, and then what they don't explain."""
    well = [it for it in explained if it.is_good]
    lines = [it.words for it in well if it.told_apart]
    others = "; ".join(f"{it.title} (at best {it.cases_told})" for it in explained if it not in well)
    return lines + ([f"no policy that the judge knows explains: {others}"] if others else [])


def text(stacks: Sequence[Judged], policies: Dict[str, List[Explained]], known: Known) -> str:
    """The whole report."""
    parts = [
        *(causes_text(it, known) for it in stacks),
        matrix(stacks),
        "A cell counts the cases that deviate:\n"
        + "\n".join(f"  {WORDS[level]:7} {MEANING[level]}" for level in LEVELS),
    ]
    for it in stacks:
        if sum(it.left_out.values()):
            parts.append(
                f"{it.name}: {sum(it.left_out.values())} cases don't apply, or need what its adapter doesn't have"
            )
        parts += [f"{it.name}: {kind_text(kind, known)}" for kind in it.kinds()]
        if policies.get(it.name):
            told = [
                textwrap.fill(line, 118, initial_indent="  ", subsequent_indent="      ")
                for line in policy_text(policies[it.name])
            ]
            parts.append("\n".join([f"{it.name}: policy, where the RFCs leave one", *told]))
        parts.append(summary(it, known))
    return "\n\n".join(parts) + "\n"


def summary(judged: Judged, known: Known) -> str:
    """A stack's last line."""
    cases = len({it.case.name for it in judged.deviations})
    new = len({it.case.name for it in judged.deviations if not is_known(it, known)})
    kinds = len(judged.kinds())
    every = len(judged.cases)
    told = f"{judged.name}: {every} case{'s' * (every != 1)}, {cases} deviate, by {kinds} cause{'s' * (kinds != 1)}"
    told = f"{told}, {new} of them new" if known else told
    return f"{told}; {judged.not_run} weren't run: {judged.why_not}" if judged.not_run else told


def played(case: Case) -> str:
    """What the adapter read, for JUnit's file: packets as bytes, without the middle of a very long case."""
    lines = case.lines()
    if len(lines) > 2 * PLAYED:
        lines = [*lines[:PLAYED], f".. {len(lines) - 2 * PLAYED} more lines ..", *lines[-PLAYED:]]
    return "\n".join(lines)


def choices(stacks: Sequence[Judged], policies: Dict[str, List[Explained]]) -> List[List[str]]:
    """A row for each choice that the RFCs leave: its title, and what each stack does."""
    rows: Dict[str, List[str]] = {}
    for place, stack in enumerate(stacks):
        for it in policies.get(stack.name, []):
            if it.is_good and it.told_apart:
                rows.setdefault(it.title, [""] * len(stacks))[place] = it.choice
    return [[title, *cells] for title, cells in rows.items()]


def junit(stacks: Sequence[Judged], known: Known) -> str:
    """JUnit's XML: a suite for each stack, a test for each case. A known deviation is a skipped test."""
    top = ElementTree.Element("testsuites", name="bsdudp-conform")
    for judged in stacks:
        broken: Dict[str, List[Deviation]] = {}
        for it in judged.deviations:
            broken.setdefault(it.case.name, []).append(it)
        new = {name for name, all_of in broken.items() if not all(is_known(it, known) for it in all_of)}
        suite = ElementTree.SubElement(
            top,
            "testsuite",
            name=judged.name,
            tests=str(len(judged.cases)),
            failures=str(len(new)),
            skipped=str(len(broken) - len(new)),
        )
        for case in judged.cases:
            test = ElementTree.SubElement(
                suite, "testcase", classname=f"{judged.name}.{case.rule}", name=f"{case.name} {case.title}"
            )
            for it in broken.get(case.name, [])[:1]:
                rule = RULES[it.breach.rule]
                tag = ElementTree.SubElement(
                    test, "failure" if case.name in new else "skipped", message=f"{it.breach.level}: {it.breach.what}"
                )
                tag.text = f"{it.breach.rule}: {rule.sentence} ({rule.source}); expected: {it.breach.expected}"
            if case.name in broken:
                ElementTree.SubElement(test, "system-out").text = played(case)
    if sys.version_info >= (3, 9):
        ElementTree.indent(top)
    return ElementTree.tostring(top, encoding="unicode", xml_declaration=True) + "\n"
