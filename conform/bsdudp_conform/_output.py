"""What a run prints, and the files that it writes."""
from __future__ import annotations

import argparse
import pathlib
import re
import sys
from typing import Dict, List, Sequence

from ._baseline import Known, baseline_of, changed_choices, has_choices, new_ones
from ._html import html
from ._judge import Deviation, Judged
from ._packets import write_capture
from ._policy import Explained, settings_of
from ._report import junit, kind_text, summary, text


def new(judged: Judged, known: Known) -> List[Deviation]:
    """The deviations that the baseline doesn't know."""
    return new_ones(judged, known)


def write(stacks: Sequence[Judged], known: Known, words: argparse.Namespace) -> bool:
    """Prints the report, and writes the files that were requested. Returns whether a stack's choices are those that the
    baseline has, if it has any."""
    policies: Dict[str, List[Explained]] = {}
    if not words.no_policy and (not words.quiet or words.write_baseline or has_choices(known)):
        if sys.stderr.isatty():
            print("looking for each stack's policy ..", file=sys.stderr)
        try:
            policies = {it.name: settings_of(it)[1] for it in stacks if not it.why_not.startswith("stopped")}
        except KeyboardInterrupt:
            print("stopped: the stack's policy isn't determined", file=sys.stderr)
    whole = text(stacks, policies, known)
    if words.quiet:
        for it in stacks:
            for kind in it.kinds():
                left = [one for one in kind if one in new_ones(it, known)]
                if left:
                    print(f"{it.name}: {kind_text(left, known)}")
            print(summary(it, known))
    else:
        print(whole, end="")
    changed = [f"{it.name}: {line}" for it in stacks for line in changed_choices(policies.get(it.name, []), known)]
    for line in changed:
        print(f"a choice changed: {line}")
    if words.write_baseline:
        baselines = (baseline_of(it, policies.get(it.name, [])) for it in stacks)
        pathlib.Path(words.write_baseline).write_text("".join(baselines), encoding="utf-8")
    if words.report:
        write_folder(pathlib.Path(words.report), stacks, policies, known, whole)
    return not changed


def write_folder(
    folder: pathlib.Path, stacks: Sequence[Judged], policies: Dict[str, List[Explained]], known: Known, whole: str
) -> None:
    """The report's files."""
    captures = {it.name: captures_of(it, folder) for it in stacks}
    (folder / "report.txt").write_text(whole, encoding="utf-8")
    (folder / "report.html").write_text(html(stacks, policies, known, captures), encoding="utf-8")
    (folder / "junit.xml").write_text(junit(stacks, known), encoding="utf-8")


def captures_of(judged: Judged, folder: pathlib.Path) -> Dict[str, str]:
    """A capture of each kind's shortest case, by the case: its path from the folder."""
    found = {}
    place = re.sub(r"[^A-Za-z0-9.]+", "-", judged.name).strip("-").lower()
    for kind in judged.kinds():
        case = kind[0].case
        if case.packets():
            (folder / place).mkdir(exist_ok=True)
            path = f"{place}/{case.rule}.{case.number}.pcap"
            write_capture(folder / path, case.packets())
            found[case.name] = path
    return found
