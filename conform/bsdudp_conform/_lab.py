"""The grader of a course in which students write a UDP/IPv4 stack in six steps: `bsdudp-conform lab`."""
from __future__ import annotations

import argparse
import csv
import os
import pathlib
import shutil
import subprocess
import sys
import tempfile
import zipfile
from typing import Dict, Iterator, List, NamedTuple, Optional, Sequence

from . import cases
from ._adapter import Fault, Limit
from ._case import Case
from ._judge import Judged, asked, judge_answers
from ._lab_steps import STEPS, Step, Test
from ._report import steps_of

PACKAGE = pathlib.Path(__file__).resolve().parent
LAB = PACKAGE / "lab"
JUDGE = "judge.pyz"
# A case of a sound stack takes milliseconds, and its waits no real time.
TIMEOUT_S = 5.0
MOST_HANGS = 3
OK, FAILS, USAGE = 0, 1, 2


class Language(NamedTuple):
    """Files of a language: the end of a step's name, and what surrounds the steps."""

    folder: str
    end: str
    others: Sequence[str]


LANGUAGES = (Language("c", ".c", ("host.c", "lab.h")), Language("python", ".py", ("host.py", "lab.py")))


class Outcome(NamedTuple):
    """A test, and why it failed, or nothing."""

    test: Test
    why: str

    @property
    def points(self) -> int:
        return 0 if self.why else self.test.points


def main(words: argparse.Namespace) -> int:
    """Runs `lab ACTION`."""
    try:
        return {"start": start, "check": check, "grade": grade}[words.action](words)
    except Unusable as fault:
        print(f"bsdudp-conform: {fault}", file=sys.stderr)
        return USAGE


class Unusable(Exception):
    """What is wrong with a folder or with this computer, as one line."""


def start(words: argparse.Namespace) -> int:
    language = LANGUAGES[words.python]
    if not LAB.is_dir():
        raise Unusable(f"{JUDGE} has no files to hand out: use an installed bsdudp-conform")
    made = {it.name: it.read_bytes() for it in sorted((LAB / "handout" / language.folder).iterdir()) if it.is_file()}
    if language.folder == "c":
        made["kit.h"] = (PACKAGE / "templates/kit.h").read_bytes()
    words.folder.mkdir(parents=True, exist_ok=True)
    for name, content in made.items():
        path = words.folder / name
        if path.exists() and path.read_bytes() != content:
            raise Unusable(f"{path} exists with other contents: choose another folder")
    for name, content in made.items():
        (words.folder / name).write_bytes(content)
        print(words.folder / name)
    write_judge(words.folder / JUDGE)
    print(words.folder / JUDGE)
    return OK


def write_judge(path: pathlib.Path) -> None:
    """The judge as one file that Python runs, without the course's files."""
    with zipfile.ZipFile(path, "w", zipfile.ZIP_DEFLATED) as file:
        for it in sorted(PACKAGE.rglob("*.py")):
            if LAB not in it.parents:
                file.write(it, it.relative_to(PACKAGE.parent))
        file.writestr("__main__.py", "import sys\nfrom bsdudp_conform._main import main\n\nsys.exit(main())\n")


def language_of(folder: pathlib.Path) -> Language:
    """The language of a student's steps."""
    for it in LANGUAGES:
        if any(folder.glob(f"step[1-6]{it.end}")):
            return it
    raise Unusable(f"{folder} must have step1.c to step6.c, or step1.py to step6.py")


def command_of(files: Dict[str, pathlib.Path], language: Language, scratch: pathlib.Path) -> List[str]:
    """Puts a stack together from these files, and returns the command that runs it. Raises Unusable if it doesn't
    compile."""
    for name, path in files.items():
        if not path.is_file():
            raise Unusable(f"{name} is missing")
        shutil.copy(path, scratch / name)
    if language.folder == "python":
        return [sys.executable, str(scratch / "host.py")]
    compiler = shutil.which(os.environ.get("CC", "cc"))
    if compiler is None:
        raise Unusable("no C compiler found: install gcc, or set CC")
    words = [compiler, "-std=c99", "-O1", "-w", *sorted(str(scratch / it) for it in files if it.endswith(".c"))]
    done = subprocess.run([*words, "-o", scratch / "stack"], capture_output=True, text=True, check=False)
    if done.returncode:
        first = next((it for it in done.stderr.splitlines() if "error" in it), "the linker fails")
        raise Unusable(f"it doesn't compile: {first.replace(f'{scratch}/', '')}")
    return [str(scratch / "stack")]


def outcomes(step: Step, files: Dict[str, pathlib.Path], language: Language, every: Sequence[Case]) -> List[Outcome]:
    """The result of each test of a step for a stack of these files."""
    with tempfile.TemporaryDirectory() as name:
        try:
            command = command_of(files, language, pathlib.Path(name))
            return [Outcome(test, why) for test, why in zip(step.tests, failures(step, command, every))]
        except (Unusable, Fault) as fault:
            return [Outcome(test, str(fault)) for test in step.tests]


def failures(step: Step, command: Sequence[str], every: Sequence[Case]) -> Iterator[str]:
    """For each test of a step why it fails, or nothing."""
    chosen = {it.name: it for test in step.tests for it in test.cases(every)}
    limit = Limit(MOST_HANGS, waits_are_real=False, only_hangs=True)
    judged: Judged = asked(command, chosen.values(), os.cpu_count() or 1, TIMEOUT_S, False, limit)
    judge_answers(judged, limit)
    played = {it.name for it in judged.cases}
    for test in step.tests:
        names = [it.name for it in test.cases(every) if it.name in played]
        found = [it for it in judged.deviations if it.case.name in names]
        first = min(found, key=lambda it: it.case.size, default=None)
        if first is not None:
            steps = "; ".join(steps_of(first.case, first.breach.step))
            yield f"seen: {first.breach.what}. Case {first.case.name}, {first.case.title}: {steps}"
        else:
            yield "" if len(names) == len(test.cases(every)) else f"not all cases were played: {limit.why}"


def files_of(folder: pathlib.Path, language: Language, solution: Optional[Step] = None) -> Dict[str, pathlib.Path]:
    """The files of a stack: all from a student's folder, or only one step and the others from the clean solution."""
    handout = LAB / "handout" / language.folder
    around = folder if solution is None else handout
    found = {name: around / name for name in language.others}
    if language.folder == "c":
        found["kit.h"] = folder / "kit.h" if solution is None else PACKAGE / "templates/kit.h"
    for step in STEPS:
        name = f"step{step.number}{language.end}"
        own = solution is None or solution.number == step.number
        found[name] = folder / name if own else LAB / "solution" / language.folder / name
    return found


def told(step: Step, results: Sequence[Outcome]) -> List[str]:
    """A step's result in words."""
    lines = [f"step {step.number}, {step.title}: {sum(it.points for it in results)} of {step.points}"]
    lines += [f"  {it.test.points} lost: {it.test.message}\n    {it.why}" for it in results if it.why]
    return lines


def check(words: argparse.Namespace) -> int:
    use_own_kit()
    language, every, lost = language_of(words.folder), cases.make(1, cases.MIXES), 0
    for step in STEPS:
        if words.step in (None, step.number):
            results = outcomes(step, files_of(words.folder, language), language, every)
            print("\n".join(told(step, results)), flush=True)
            lost += step.points - sum(it.points for it in results)
    return FAILS if lost else OK


def grade(words: argparse.Namespace) -> int:
    if not (LAB / "solution").is_dir():
        raise Unusable(f"grading needs the clean solution, which {JUDGE} lacks: use an installed bsdudp-conform")
    use_own_kit()
    if not words.folder.is_dir():
        raise Unusable(f"{words.folder} isn't a folder")
    students = sorted(it for it in words.folder.iterdir() if it.is_dir())
    every = cases.make(words.seed, cases.MIXES)
    if words.feedback:
        pathlib.Path(words.feedback).mkdir(parents=True, exist_ok=True)
    table = csv.writer(sys.stdout, lineterminator="\n")
    table.writerow(["student", *(f"step {it.number}" for it in STEPS), "total", "lost"])
    for student in students:
        results = graded(student, every)
        points = [sum(it.points for it in of_step) for of_step in results]
        lost = [f"{it.test.points}: {it.test.message}" for of_step in results for it in of_step if it.why]
        table.writerow([student.name, *points, sum(points), " | ".join(lost)])
        sys.stdout.flush()
        if words.feedback:
            lines = [line for step, of_step in zip(STEPS, results) for line in told(step, of_step)]
            lines.append(f"total: {sum(points)} of {sum(it.points for it in STEPS)}\n")
            pathlib.Path(words.feedback, f"{student.name}.txt").write_text("\n".join(lines), encoding="utf-8")
    return OK


def graded(student: pathlib.Path, every: Sequence[Case]) -> List[List[Outcome]]:
    """A student's results: each step with the clean solution's other steps, so that a fault costs points once."""
    try:
        language = language_of(student)
    except Unusable as fault:
        return [[Outcome(test, str(fault)) for test in step.tests] for step in STEPS]
    return [outcomes(step, files_of(student, language, step), language, every) for step in STEPS]


def use_own_kit() -> None:
    """A stack in Python finds this package's kit."""
    paths = [str(PACKAGE.parent), *filter(None, [os.environ.get("PYTHONPATH")])]
    os.environ["PYTHONPATH"] = os.pathsep.join(paths)
