"""The grader of a course: the clean solutions have all points, the empty skeleton has none, each planted fault of a
student loses points in its step, and the commands of docs/lab.md do what the page says."""
import csv
import functools
import io
import shutil
import subprocess
import sys
import zipfile

import pytest

from bsdudp_conform import _lab, cases
from bsdudp_conform._lab_steps import STEPS
from tests.conform.lab_faults import FAULTS

pytestmark = [pytest.mark.slow, pytest.mark.needs("cc")]
LANGUAGES = {it.folder: it for it in _lab.LANGUAGES}
STUDENTS_OWN = {"judge.pyz", "kit.h", "host.c", "lab.h", *(f"step{number}.c" for number in range(1, 7))}


@functools.lru_cache(maxsize=None)
def every():
    return cases.make(1, cases.MIXES)


@pytest.fixture(autouse=True)
def kit(monkeypatch):
    monkeypatch.setenv("PYTHONPATH", str(_lab.PACKAGE.parent))
    monkeypatch.setattr(_lab, "TIMEOUT_S", 60.0)  # a busy computer isn't a student's fault


def lost(step, language, folder):
    """Returns the messages of the tests that a step fails, if the others are the clean solution's."""
    found = _lab.outcomes(step, _lab.files_of(folder, LANGUAGES[language], step), LANGUAGES[language], every())
    return [f"{it.test.message}: {it.why}" for it in found if it.why]


def test_the_steps_have_100_points():
    assert sum(it.points for it in STEPS) == 100


# Without --planted, a part is tried: the C solution is judged in all cases by test_clean_stack.py.
ALL = pytest.mark.planted
FEW = 4


@pytest.mark.parametrize("language", [pytest.param("c", marks=ALL), "python"])
@pytest.mark.parametrize("step", STEPS, ids=[it.title for it in STEPS])
def test_the_clean_solution_loses_nothing(step, language):
    assert not lost(step, language, _lab.LAB / "solution" / language)


@pytest.mark.parametrize("language", ["c", pytest.param("python", marks=ALL)])
@pytest.mark.parametrize("step", STEPS, ids=[it.title for it in STEPS])
def test_the_empty_skeleton_loses_everything(step, language):
    assert len(lost(step, language, _lab.LAB / "handout" / language)) == len(step.tests)


@pytest.mark.parametrize(
    "fault",
    [pytest.param(it, marks=ALL if at % FEW else (), id=f"{it.step} {it.name}") for at, it in enumerate(FAULTS)],
)
def test_a_fault_loses_points_in_its_step(fault, tmp_path):
    name = f"step{fault.step}{LANGUAGES[fault.language].end}"
    text = (_lab.LAB / "solution" / fault.language / name).read_text(encoding="utf-8")
    assert text.count(fault.old) == 1, f"{fault.old!r} isn't in one place of {name}"
    (tmp_path / name).write_text(text.replace(fault.old, fault.new), encoding="utf-8")
    step = STEPS[fault.step - 1]
    messages = lost(step, fault.language, tmp_path)
    assert messages and len(messages) < len(step.tests) + (fault.step in (2, 4)), messages
    assert not any("compile" in it for it in messages), messages


def test_the_page(conform, tmp_path):
    """What docs/lab.md does: hand out, check, and grade."""
    command = [sys.executable, "-m", "bsdudp_conform"]
    handout, ann, ben = tmp_path / "handout", tmp_path / "class/ann", tmp_path / "class/ben"
    assert conform(*command, "lab", "start", handout)[0] == 0
    assert {it.name for it in handout.iterdir()} == STUDENTS_OWN
    with zipfile.ZipFile(handout / "judge.pyz") as file:
        assert not [it for it in file.namelist() if "lab/" in it]
    shutil.copytree(handout, ann)
    shutil.copytree(_lab.LAB / "solution/c", ben)
    shutil.copy(ben / "step1.c", ann)
    text = (ann / "step1.c").read_text(encoding="utf-8")
    (ann / "step1.c").write_text(text.replace(".data = packet + size", ".data = packet + 20"), encoding="utf-8")
    words = [sys.executable, "judge.pyz", "lab", "check", "--step", "1", "."]
    done = subprocess.run(words, cwd=ann, capture_output=True, text=True, check=False, env={"PATH": "/usr/bin:/bin"})
    assert done.returncode == 1 and "  2 lost: options are skipped\n" in done.stdout, done.stdout + done.stderr
    assert "no such" not in done.stderr
    (ben / "step6.c").write_text("int nothing;\nthis isn't C\n", encoding="utf-8")
    status, said = conform(*command, "lab", "grade", "--feedback", tmp_path / "feedback", tmp_path / "class")
    rows = list(csv.DictReader(io.StringIO(said)))
    assert status == 0 and [it["student"] for it in rows] == ["ann", "ben"]
    assert [int(rows[1][f"step {it.number}"]) for it in STEPS] == [15, 15, 20, 15, 15, 0]
    assert int(rows[1]["total"]) == 80 and "options are skipped" in rows[0]["lost"]
    assert "it doesn't compile: step6.c:2" in (tmp_path / "feedback/ben.txt").read_text(encoding="utf-8")


def test_the_students_judge_cannot_grade(conform, tmp_path):
    conform(sys.executable, "-m", "bsdudp_conform", "lab", "start", "--python", tmp_path)
    words = [sys.executable, tmp_path / "judge.pyz", "lab", "grade", tmp_path]
    done = subprocess.run(words, capture_output=True, text=True, check=False)
    assert done.returncode == 2 and "the clean solution" in done.stderr and "Traceback" not in done.stderr
