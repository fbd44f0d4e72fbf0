"""The gate's last line (.ci/sum): what it counts as passed, failed and skipped."""
import subprocess
from typing import NamedTuple

import pytest

from tests.cases import TOP

PASS = '<testcase name="it"/>'
FAIL = '<testcase name="it"><failure message="no"/></testcase>'
ERROR = '<testcase name="it"><error message="no"/></testcase>'
SKIP = '<testcase name="it"><skipped message="there is no tshark"/></testcase>'
# Lines of `rt ci`, which counts each of these mutants as passed.
REFUSED = "rt: must-fail udp/a.edit: refused, as it must be: src/lib.rt:1:1: error: it's wrong\n"
BY_NAME = (
    "rt: must-fail udp/b.edit: refused, as it must be (only because a proof file names what the edit took away, so this"
    " says little of the contract: change a value and keep the names): proofs/a.antt:1:1: error\n"
)
BY_LIMIT = (
    "rt: must-fail udp/c.edit: refused, as it must be (only by a limit of the prover, which gave no verdict, so this"
    " says less of the contract: choose a change that it refuses sooner): src/a.rt:1:1: error: it ran out\n"
)
# And this one neither as passed nor as failed.
BAD = "rt: must-fail udp/d.edit: BAD EDIT: the prover cannot read the edited text, so no contract was tried: src/a.rt\n"


class Row(NamedTuple):
    name: str
    last: str
    status: int
    line: str = "3 passed, 0 failed\n"
    reports: tuple = (PASS,)
    before: tuple = ()


SKIPPED = "skipped (1): there is no tshark"
EMPTY = "failed: 1.xml has no test"
ROWS = [
    Row("all_pass", "6 passed, 0 failed, 0 skipped", 0, reports=(PASS + PASS, PASS)),
    Row("skips", "4 passed, 0 failed, 1 skipped", 0, reports=(PASS, SKIP), before=(SKIPPED,)),
    Row("a_failed_test", "4 passed, 1 failed, 0 skipped", 1, reports=(PASS, FAIL)),
    Row("an_error", "4 passed, 1 failed, 0 skipped", 1, reports=(PASS, ERROR)),
    Row("a_report_is_missing", "4 passed, 1 failed, 0 skipped", 1, reports=(PASS, None), before=(EMPTY,)),
    Row("a_report_is_cut_off", "4 passed, 1 failed, 0 skipped", 1, reports=(PASS, PASS + "<"), before=(EMPTY,)),
    Row("a_report_is_empty", "4 passed, 1 failed, 0 skipped", 1, reports=(PASS, ""), before=(EMPTY,)),
    Row("a_failed_crate", "3 passed, 1 failed, 0 skipped", 1, line="2 passed, 1 failed\n"),
    Row("a_mutant", "4 passed, 0 failed, 0 skipped", 0, line=REFUSED + "3 passed, 0 failed\n"),
    Row(
        "mutants_by_a_name",
        "2 passed, 2 failed, 0 skipped",
        1,
        line=BY_NAME + REFUSED + BY_NAME + "3 passed, 0 failed\n",
        before=(f"failed: {BY_NAME.rstrip()}",) * 2,
    ),
    Row(
        "a_mutant_by_a_limit_and_a_bad_one",
        "3 passed, 2 failed, 0 skipped",
        1,
        line=BY_LIMIT + REFUSED + BAD + "3 passed, 0 failed\n",
        before=(f"failed: {BY_LIMIT.rstrip()}", f"failed: {BAD.rstrip()}"),
    ),
]


@pytest.mark.parametrize("row", ROWS, ids=[it.name for it in ROWS])
def test_last_line(row, tmp_path):
    (tmp_path / "ci").write_text(row.line, encoding="utf-8")
    reports = [f"{number}.xml" for number in range(len(row.reports))]
    for report, cases in zip(reports, row.reports):
        if cases is not None:
            (tmp_path / report).write_text(f"<testsuites>{cases}</testsuites>", encoding="utf-8")
    words = [TOP / ".ci/sum", "ci", *reports]
    done = subprocess.run(words, cwd=tmp_path, capture_output=True, text=True, check=False)
    assert done.stdout.splitlines() == [*row.before, row.last]
    assert (done.returncode, done.stderr) == (row.status, "")


@pytest.mark.parametrize("text", ["", "rt: NOT PROVED\n", "3 passed, 0 failed\nkilled\n"])
def test_no_last_line(text, tmp_path):
    """If `rt ci` ended before its last line, there is no sum."""
    (tmp_path / "ci").write_text(text, encoding="utf-8")
    done = subprocess.run([TOP / ".ci/sum", "ci", "1.xml"], cwd=tmp_path, capture_output=True, text=True, check=False)
    assert (done.returncode, done.stdout) == (2, "") and "doesn't end with a line 'N passed, N failed'" in done.stderr
