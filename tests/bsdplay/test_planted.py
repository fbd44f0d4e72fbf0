"""Mistakes in sentences that bsdplay prints, which no proof rejects: a golden file shows each. They are in the tables
crates/NAME/wrong-texts.

Only with --planted: each is planted in a copy of the repository, and the bsdplay of that copy is compiled, which
takes a minute or two of processor time."""
import re
import subprocess

import pytest

from tests.cases import TOP
from tools import edits

EDITS = edits.everywhere(edits.TEXTS)
# A golden file that changes: the line that tools/goldens prints before its differences.
CHANGED = re.compile(r"(?m)^\+\+\+ b/")


@pytest.mark.planted
@pytest.mark.slow
@pytest.mark.needs("rt")
@pytest.mark.parametrize("crate, name, edit", EDITS, ids=[name for _, name, _ in EDITS])
def test_a_golden_file_shows_it(crate, name, edit, tmp_path):
    edits.copy_files(tmp_path)
    crate = tmp_path / crate.relative_to(TOP)
    for path, text in edits.applied(edits.pairs_in(edit), crate).items():
        (crate / path).write_text(text, encoding="utf-8")
    done = subprocess.run([tmp_path / "tools/goldens", "--check"], capture_output=True, text=True, check=False)
    assert CHANGED.search(done.stdout), (done.stdout + done.stderr)[-2000:]
