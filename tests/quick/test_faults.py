"""Faults that the quick tests see without a proof: one in each file of C, some in Python and in crates of the stack.
The table `faults` has the form of a crate's `mutants`, with paths from the top. A name begins with the word that
selects tests which see the fault: `make test K=WORD`.

Only with --planted: each is planted in a copy of the repository, and a quick test must fail there. A fault in a crate
needs minutes, because the programs are compiled again."""
import re
import shutil
import subprocess

import pytest

from tests.cases import TOP
from tools import edits, tried

# The programs and the library that are compiled without a proof, and the modules from which the library is made.
KEPT = [tried.KEPT, TOP / "portable/out/unproved"]
FAULTS = edits.table_of(TOP / "tests/quick/faults")
FAILED = re.compile(r"(?m)^\d+ passed, [1-9]\d* failed, ")
C = {f"capi/src/{it.name}" for it in TOP.glob("capi/src/*.c")}


def planted(name):
    """Returns the text of each file that a fault changes."""
    pairs = edits.pairs_in(FAULTS[name])
    texts = {it.file: (TOP / it.file).read_text(encoding="utf-8") for it in pairs}
    return edits.applied(pairs, TOP, texts)


def test_faults_apply():
    changed = {path for name in FAULTS for path in planted(name)}
    assert len(FAULTS) == 20 and C <= changed, C - changed


@pytest.mark.planted
@pytest.mark.slow
@pytest.mark.needs("rt", "cc")
@pytest.mark.parametrize("name", FAULTS)
def test_quick_tests_see_it(name, tmp_path):
    edits.copy_files(tmp_path)
    texts = planted(name)
    for path, text in texts.items():
        (tmp_path / path).write_text(text, encoding="utf-8")
    if not any(path.startswith("crates/") for path in texts):
        tried.program("bsdudp")
        tried.library()
        for folder in KEPT:
            shutil.copytree(folder, tmp_path / folder.relative_to(TOP))
    words = [tmp_path / ".ci/quick", "-x", "-k", name.partition(".")[0]]
    done = subprocess.run(words, capture_output=True, text=True, check=False)
    assert FAILED.search(done.stdout), (done.stdout + done.stderr)[-2000:]
