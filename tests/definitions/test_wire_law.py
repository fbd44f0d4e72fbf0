"""The law of two machines on a wire doesn't hold with a wrong definition of the machine: those in
flat_model/wrong-definitions. Each is planted in one crate of flat_model and flat_wire (joined.py), where the prover is
asked for that law alone."""
import re
import shutil
import subprocess

import pytest

from tests.cases import TOP
from tests.definitions import joined
from tools import edits

WRONG = edits.edits_of(TOP / "crates" / joined.NAME, edits.DEFINITIONS)
# The lemmas that the prover couldn't prove, and on which the law stands.
OPEN = re.compile(rf"(?m)^fn {joined.LAW}: not proved; it stands on (.*)")


@pytest.fixture
def checked(tmp_path):
    """checked(TEXTS) returns what `rt check` prints about the law, with these texts instead of the joined crate's."""
    shutil.copytree(TOP / "crates/params", tmp_path / "crates/params")
    crate = tmp_path / "crates" / joined.NAME
    joined.make(TOP / "crates", crate)
    uses = re.search(rf"(?m)^{joined.NAME}:.*\n", (TOP / "crates.txt").read_text(encoding="utf-8"))
    (tmp_path / "crates.txt").write_text(f"params:\n{uses[0]}", encoding="utf-8")

    def check(edit=None):
        for path, text in edits.applied(edits.pairs_in(edit), crate).items() if edit else ():
            (crate / path).write_text(text, encoding="utf-8")
        words = ["rt", "check", "--jobs", "1", "--allow-holes", "--only", joined.LAW]
        done = subprocess.run(words, cwd=crate, capture_output=True, text=True, check=False)
        return done.returncode, done.stdout + done.stderr

    return check


@pytest.mark.slow
@pytest.mark.needs("rt")
def test_the_law_is_proved(checked):
    status, said = checked()
    assert status == 0 and not OPEN.search(said), said[-2000:]


@pytest.mark.slow
@pytest.mark.needs("rt")
@pytest.mark.parametrize("edit", WRONG.values(), ids=WRONG.keys())
def test_a_wrong_definition_is_rejected(checked, edit):
    """The law isn't proved, and only for what the wrong definition breaks: the fields of a key, or a send."""
    status, said = checked(edit)
    broken = re.findall(r"`([^`]+)`", "".join(OPEN.findall(said)))
    assert status == 1 and broken and all(map(joined.LEMMAS.fullmatch, broken)), said[-2000:]
