"""tools/goldens writes no golden output of a run in which an expected reply didn't come."""
import importlib.machinery
import importlib.util
import sys

import pytest

from tests import goldens
from tests.cases import TOP

TRANSCRIPT = "$ bsdplay examples/play/shown.txt\n{}\n$ bsdplay --json advice.txt => status 1\n{}\n"


@pytest.fixture
def tool(monkeypatch, tmp_path):
    """tool(STATUS, WORDS ..) runs the script over a transcript of two command lines, for a program that prints "new"
    for both and ends with STATUS for the first. It returns its own status and the transcript."""
    loader = importlib.machinery.SourceFileLoader("goldens_tool", str(TOP / "tools/goldens"))
    module = importlib.util.module_from_spec(importlib.util.spec_from_loader("goldens_tool", loader))
    monkeypatch.setattr(sys, "dont_write_bytecode", True)
    loader.exec_module(module)
    scripts, options = tmp_path / "scripts", tmp_path / "options"
    scripts.write_bytes(b"")
    options.write_text(TRANSCRIPT.format("old", "old"), encoding="utf-8")
    for name, value in {"TOP": tmp_path, "SCRIPTS": scripts, "OPTIONS": options, "scripts": lambda: []}.items():
        monkeypatch.setattr(goldens, name, value)

    def run(status, *words):
        def played(_, golden):
            return goldens.Output(b"new\n", status if golden.name == "shown.txt" else golden.status)

        monkeypatch.setattr(goldens, "played", played)
        monkeypatch.setattr(sys, "argv", ["tools/goldens", "--program", "bsdplay", *words])
        return module.main(), options.read_text(encoding="utf-8")

    return run


def test_a_new_output_is_written(tool, capsys):
    assert tool(0) == (0, TRANSCRIPT.format("new", "new"))
    assert capsys.readouterr().out.endswith("2 of 2 golden outputs differ, 2 written\n")


def test_others_stay(tool):
    assert tool(0, "json") == (0, TRANSCRIPT.format("old", "new"))


def test_an_unmet_expectation_is_refused(tool, capsys):
    assert tool(1) == (1, TRANSCRIPT.format("old", "new"))
    said = capsys.readouterr().out
    assert "shown.txt: status 1, wanted 0: an expected reply didn't come" in said
    assert "2 of 2 golden outputs differ, 1 written\n" in said


def test_check_writes_nothing(tool):
    assert tool(0, "--check") == (1, TRANSCRIPT.format("old", "old"))
