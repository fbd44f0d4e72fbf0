"""The lists of counters, causes, errors, commands and settings, and the callers of READMEs, are those that tools/lists
writes. It finds each list that isn't."""
import importlib.machinery
import importlib.util
import subprocess

import pytest

from tests.cases import TOP

LOADER = importlib.machinery.SourceFileLoader("lists", str(TOP / "tools/lists"))
lists = importlib.util.module_from_spec(importlib.util.spec_from_loader("lists", LOADER))
LOADER.exec_module(lists)
BLOCKS = lists.blocks()


def test_each_list_is_fresh():
    done = subprocess.run([TOP / "tools/lists"], capture_output=True, text=True, check=False)
    if done.returncode or done.stdout:
        pytest.fail(done.stdout + done.stderr, pytrace=False)


@pytest.mark.parametrize("block", BLOCKS, ids=[f"{at} {block.path}" for at, block in enumerate(BLOCKS)])
def test_a_stale_list_is_seen(block):
    """A list that lacks its last line, or has another number, is written again."""
    text = (TOP / block.path).read_text(encoding="utf-8")
    begin, end = lists.place_of(block, text)
    lines = text[begin:end].splitlines(keepends=True)
    stale = text[:begin] + ("".join(lines[:-1]) or "0") + text[end:]
    assert lists.written(block, text) == text != stale
    assert lists.written(block, stale) != stale
