"""dist/build and dist/deb in a checkout without a built file: they make nothing, and list at once all that is missing,
each with the command that makes it."""
import os
import shutil
import subprocess

import pytest

from tests.cases import TOP
from tests.boards.test_core import TARGETS

BOARDS = [f"portable/out/core/{it}/libbsdudp.a: portable/core {it} portable/out/core/{it}" for it in TARGETS]
FILES = [
    "crates/bsdudp/out/bsdudp: cd crates/bsdudp && rt run",
    "crates/bsdplay/out/bsdplay: cd crates/bsdplay && rt run",
    "crates/libbsdudp/out/liblibbsdudp.a: capi/build",
    "page/out/bsdudp.html: page/build",
    "portable/out/bsdudp_portable.c: portable/build portable/out",
]


@pytest.fixture(scope="module")
def checkout(tmp_path_factory):
    folder = tmp_path_factory.mktemp("checkout")
    for name in ("dist", "tools", "portable", "capi"):
        shutil.copytree(TOP / name, folder / name, ignore=shutil.ignore_patterns("out", "__pycache__"))
    for name in ("crates.txt", "CHANGELOG.md", "LICENSE"):
        shutil.copy(TOP / name, folder / name)
    return folder


def said(checkout, script, *words, **environment):
    """Runs a script that must fail. Returns what it prints on standard error."""
    words = [checkout / script, *words, checkout / "made"]
    environment = {**os.environ, **environment}
    done = subprocess.run(words, capture_output=True, text=True, check=False, env=environment)
    assert done.returncode == 1 and not done.stdout and not (checkout / "made").exists(), done.stderr
    return done.stderr


@pytest.mark.parametrize("script, files", [("dist/build", FILES + BOARDS), ("dist/deb", FILES)])
def test_all_that_is_missing_is_listed(script, files, checkout):
    text = said(checkout, script)
    assert text.startswith(f"{script}: these are missing. `make prove` makes all files")
    assert [it for it in files if f"  {it}" not in text] == []


def test_a_part_is_left_out_only_if_named(checkout):
    text = said(checkout, "dist/build", "--without", "page", "--without", "boards")
    assert "page/build" not in text and "portable/core" not in text
    assert "portable/build portable/out" in text


def test_a_missing_tool_is_listed(checkout):
    assert "  no-such-cc: apt-get install gcc" in said(checkout, "dist/build", CC="no-such-cc")


def test_no_unproved_package(checkout):
    assert "TRIAL" in said(checkout, "dist/deb", TRIAL="1")
