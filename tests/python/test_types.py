"""A type checker's result for the package and the judge, and for right and wrong calls of the package (typed.py)."""
import subprocess

import pytest

from tests.cases import TOP


@pytest.fixture
def package():
    """This test doesn't load the package, so it needs no library."""


@pytest.mark.slow
@pytest.mark.needs("mypy")
def test_types(tmp_path):
    words = ["mypy", "--config-file", "python/pyproject.toml", "--cache-dir", tmp_path, "python/bsdudp"]
    words += ["tests/python/typed.py", "conform/bsdudp_conform"]
    done = subprocess.run(words, cwd=TOP, capture_output=True, text=True, check=False)
    assert done.returncode == 0, (done.stdout + done.stderr).strip()[-2000:]
