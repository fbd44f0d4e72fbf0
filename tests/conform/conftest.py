"""Runs the judge of other stacks as a command."""
import os
import subprocess
import sys

import pytest

from tests.capi.conftest import library  # noqa: F401 (a fixture)
from tests.cases import TOP

PATHS = f"{TOP / 'conform'}:{TOP / 'python'}"


@pytest.fixture
def conform():
    """Runs a command at the top of the repository, which has the packages. Returns its status and its output."""

    def run(*words, **environment):
        environment = {**os.environ, "PYTHONPATH": PATHS, "PYTHONDONTWRITEBYTECODE": "1", **environment}
        done = subprocess.run(
            [*map(str, words)], cwd=TOP, env=environment, capture_output=True, text=True, check=False, timeout=3000
        )
        return done.returncode, done.stdout + done.stderr

    return run


@pytest.fixture
def judged(conform):
    """judged(ARGUMENT OF bsdudp-conform run ..) judges a stack."""
    return lambda *words, **environment: conform(
        sys.executable, "-m", "bsdudp_conform", "run", "--quiet", "--no-policy", *words, **environment
    )
