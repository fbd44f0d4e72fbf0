"""The library that BSDUDP_CHECK=1 capi/build makes: it stops at each mistake with a sentence, and at nothing else."""
import subprocess

import pytest

from tests.capi.conftest import library_in
from tests.cases import TOP

pytestmark = pytest.mark.needs("cc")
NO_STACK = "the handle holds no stack: it was never booted, or was ended"
COPY = "the handle wasn't set to BSDUDP_NONE before its first boot, or is a copy of another handle"
SENTENCES = {
    "never_booted": f"bsdudp_tick: {NO_STACK}",
    "garbage": f"bsdudp_boot: {COPY}",
    "copy": f"bsdudp_socket: {COPY}",
    "ended": f"bsdudp_socket: {NO_STACK}",
    "copy_of_ended": f"bsdudp_socket: {COPY}",
    "changed": "bsdudp_end: the handle was changed since the last call",
    "no_handle": "bsdudp_socket: the handle is NULL",
    "in_signal_handler": "bsdudp_tick: called within another call",
    "two_threads": "bsdudp_sendto: one call at a time on a stack, but another thread is in bsdudp_sendto",
}


@pytest.fixture(scope="session")
def checked(c_core, once):
    return library_in("capi-checked", c_core, once, BSDUDP_CHECK="1")


@pytest.fixture(scope="session")
def program(checked, once):
    def make(folder):
        words = checked.threads("tests/checked.c")
        subprocess.run([*words, "-o", folder / "checked"], cwd=TOP / "capi", check=True)

    return once("checked", make) / "checked"


def run(*words):
    return subprocess.run([*map(str, words)], capture_output=True, text=True, timeout=120, check=False)


@pytest.mark.parametrize("mistake", SENTENCES)
def test_stops(mistake, program):
    done = run(program, mistake)
    assert done.returncode < 0 and done.stderr.startswith(SENTENCES[mistake]) and done.stderr.count("\n") == 1


def test_each_mistake_is_tried():
    code = (TOP / "capi/tests/checked.c").read_text(encoding="utf-8")
    assert all(f'{{"{it}", {it}}}' in code for it in [*SENTENCES, "nothing"])


def test_stops_at_nothing_else(program):
    done = run(program, "nothing")
    assert (done.returncode, done.stdout, done.stderr) == (0, "right\n", "")


@pytest.mark.parametrize("name", ["mark", "ring", "isolation"])
def test_programs_of_tests(name, checked, compiled):
    done = run(compiled(name, *checked.threads("-Iexamples", f"tests/{name}.c")))
    assert (done.returncode, done.stderr) == (0, "")
