"""libFuzzer over the C library, compiled so that each access to memory is checked: no input makes it fail."""
import os
import subprocess

import pytest

from tests.boards.conftest import STRICT
from tests.cases import TOP

pytestmark = [pytest.mark.slow, pytest.mark.needs("rt", "wasm-opt", "cc", "x86-64", "libfuzzer")]
HOW = ["clang", *STRICT, "-g", "-O1", "-fsanitize=fuzzer,address", TOP / "capi/tests/fuzz.c"]
SECONDS = 20


def fuzzed(program, seconds, folder):
    words = [program, "-seed=1", "-max_len=2048", f"-max_total_time={seconds}"]
    # what it finds is written to the folder
    return subprocess.run(words, cwd=folder, stderr=subprocess.PIPE, check=False, env={**os.environ, "CI": ""})


def test_no_input_fails(core_for, compiled, tmp_path):
    library = core_for("x86_64", "--sanitized") / "libbsdudp.a"
    done = fuzzed(compiled("fuzz", *HOW, library), SECONDS, tmp_path)
    assert done.returncode == 0, done.stderr[-2000:].decode(errors="replace")


def test_a_planted_fault_is_found(core_for, compiled, tmp_path):
    """A library that reads one byte beyond a packet."""
    library = core_for("x86_64", "--sanitized") / "libbsdudp.a"
    source = (TOP / "capi/src/bsdudp.c").read_text(encoding="utf-8")
    right = "bsdudp_core_rx(&s->core, packet, len)"
    assert right in source
    (tmp_path / "planted.c").write_text(source.replace(right, right.replace("len", "len + 1")), encoding="utf-8")
    done = fuzzed(compiled("planted", *HOW, tmp_path / "planted.c", library), SECONDS, tmp_path)
    assert done.returncode != 0 and b"heap-buffer-overflow" in done.stderr
