"""bsdudp_portable.c, the library as one C99 file. Two builds are identical. It compiles in an empty folder, calls four
functions of the C library, and has no variable. Every call, its checks of accesses, the examples and random scripts
are tested with sanitizers, with another compiler, on 32-bit hosts, and on a big-endian host, and the calls as programs
of Windows, by Wine."""
import os
import re
import shutil
import subprocess
import tempfile
from typing import NamedTuple

import pytest

from tests.boards.conftest import C99, CC, DRIVER, SANITIZED
from tests.cases import TOP
from tests.made import made

pytestmark = [pytest.mark.slow, pytest.mark.needs("rt", "wasm-opt", "wasm2c", "cc")]
ASKED = set("memcpy memmove memset memcmp _GLOBAL_OFFSET_TABLE_".split())
PROGRAMS = {it: f"tests/{it}.c" for it in ("calls", "ether", "rehost", "mark", "fates")}
PROGRAMS |= {it: f"examples/{it}.c" for it in ("first", "wire")}
WINE = ["env", "WINEDEBUG=-all", f"WINEPREFIX={tempfile.gettempdir()}/wine-{os.getuid()}", "/usr/lib/wine/wine64"]


class Build(NamedTuple):
    """How the file and a program that uses it are compiled and run, and how many random scripts are played."""

    compiler: list
    of_file: list = []
    of_both: list = []
    runs_by: list = []
    scripts: int = 200


BUILDS = {
    "tested": (Build([CC], ["-O1"], SANITIZED, scripts=2000), ["asan"]),
    "untested": (Build([CC], ["-O0", "-DBSDUDP_TESTS=0"], SANITIZED), ["asan"]),
    "clang": (Build(["clang"], ["-O1"], SANITIZED), ["clang"]),
    "m32": (Build([CC, "-m32"], ["-O1"]), ["cc -m32"]),
    "s390x": (
        Build(["s390x-linux-gnu-gcc", "-static"], ["-O1"], [], ["qemu-s390x"], 50), ["s390x-linux-gnu", "qemu-user"],
    ),
    "windows": (Build(["x86_64-w64-mingw32-gcc", "-static"], ["-O1"], runs_by=WINE), ["wine64"]),
}  # fmt: skip


def row(of, *more):
    """Returns a row of a test's table. One worker has all rows of a build: others would wait until it's compiled."""
    return pytest.param(of, *more, marks=[pytest.mark.needs(*BUILDS[of][1]), pytest.mark.xdist_group(f"portable-{of}")])


@pytest.fixture
def builds(portable_c, compiled, once):
    """builds(BUILD, NAME, COMPILER'S ARGUMENTS ..) compiles a program with the file, and returns the command that runs
    it. Compiling the file takes half a minute, so each build compiles it once."""

    def build(of, name, *sources):
        how, _ = BUILDS[of]
        words = [*how.compiler, *C99, f"-I{portable_c.parent}", *how.of_both]
        folder = once(
            f"portable-{of}", lambda scratch: made(*words, *how.of_file, "-c", portable_c, "-o", scratch / "portable.o")
        )
        return [*how.runs_by, compiled(f"{name}.exe", *words, *sources, folder / "portable.o")]

    return build


def test_two_are_the_same(portable_c, tmp_path):
    made("portable/build", tmp_path)
    assert (tmp_path / portable_c.name).read_bytes() == portable_c.read_bytes()


def test_compiles_in_an_empty_folder(portable_c, tmp_path):
    for it in (portable_c, portable_c.with_name("bsdudp.h")):
        shutil.copy(it, tmp_path)
    words = [CC, "-std=c99", "-Wall", "-Werror", "-c", portable_c.name]
    done = subprocess.run(words, cwd=tmp_path, capture_output=True, text=True, check=False)
    assert done.returncode == 0 and not done.stderr, done.stderr[:2000]


@pytest.fixture
def symbols(portable_c, compiled, once):
    """The symbols of the file compiled for a board, as nm prints them: a letter and a name."""
    how = ["-std=c99", "-O2", "-ffreestanding", "-fno-stack-protector", "-DBSDUDP_MALLOC=0"]
    folder = once(
        "portable-board", lambda scratch: shutil.copy(compiled("portable.o", CC, *how, "-c", portable_c), scratch)
    )
    said = subprocess.run(["nm", folder / "portable.o"], capture_output=True, text=True, check=True).stdout
    return [it.split()[-2:] for it in said.splitlines()]


@pytest.mark.xdist_group("portable-board")
@pytest.mark.needs("objdump")
def test_asks_for_four_functions(symbols):
    assert {name for kind, name in symbols if kind == "U"} <= ASKED


@pytest.mark.xdist_group("portable-board")
@pytest.mark.needs("objdump")
def test_no_variable(symbols):
    assert not [name for kind, name in symbols if kind in "bBcC"]


@pytest.mark.xdist_group("portable-board")
@pytest.mark.needs("objdump")
def test_shows_what_the_header_has(symbols):
    header = (TOP / "capi/include/bsdudp.h").read_text(encoding="utf-8")
    declared = set(re.findall(r"(?m)^[a-z].*[ *](bsdudp_[a-z_]*)\(", header)) - {"bsdudp_boot", "bsdudp_ether_boot"}
    assert {name for kind, name in symbols if kind.isupper() and kind != "U"} == declared


@pytest.mark.parametrize(
    "of, name",
    [row("tested", "calls"), row("tested", "ether"), row("tested", "rehost"), row("tested", "mark"),
     row("tested", "wire"), row("untested", "calls"), row("untested", "ether"), row("untested", "rehost"),
     *(row("windows", it) for it in ("first", "wire", "calls", "ether", "rehost", "mark", "fates"))],
)  # fmt: skip
def test_calls(of, name, builds, runs):
    runs(*builds(of, name, PROGRAMS[name]))


@pytest.mark.needs("asan")
def test_accesses(portable_c, compiled, runs):
    """Tests the checks of accesses."""
    words = [*C99, f"-I{portable_c.parent}", *SANITIZED, "-O0", TOP / "portable/tests/access.c"]
    runs(compiled("access", CC, *words))


# On Windows a line of standard output ends with \r\n.
@pytest.mark.parametrize("of", [row(it) for it in BUILDS if it != "windows"])
def test_scripts(of, builds, plays):
    plays(builds(of, "driver", "-O1", *DRIVER), BUILDS[of][0].scripts)
