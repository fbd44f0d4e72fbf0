"""A program that was compiled with the last release's header, over the library of today, and the interface that abidw
wrote of the last release, compared with today's: docs/abi.md. After a release, with a library that was compiled by
CFLAGS=-g, in the folder capi:

    abidw --headers-dir include --drop-private-types --no-show-locs --no-corpus-path --no-comp-dir-path --no-elf-needed \
        --no-write-default-sizes --no-parameter-names --drop-undefined-syms libbsdudp.so.0 > tests/released/libbsdudp.abi
"""
import re
import shutil
import subprocess

import pytest

from tests.capi.conftest import CC, SOURCES
from tests.cases import TOP
from tests.docs.pages import read

pytestmark = pytest.mark.needs("cc")
# The headers: the last release's without its comments, and the present one.
OLD, NEW = "tests/released", "include"
PLAIN = ["-std=c99", "-Wall", "-Wextra", "-Werror", "-pedantic"]


@pytest.fixture(params=["shared", "static"])
def program(request, library, compiled):
    """program(HEADER) compiles capi/tests/abi.c with a header, and links it with the library of today."""
    linked = [library.archive]
    if request.param == "shared":
        linked = [library.folder / "libbsdudp.so.0", f"-Wl,-rpath,{library.folder}"]

    def of(header, clusters=16):
        name = f"abi-{header.replace('/', '-')}"
        return compiled(name, CC, *PLAIN, f"-DCLUSTERS={clusters}", f"-I{header}", "tests/abi.c", *linked)

    return of


@pytest.mark.parametrize("clusters", [16, 23])
def test_an_old_program_runs(clusters, program, runs):
    """Each call works, in memory of the old size, and the library writes to no byte beyond the old structs. With 23
    clusters that size wasn't a multiple of 16."""
    runs(program(OLD, clusters))


def test_sizes_and_numbers_are_the_same(program):
    said = [subprocess.run([program(it), "sizes"], capture_output=True, text=True, check=True) for it in (OLD, NEW)]
    old, new = (it.stdout for it in said)
    assert old == new and len(old.splitlines()) > 35


def test_each_old_call_is_tried():
    calls = set(re.findall(r"\b(bsdudp_\w+)\(", read(f"capi/{OLD}/bsdudp.h")))
    tried = read("capi/tests/abi.c")
    assert calls and [it for it in calls if f"{it}(" not in tried] == []


def different(include, folder):
    """Returns what abidiff says of the last release's interface and of the library that these headers make: its status,
    and its text without counts. Calls that are new are no difference."""
    code = "".join(it.read_text(encoding="utf-8") for it in include.glob("*.h"))
    calls = "; ".join(re.findall(r"(?m)^[a-z].*[ *](bsdudp_[a-z_]*)\(", code))
    (folder / "exports.map").write_text(f"{{ global: {calls}; local: *; }};", encoding="utf-8")
    words = ["-std=c99", "-g", "-fPIC", "-shared", "-w", f"-I{include}", "-Wl,-soname,libbsdudp.so.0"]
    made = [f"-Wl,--version-script={folder / 'exports.map'}", "-o", folder / "libbsdudp.so"]
    subprocess.run([CC, *words, *SOURCES, *made], check=True)
    words = ["abidiff", "--no-added-syms", TOP / "capi/tests/released/libbsdudp.abi", folder / "libbsdudp.so"]
    said = subprocess.run(words, capture_output=True, text=True, check=False)
    return said.returncode, re.sub(r"(?m)^(Functions|Variables) changes summary:.*\n", "", said.stdout).strip()


@pytest.mark.needs("cc", "abidiff", "x86-64")
def test_the_interface_is_that_of_the_last_release(tmp_path):
    assert different(TOP / "capi/include", tmp_path) == (0, "")


@pytest.mark.needs("cc", "abidiff", "x86-64")
@pytest.mark.parametrize(
    "old, new, seen",
    [
        ("    uint32_t ip;\n", "    uint32_t ip, more;\n", "struct bsdudp_addr"),
        ("int bsdudp_close(struct bsdudp *stack, uint32_t fd);\n", "", "bsdudp_close"),
    ],
    ids=["a member", "a call that is gone"],
)
def test_a_change_of_the_interface_is_seen(old, new, seen, tmp_path):
    include = shutil.copytree(TOP / "capi/include", tmp_path / "include")
    text = (include / "bsdudp.h").read_text(encoding="utf-8")
    assert text.count(old) == 1
    (include / "bsdudp.h").write_text(text.replace(old, new), encoding="utf-8")
    status, said = different(include, tmp_path)
    assert status & 4 and seen in said
