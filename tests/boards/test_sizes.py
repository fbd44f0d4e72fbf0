"""The bytes of flash and memory that the board's programs take: at most those below, and those of docs/memory.md and
docs/device.md. The bytes of the library for each processor: those of docs/memory.md."""
import re
import subprocess

import pytest

from tests.boards.conftest import BOARD
from tests.boards.test_core import TARGETS
from tests.cases import TOP
from tools import llvm

pytestmark = [pytest.mark.slow, pytest.mark.needs("rt", "wasm-opt", "cc", "arm-none-eabi")]
# The most bytes of flash and memory.
MOST = {"echo": (24_200, 52_900), "host": (34_900, 55_100), "light": (37_500, 31_300), "device": (53_500, 56_800)}
FILE = 1 << 20  # the bytes of the device's file "flash"
ALIGNED = 8
# A page's figures may be this share off, so that not each change of the core changes the pages.
NEAR = 0.02


def rows(text):
    """Returns the rows of the tables in a text whose cells are numbers, or nothing, after the first one: by that."""
    found = re.findall(r"(?m)^\| (\S.*?) \|((?: [\d,]* ?\|)+)$", text)
    return {name: [int(it.replace(",", "")) for it in cells.split("|") if it.strip()] for name, cells in found}


@pytest.fixture(scope="session")
def printed(board):
    return rows(llvm.run(BOARD / "sizes", board))


def row_of(printed, name):
    return next(numbers for it, numbers in printed.items() if it.startswith(f"`{name}."))


@pytest.mark.parametrize("name", MOST)
def test_a_program_takes_what_the_linker_says(name, board, printed):
    text, data, bss = map(int, llvm.run("arm-none-eabi-size", board / f"{name}.elf").splitlines()[1].split()[:3])
    flash, _, memory, _ = row_of(printed, name)
    assert abs(text + data - FILE * (name == "device") - flash) <= ALIGNED
    assert abs(data + bss - memory) <= ALIGNED


@pytest.mark.parametrize("name", MOST)
def test_a_program_takes_no_more_than_its_limits(name, printed):
    flash, _, memory, _ = row_of(printed, name)
    assert flash <= MOST[name][0] and memory <= MOST[name][1]


@pytest.mark.parametrize("page", ["docs/memory.md", "docs/device.md"])
def test_a_page_has_the_figures(page, printed):
    told = rows((TOP / page).read_text(encoding="utf-8"))
    both = told.keys() & printed.keys()
    assert len(both) >= len(MOST)
    faults = [
        f"{name}: {was:,} on the page, now {now:,}"
        for name in sorted(both)
        for was, now in zip(told[name], printed[name], strict=True)
        if abs(was - now) > max(NEAR * now, ALIGNED)
    ]
    assert not faults, f"{page}: {faults}; portable/board/sizes prints the table"


def test_a_folder_without_a_library_is_named_at_once(tmp_path):
    done = subprocess.run([BOARD / "build", tmp_path, tmp_path / "to"], capture_output=True, text=True, check=False)
    said = f"portable/board/build: there is no library in {tmp_path}: portable/core cortex-m3 {tmp_path} makes it\n"
    assert (done.returncode, done.stderr, [*(tmp_path / "to").iterdir()]) == (2, said, [])


@pytest.mark.needs("objdump")
@pytest.mark.parametrize("target", TARGETS)
def test_a_library_has_the_size_of_the_page(target, core_for):
    (told,) = rows((TOP / "docs/memory.md").read_text(encoding="utf-8"))[f"`{target}`"]
    size = int(llvm.run("size", "-t", core_for(target) / "libbsdudp.a").splitlines()[-1].split()[0])
    assert abs(told - size) <= NEAR * size, f"{told:,} on the page, now {size:,}"
