"""The C library for other processors. portable/core rewrites the LLVM module and compiles it. Each call, the memory of
a stack, and two stacks on a wire are tested on 32-bit x86 (also with the address sanitizer in the core), on 32-bit ARM,
aarch64 and riscv64 in qemu, and on x86-64. All examples and random scripts are played on these except aarch64 and
riscv64, on RISC-V with 32 bits, and on a Cortex-M3: their replies must equal those of the built program. Faults planted
in the rewriting must be seen."""
import pathlib
import shutil
import subprocess
from typing import NamedTuple

import pytest

from tests.boards.conftest import BOARD, CC, DRIVER, SANITIZED, STRICT, replies
from tests.cases import TOP
from tests.made import made
from tools import llvm

MODULE = ("rt", "wasm-opt", "cc")
pytestmark = [pytest.mark.slow, pytest.mark.needs(*MODULE)]
TARGETS = "cortex-m0 cortex-m3 cortex-m4 cortex-m7 cortex-m33 rv32imac i686 armv7 x86_64 aarch64 riscv64".split()
FILES = ["bsdudp-config.cmake", "bsdudp.h", "bsdudp_notes.h", "libbsdudp.a"]
CMAKE = """cmake_minimum_required(VERSION 3.13)
project(board C)
find_package(bsdudp REQUIRED)
add_executable(first EXAMPLES/first.c)
target_link_libraries(first bsdudp::bsdudp)
"""
RANDOM = 2000
MOST_OF_SMALL = 40_700  # bytes of the core for small flash, where pointers have 64 bits


class Host(NamedTuple):
    """How a C program is built and run for a target: the options of portable/core, and the tools that this needs."""

    target: str
    compiler: list
    runs_by: list = []
    options: tuple = ()
    needs: tuple = ()


HOSTS = {
    "i686": Host("i686", [CC, "-m32"], needs=("cc -m32",)),
    "i686 sanitized": Host("i686", [CC, "-m32", *SANITIZED], options=("--sanitized",), needs=("cc -m32",)),
    "i686 checked": Host("i686", [CC, "-m32"], options=("--checked",), needs=("cc -m32",)),
    "i686 --small": Host("i686", [CC, "-m32"], options=("--small",), needs=("cc -m32",)),
    "armv7": Host(
        "armv7", ["arm-linux-gnueabihf-gcc"], ["qemu-arm", "-L", "/usr/arm-linux-gnueabihf"],
        needs=("arm-linux-gnueabihf", "qemu-user"),
    ),
    "x86_64": Host("x86_64", [CC], needs=("x86-64",)),
    "aarch64": Host(
        "aarch64", ["aarch64-linux-gnu-gcc"], ["qemu-aarch64", "-L", "/usr/aarch64-linux-gnu"],
        needs=("aarch64-linux-gnu", "qemu-user"),
    ),
    "riscv64": Host(
        "riscv64", ["riscv64-linux-gnu-gcc"], ["qemu-riscv64", "-L", "/usr/riscv64-linux-gnu"],
        needs=("riscv64-linux-gnu", "qemu-user"),
    ),
}  # fmt: skip
WRAPPED = ["-Wl,--wrap=malloc,--wrap=free,--wrap=bsdudp_ether_boot_in"]  # memory.c has its own
CALLS, WIDE = pathlib.Path("tests/calls"), TOP / "portable/tests/wide"
PROGRAMS = {"tests/calls": [], "tests/ether": [], "tests/memory": WRAPPED, "examples/wire": [], WIDE: []}


def hosts(*left_out):
    """Parametrizes a test by the hosts, with the tools that each needs."""
    return pytest.mark.parametrize(
        "host", [pytest.param(it, id=name, marks=pytest.mark.needs(*it.needs)) for name, it in HOSTS.items()
                 if name not in left_out]
    )  # fmt: skip


@pytest.fixture
def builds(core_for, compiled):
    """builds(HOST, NAME, COMPILER'S ARGUMENTS ..) compiles a program with a host's library, and returns the command
    that runs it."""

    def build(host, name, *words):
        library = core_for(host.target, *host.options) / "libbsdudp.a"
        program = compiled(pathlib.Path(name).name, *host.compiler, *STRICT, *words, library)
        return [*host.runs_by, program]

    return build


def test_targets_are_known():
    said = subprocess.run([TOP / "portable/core", "targets"], capture_output=True, text=True, check=True).stdout
    assert [line.split()[0] for line in said.splitlines()] == TARGETS


@pytest.mark.needs("cmake", "arm-none-eabi")
def test_cmake(core_for, tmp_path):
    """find_package for another processor, by a toolchain file of CMake."""
    (tmp_path / "CMakeLists.txt").write_text(CMAKE.replace("EXAMPLES", f"{TOP}/capi/examples"), encoding="utf-8")
    words = ["-DCMAKE_SYSTEM_NAME=Generic", "-DCMAKE_C_COMPILER=arm-none-eabi-gcc", "-DCMAKE_C_FLAGS=-mcpu=cortex-m3",
             "-DCMAKE_EXE_LINKER_FLAGS=--specs=nosys.specs", f"-Dbsdudp_DIR={core_for('cortex-m3')}"]  # fmt: skip
    made("cmake", "-S", tmp_path, "-B", tmp_path / "out", *words)
    made("cmake", "--build", tmp_path / "out")


@pytest.mark.parametrize("target", TARGETS)
def test_target_is_made(target, core_for):
    assert sorted(it.name for it in core_for(target).iterdir()) == FILES


@hosts()
@pytest.mark.parametrize("name", PROGRAMS, ids=lambda it: pathlib.Path(it).name)
def test_calls(name, host, builds, runs):
    runs(*builds(host, name, f"{name}.c", *PROGRAMS[name]))


@hosts()
def test_random_calls(host, builds, runs, bsdudp):
    """Random calls return what the built program replies to the same lines."""
    runs(*builds(host, "random", "-O1", "tests/random.c"), bsdudp, "1")


@hosts("aarch64", "riscv64")
def test_scripts(host, builds, plays):
    plays(builds(host, "driver", "-O1", *DRIVER), RANDOM)


@hosts("i686", "i686 sanitized", "i686 --small", "armv7", "x86_64")
def test_driver_builds(host, builds):
    builds(host, "driver", "-O1", *DRIVER)


@pytest.mark.needs("qemu-user")
def test_scripts_on_riscv(core_for, plays, tmp_path):
    """Built with the toolchain's compiler and linker."""
    tools = llvm.toolchain() / "toolchain/bin"
    library = core_for("rv32imac") / "libbsdudp.a"
    headers = llvm.run(CC, "-print-file-name=include").strip()
    how = [tools / "clang", "--target=riscv32-unknown-elf", "-march=rv32imac", "-mabi=ilp32", "-O1", "-ffreestanding"]
    how += ["-std=gnu99", "-nostdinc", "-isystem", headers, "-isystem", TOP / "portable/c/include"]
    how += [f"-I{TOP / 'capi/include'}", f"-I{TOP / 'portable/tests'}"]
    objects = [tmp_path / f"{it}.o" for it in ("run", "riscv")]
    for it in objects:
        llvm.run(*how, "-c", TOP / f"portable/tests/{it.stem}.c", "-o", it)
    llvm.run(tools / "ld.lld", *objects, library, "-o", tmp_path / "driver")
    plays(["qemu-riscv32", tmp_path / "driver"], RANDOM)


@pytest.mark.needs("objdump")
@pytest.mark.parametrize(
    "name, more", [
        pytest.param("x86_64", [], marks=pytest.mark.needs("x86-64")),
        pytest.param("aarch64", ["-static"], marks=pytest.mark.needs(*HOSTS["aarch64"].needs)),
    ],
)  # fmt: skip
def test_small_size(name, more, core_for, builds, runs):
    host = HOSTS[name]._replace(options=("--small",), runs_by=HOSTS[name].runs_by[:1])
    sizes = llvm.run("size", core_for(name, "--small") / "libbsdudp.a").splitlines()
    (core,) = (int(it.split()[0]) for it in sizes if "core.o" in it)
    assert core <= MOST_OF_SMALL
    runs(*builds(host, "calls", *more, "tests/calls.c"))


# ---- faults planted in tools/retarget.py and tools/widths.py: the text that is replaced, and its replacement ---------

RETARGET, WIDTHS = "tools/retarget.py", "tools/widths.py"
WIDE_FUNCTIONS = "set(filter(is_wide, bodies))"


def without(pattern):
    """Returns a fault in the list of wide functions: those of a pattern aren't in it."""
    return WIDTHS, WIDE_FUNCTIONS, f"{{it for it in filter(is_wide, bodies) if not re.search({pattern!r}, it)}}"


PLANTED = {
    "a pair's second member": (
        RETARGET, "place = -(-SIZES[first] // SIZES[second]) * SIZES[second]", "place = SIZES[first]",
    ),
    "an address's bytes": (RETARGET, '"ptr": 8}', '"ptr": 4}'),
    "a number's memory": (RETARGET, "= alloca i64, align", "= alloca i32, align"),
    "counters aren't wide": without("flat_model::counters"),
    "sums aren't wide": without("in_cksum"),
    "the set of readable sockets isn't wide": without("readable"),
    "two numbers in one aren't wide": without("put_data"),
}  # fmt: skip


def passes(*words):
    """Returns whether a program ends with status 0 within 6 seconds of processor time."""
    limited = ["bash", "-c", 'ulimit -t 6; ulimit -c 0; timeout 300 "$@"', "bash", *map(str, words)]
    return not subprocess.run(limited, capture_output=True, check=False).returncode


def plays_examples(driver):
    scripts, wanted = replies.chosen(0, None)
    limited = ["bash", "-c", 'ulimit -t 6; ulimit -c 0; exec timeout 300 "$1"', "bash", str(driver)]
    try:
        return not replies.differences(scripts, replies.heard(limited, scripts)[0], wanted)
    except SystemExit:  # it ended otherwise than with status 0
        return False


@pytest.mark.needs("cc -m32")
@pytest.mark.parametrize("fault", PLANTED)
def test_planted_fault_is_seen(fault, module, compiled, tmp_path):
    """The library with a fault, which stops at a number that is cut although it needs 64 bits."""
    name, old, new = PLANTED[fault]
    module("libbsdudp")
    copy = tmp_path / "copy"
    copy.mkdir()
    for it in ("crates", "crates.txt", "capi"):
        (copy / it).symlink_to(TOP / it)
    for it in ("portable", "tools"):
        shutil.copytree(TOP / it, copy / it, ignore=lambda at, _: {"core"} if at.endswith("portable/out") else set())
    text = (copy / name).read_text(encoding="utf-8")
    assert text.count(old) == 1
    (copy / name).write_text(text.replace(old, new), encoding="utf-8")
    library = tmp_path / "library"
    words = [copy / "portable/core", "--checked", "i686", library]
    if subprocess.run(words, capture_output=True, check=False).returncode:
        assert name == RETARGET  # clang refuses it
        return
    how = [CC, "-m32", *STRICT]
    try:
        programs = [compiled(it.name, *how, f"{it}.c", library / "libbsdudp.a") for it in (CALLS, WIDE)]
        driver = compiled("driver", *how, *DRIVER, library / "libbsdudp.a")
    except pytest.fail.Exception as why:  # the core calls a function that it never calls without the fault
        assert "undefined reference to `rattle_realloc'" in str(why)
        return
    assert not (all(map(passes, programs)) and plays_examples(driver))


# ---- a Cortex-M3 -----------------------------------------------------------------------------------------------------

MACHINE = ["timeout", "900", "qemu-system-arm", "-M", "mps2-an385", "-display", "none", "-monitor", "none"]
MACHINE += ["-semihosting-config", "enable=on,target=native", "-serial"]
BY_SERIAL, ALONE = [*MACHINE, "stdio"], [*MACHINE, "null"]
# The most of the columns of bench/board's table, for each level: the library, the echo's text, data, bss and call
# stack, and the instructions of three lengths.
COSTS = {
    "--small": [43_100, 17_500, 16, 52_500, 830, 2_480, 7_630, 22_100],
    "-Os": [49_200, 22_600, 16, 52_500, 900, 1_785, 6_980, 21_500],
    "-O2": [79_800, 42_500, 16, 52_500, 830, 1_545, 6_550, 19_400],
}
DATA = 2
on_board = pytest.mark.needs("arm-none-eabi", "qemu-arm")


# The program of the board that runs capi/tests/isolation.c.
FLOODS = """
#include "machine.h"
int floods_pass(void);
int main(void) { machine_say(floods_pass() == 0 ? "0\\n" : "1\\n"); return 0; }
"""


@on_board
def test_floods_on_the_board(core_for, tmp_path):
    """With sizes of the receive queues, no flood of one socket stops another."""
    (tmp_path / "floods.c").write_text(FLOODS, encoding="utf-8")
    cc = ["arm-none-eabi-gcc", "-mcpu=cortex-m3", "-mthumb", "-Os", "-std=c99", "-Wall", "-Wextra", "-Werror"]
    cc += ["-ffreestanding", f"-I{TOP / 'capi/include'}", f"-I{BOARD}"]
    test = ["-DSAY(...)=(void)0", "-Dmain=floods_pass", "-c", TOP / "capi/tests/isolation.c", "-o", tmp_path / "test.o"]
    llvm.run(*cc, *test)
    linked = ["-nostartfiles", f"-T{BOARD / 'machine.ld'}", "-Wl,--gc-sections,-z,noexecstack", "--specs=nano.specs"]
    linked += ["-Wl,--defsym=MEMORY_SIZE=4194304", "--specs=nosys.specs"]
    files = [tmp_path / "floods.c", tmp_path / "test.o", BOARD / "machine.c", core_for("cortex-m3") / "libbsdudp.a"]
    llvm.run(*cc, *files, *linked, "-o", tmp_path / "floods.elf")
    done = subprocess.run([*ALONE, "-kernel", tmp_path / "floods.elf"], capture_output=True, text=True, check=True)
    assert done.stdout + done.stderr == "0\n"


@on_board
@pytest.mark.parametrize("options", [(), ("--small",)], ids=["-Os", "--small"])
def test_scripts_on_the_board(options, board_for, plays):
    plays([*ALONE, "-kernel", board_for(*options) / "scripts.elf"], RANDOM)


@on_board
def test_call_stacks(board, bsdudp):
    """Plays all examples and 100 random scripts. No call uses more stack than its bound."""
    llvm.run(BOARD / "stacks", "--random", 100, bsdudp, board / "painted.elf", *ALONE, "-kernel")


@on_board
@pytest.mark.needs("netns", "tun", "ip")
def test_linux_by_a_serial_line(board):
    llvm.run("unshare", "-n", BOARD / "peer.py", BOARD / "bridge.py", *BY_SERIAL, "-kernel", board / "echo.elf")


@on_board
@pytest.mark.needs("netns", "tun", "ip", "ping")
def test_linux_on_an_ethernet(board):
    card = ["-kernel", board / "host.elf", "-nic", "tap,ifname=bsdudp0,script=no,downscript=no"]
    llvm.run("unshare", "-n", BOARD / "peer.py", "--tap", *ALONE, *card)


@pytest.fixture(scope="session")
def costs(core_for, once):
    """Limits the cost of an echo on the board, as bench/run.sh prints it. With lwIP's sources, lwIP's cost is printed
    too."""

    def make(folder):
        for level in COSTS:
            (folder / f"cortex-m3{level}").symlink_to(core_for("cortex-m3", *[level] * (level != "-Os")))
        environment = f"CORE={folder} PORTABLE={folder} BRIEF=1"
        (folder / "said").write_text(llvm.run("env", *environment.split(), TOP / "bench/run.sh", "board"))

    return (once("costs", make) / "said").read_text()


@on_board
@pytest.mark.xdist_group("costs")
@pytest.mark.parametrize("level", COSTS)
def test_costs_of_an_echo(level, costs):
    row = next(it for it in costs.splitlines() if it.startswith(f"| `portable/core {level}` |"))
    columns = [int(it.replace(",", "")) for it in row.split("|")[2:-1]]
    assert len(columns) == len(COSTS[level])
    assert all(it > 0 for at, it in enumerate(columns) if at != DATA), "the echo doesn't answer"
    assert all(it <= most for it, most in zip(columns, COSTS[level])), f"{columns}, and at most {COSTS[level]}"
