"""README's commands on a new system: an empty Debian 12 with the toolchain and the packages that README names, without
a network (tests/fresh/machine). All optional tools are missing, and nothing may fail because of that."""
import functools
import re
import shlex
import subprocess

import pytest

from tests.cases import TOP

pytestmark = [
    pytest.mark.slow,
    pytest.mark.needs("root", "overlay", "debootstrap", "git", "rt"),
    pytest.mark.xdist_group("fresh"),
]
README = (TOP / "README.md").read_text(encoding="utf-8")
# The gate runs this at the same time as the proofs.
SECONDS = 3600


def machine(*words):
    """Runs a command there. Returns its status and its output."""
    words = [TOP / "tests/fresh/machine", *words]
    done = subprocess.run(words, stdin=subprocess.DEVNULL, capture_output=True, text=True, check=False, timeout=SECONDS)
    if done.returncode == 77:
        pytest.skip(done.stderr.strip())
    return done.returncode, done.stdout, done.stderr


def packages():
    """Returns the packages that README says to install."""
    return ",".join(re.search(r"`apt-get install ([^`]+)`", README)[1].split())


def blocks(kind):
    """Returns README's blocks of this kind: the commands, or output and programs."""
    if kind == "commands":
        return re.findall(r"(?ms)^```sh\n(.*?)^```$", README)
    return [re.sub("(?m)^    ", "", it) for it in re.findall(r"(?m)(?:^    .*\n)+", README)]


TRIAL = """
PYTHONPATH=out/python python3 -c "import bsdudp; print(bsdudp.library_version)"
printf '#include <bsdudp.h>\\n#include <stdio.h>\\nint main(void) { return puts(bsdudp_version()) < 0; }\\n' > version.c
TRIAL=1 portable/core x86_64 out/core
for library in out out/core; do cc -Icapi/include version.c $library/libbsdudp.a -o version && ./version; done
make page TRIAL=1
grep -oE "An unproved build|a proved program|runs proved Rattle code|<!--IF" page/out/unproved/bsdudp.html
"""


def test_readme_without_a_proof():
    """The second block, in a clone: the library, the Python package and the page are built without a proof and say
    so. The page claims no proof anywhere."""
    # libc6-dev comes with gcc, because gcc recommends it; here nothing recommended is installed. The page needs binaryen
    installed = ",".join([packages(), "binaryen", *re.findall(r"`apt-get install ([^`]+)`", README)[1:], "libc6-dev"])
    first, second = blocks("commands")
    clone = first.partition("make why\n")[0]
    status, printed, said = machine("--with", installed, f"set -e\n{clone}{second}{TRIAL}")
    assert status == 0, f"status {status}:\n{printed[-2000:]}\n{said[-2000:]}"
    number = re.search(r"version (\d+\.\d+\.\d+)", README)[1]
    assert [it for it in printed.splitlines() if not it.startswith(("made: ", "export "))] == [
        "2 bytes, from port 7",
        "(b'hi', ('10.0.0.1', 1024)) Counters(ip.total=1)",
        *[f"{number}, unproved build"] * 3,
        "An unproved build",
    ], printed


def passes(commands, *words):
    """README's first block and `make test` pass at the first try, and print what README shows."""
    summary = re.search(r"`(N passed, 0 failed, N skipped)`", README)[1]
    status, printed, said = machine(*words, "--with", packages(), f"set -e\n{commands}")
    tail = f"status {status}:\n{printed[-3000:]}\n{said[-1000:]}"
    assert status == 0, tail
    there = iter(printed.splitlines())
    assert not [it for it in blocks("prints")[0].splitlines() if it not in there], tail
    last = printed.splitlines()[-1]
    assert re.fullmatch(summary.replace("N", r"\d+"), last), tail
    skipped = sum(map(int, re.findall(r"(?m)^skipped \((\d+)\): ", printed)))
    assert skipped == int(last.split()[-2]), f"the reasons above the last line count {skipped} skips: {tail}"
    assert "Traceback" not in printed + said, tail


def test_readme():
    """A new user pastes the first block, word for word, and runs the tests."""
    passes(f"{blocks('commands')[0]}make test\n")


def test_readme_as_root():
    """What differs for root: `rt` doesn't let root run what it compiles, and some tools are there only for root (such
    as network namespaces). So of `make test` only the tests with the marker `needs` are played, without `rt`. Nearly
    all are skipped, and each must be counted with its reason. The new user plays the others."""
    passes(f"{blocks('commands')[0]}rm /usr/local/bin/rt\nmake test K=needs\n", "--root")


# ---- missing tools -------------------------------------------------------------------------------------------------

WITHOUT_PYTEST = packages().replace(",python3-pytest", "")
IMPORTS = """import sys
sys.path.insert(0, "python")
try: import bsdudp
except ImportError as it: sys.exit(it)"""
# For each set of packages, commands and the text that their error line must contain.
MISSING = {
    WITHOUT_PYTEST.replace("python3,", ""): {
        "make run": "apt-get install python3",
        "make test": "apt-get install python3",
        ".ci/run": "python3",
    },
    WITHOUT_PYTEST: {
        "make test": "apt-get install -y python3-pytest",
        "make lib": "apt-get install gcc",
        "make install PREFIX=/tmp/it": "apt-get install gcc",
        "make packages": "apt-get install debhelper dh-python",
        "make page": "apt-get install binaryen",
        "capi/build /tmp/it": "apt-get install gcc",
        "page/build": "apt-get install binaryen",
        "portable/core cortex-m3 /tmp/it": "apt-get install gcc",
        "portable/board/build /tmp/it /tmp/board": "apt-get install gcc-arm-none-eabi libnewlib-arm-none-eabi",
        f"python3 -c '{IMPORTS}'": "make python TRIAL=1",
    },
}
ROWS = [(installed, command, lacks) for installed, rows in MISSING.items() for command, lacks in rows.items()]
EACH = """
git clone -q "$REPOSITORY" it && cd it || exit 1
for command in "${commands[@]}"; do
    status=0
    timeout 120 bash -c "$command" > /tmp/printed 2> /tmp/said < /dev/null || status=$?
    printf '%s\\0%s\\0%s\\0' "$status" "$(cat /tmp/printed)" "$(cat /tmp/said)"
done
"""


@functools.lru_cache(maxsize=None)
def outcomes(installed):
    """Runs these commands on one system. Returns each command's status, output and errors."""
    commands = [*MISSING[installed], "make", "make help"]
    words = " ".join(map(shlex.quote, commands))
    status, printed, said = machine("--with", installed, f"commands=({words})\n{EACH}")
    assert status == 0, said
    parts = printed.split("\0")
    return {it: (int(parts[3 * n]), *parts[3 * n + 1 : 3 * n + 3]) for n, it in enumerate(commands)}


@pytest.mark.parametrize("installed, command, lacks", ROWS, ids=[f"{it[1]} with {it[0]}" for it in ROWS])
def test_a_missing_tool_is_named_at_once(installed, command, lacks):
    """The error is one line that says how to install the tool, printed before anything that takes long."""
    status, printed, said = outcomes(installed)[command]
    said = re.sub(r"(?m)^make: \*\*\* .*\n?", "", said)
    in_one_line = lacks in said and len(said.splitlines()) == 1
    assert status in (1, 2) and not printed and in_one_line, f"status {status}: {printed}{said}"


@pytest.mark.parametrize("command", ["make", "make help"])
def test_make_lists_its_targets(command):
    status, printed, said = outcomes(WITHOUT_PYTEST)[command]
    targets = re.findall(r"(?m)^([a-z]+):(?!=)", (TOP / "Makefile").read_text(encoding="utf-8"))
    listed = re.findall(r"(?m)^make ([a-z]+)", printed)
    assert status == 0 and not said and listed == [it for it in targets if it != "help"]


# Of tests/docs it plays one file, because the new user of `make test` has played the others with the same packages.
PYTHON = """#!/bin/sh
case "$*" in *" tests/docs") set -- "$@" -k test_unread ;; esac
exec /usr/bin/python3 "$@"
"""
STUBS = {"rt": '#!/bin/sh\necho "0 passed, 1 failed"\nexit 1\n', "python": PYTHON}


def test_the_gate_reaches_its_proofs():
    """With only README's packages, and with CI unset, .ci/run passes tests/docs and reaches `rt ci`, which is a stub
    here."""
    stubs = "".join(f"printf %s {shlex.quote(text)} > ~/{name}; chmod +x ~/{name}; " for name, text in STUBS.items())
    gate = f'{stubs}git clone -q "$REPOSITORY" it && cd it && PATH=~:$PATH PYTHON=~/python .ci/run'
    status, printed, said = machine("--with", packages(), gate)
    assert status == 1 and printed.endswith("\n0 passed, 1 failed\n"), f"status {status}: {printed}\n{said}"
    assert re.search(r"(?m)^[1-9]\d* passed, 0 failed, \d+ skipped$", printed), printed[-2000:]
