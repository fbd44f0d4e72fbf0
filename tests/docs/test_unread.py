"""A Python program whose reader has ended, as in `PROGRAM | head -1`, ends without a message, and one that can't use a
file of its command line with one line."""
import os
import subprocess
import sys

import pytest

from tests.cases import TOP
from tests.docs.test_help import PACKAGES, scripts

HEAD = f"""import os, sys
sys.path.insert(0, {str(TOP)!r})
from tools import command_line
command_line.parser('A list.').parse_args()
"""
# A list that fits in the buffer, so that it's written at the end, and one that doesn't fit.
SHORT, LONG = (f"{HEAD}for it in range({count}):\n    print(it)\n" for count in (3, 100_000))
OTHER = f"{HEAD}out, into = os.pipe()\nos.close(out)\nos.write(into, b'for a program that ended')\n"
# Nothing can be written to /dev/full.
FULL = f"{HEAD}with open('/dev/full', 'wb', buffering=0) as full:\n    full.write(b'for a disk')\n"
# These use no other module, and print no list.
EXAMPLES = ("examples/", "simulators/ns3/examples/")


def in_python():
    """Yields the Python scripts, except examples."""
    for name in scripts():
        with (TOP / name).open("rb") as opened:
            if b"python" in opened.readline() and not name.startswith(EXAMPLES):
                yield name


def unread(*words):
    """Returns the standard error of a program whose standard output is a pipe without a reader."""
    out, into = os.pipe()
    os.close(out)
    environment = {**os.environ, "PYTHONPATH": ":".join(PACKAGES), "PYTHONDONTWRITEBYTECODE": "1"}
    pipes = {"stdin": subprocess.DEVNULL, "stdout": into, "stderr": subprocess.PIPE}
    try:
        return subprocess.run(words, cwd=TOP, env=environment, text=True, check=False, timeout=600, **pipes).stderr
    finally:
        os.close(into)


@pytest.mark.parametrize("program", [SHORT, LONG], ids=["at the end", "in the middle"])
def test_a_list(program):
    assert unread(sys.executable, "-c", program) == ""


@pytest.mark.parametrize("name", in_python())
def test_the_help_of_a_script(name):
    assert unread(sys.executable, TOP / name, "--help") == ""


@pytest.mark.slow
@pytest.mark.needs("scapy")
def test_the_list_of_the_cases():
    words = ["run", "--list", "--mixes", "0", "--only", "frag."]
    assert unread(sys.executable, TOP / "conform/bsdudp-conform", *words) == ""


def test_another_pipe_that_nobody_reads_is_a_fault():
    done = subprocess.run([sys.executable, "-c", OTHER], capture_output=True, text=True, check=False)
    assert done.returncode == 1 and done.stderr.rstrip().endswith("BrokenPipeError: [Errno 32] Broken pipe")


@pytest.mark.parametrize(
    "words, reason",
    [
        (["dist/wheel", "FILE/none", "."], "FILE/none: Not a directory"),
        (["dist/man", "FILE/none"], "FILE/none: Not a directory"),
    ],
    ids=["a file to read", "a folder to make"],
)
def test_a_file_that_is_named_has_one_line(words, reason, tmp_path):
    file = tmp_path / "file"
    file.touch()
    words = [it.replace("FILE", str(file)) for it in words]
    done = subprocess.run([TOP / words[0], *words[1:]], capture_output=True, text=True, check=False)
    assert (done.returncode, done.stderr) == (1, f"{words[0]}: {reason.replace('FILE', str(file))}\n")


def test_a_file_that_nobody_named_is_a_fault():
    done = subprocess.run([sys.executable, "-c", f"{HEAD}open('/none')"], capture_output=True, text=True, check=False)
    assert done.returncode == 1 and done.stderr.startswith("Traceback")


def test_a_full_disk_has_one_line():
    done = subprocess.run([sys.executable, "-c", FULL], capture_output=True, text=True, check=False)
    assert (done.returncode, done.stderr) == (1, "-c: No space left on device\n")
