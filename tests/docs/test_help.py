"""For `--help`, each script in the repository prints its usage and a description. For a wrong argument, it prints its
usage and ends with status 2. In both cases it does no more than that.

A script is an executable file that begins with #!. It runs in an empty folder, which must stay empty, for at most 20
seconds, and without the toolchain on the path, so that a script that begins to work doesn't get far. It must work
without any package that it uses besides Python: MASKED can't be imported here, even if it's installed."""
import os
import pathlib
import re
import signal
import subprocess

import pytest

from tests.cases import TOP

SECONDS = 20
PACKAGES = [str(TOP / "conform"), str(TOP / "python")]
MASKED = ("scapy", "hypothesis", "pytest", "matplotlib", "numpy", "distributed", "xdist")
SKIPPED = {"out", "__pycache__", ".git", "node_modules"}


def scripts():
    """Returns the path of each script in the repository. It doesn't use git, which may be missing."""
    for folder, folders, files in os.walk(TOP):
        folders[:] = sorted(set(folders) - SKIPPED)
        for name in sorted(files):
            path = pathlib.Path(folder, name)
            if os.access(path, os.X_OK) and path.is_file() and not path.is_symlink():
                with path.open("rb") as opened:
                    if opened.read(2) == b"#!":
                        yield str(path.relative_to(TOP))


@pytest.fixture(scope="session")
def masks(once):
    """A folder of modules whose import fails."""

    def make(folder):
        for it in MASKED:
            (folder / f"{it}.py").write_text(f'raise ImportError("No module named {it}")\n', encoding="utf-8")

    return once("masks", make)


def ended(script, word, scratch, masks):
    """Runs a script with an argument. Returns its status, its standard output and its standard error."""
    environment = {"PATH": "/usr/bin:/bin", "HOME": str(scratch), "PYTHONPATH": ":".join([str(masks), *PACKAGES])}
    environment["PYTHONDONTWRITEBYTECODE"] = "1"
    pipes = {"stdin": subprocess.DEVNULL, "stdout": subprocess.PIPE, "stderr": subprocess.PIPE, "text": True}
    pipes |= {"cwd": scratch, "env": environment, "start_new_session": True}
    with subprocess.Popen([TOP / script, word], **pipes) as running:
        try:
            said, texts = running.communicate(timeout=SECONDS)
        except subprocess.TimeoutExpired:
            os.killpg(running.pid, signal.SIGKILL)
            said, texts = running.communicate()
        return running.returncode, said, texts


@pytest.mark.parametrize("script", scripts())
def test_help(script, tmp_path, masks):
    usage = re.compile(rf"usage: (\S*/)?{re.escape(pathlib.Path(script).name)}\b")
    status, said, texts = ended(script, "--help", tmp_path, masks)
    first, _, rest = said.partition("\n")
    good = status == 0 and not texts and usage.match(first) and len(rest.split()) >= 8
    assert good, f"{script} --help: status {status}, {(said + texts)[-300:]}"
    status, said, texts = ended(script, "--no-such-word", tmp_path, masks)
    assert (
        status == 2 and not said and usage.match(texts)
    ), f"{script} --no-such-word: status {status}, {(said + texts)[-300:]}"
    assert not list(tmp_path.iterdir()), f"{script} makes a file of its words"
