"""bsdudp-conform by itself, with pytest's option --packages, on an empty Debian 12 without a network
(tests/fresh/machine): from its Debian package, which depends on nothing of the stack, and by pip from its folder. An
author's three commands give a first verdict, and play a case of a sweep again. A course's skeleton is handed out, tried
and graded."""
import shutil
import subprocess

import pytest

from tests.cases import TOP

pytestmark = [
    pytest.mark.slow,
    pytest.mark.packages,
    pytest.mark.needs("root", "overlay", "debootstrap", "rt", "debhelper"),
    pytest.mark.xdist_group("packages"),
]
BESIDE = "python3,gcc,libc6-dev"
INSTALL = {
    "deb": (BESIDE, "dpkg -i /srv/files/*.deb > /dev/null"),
    "pip": (
        f"{BESIDE},python3-pip,python3-setuptools,python3-wheel",
        "cp -r /srv/files/conform . && "
        "pip install -q --no-build-isolation --break-system-packages ./conform 2> /dev/null",
    ),
}
AUTHOR = """
set -e
mkdir -p /tmp/new && cd /tmp/new
%s
! python3 -c "import bsdudp" 2> /dev/null
bsdudp-conform template mine > /dev/null
cc -Imine mine/template.c -o adapter
bsdudp-conform run --report out --only udp.data -- ./adapter | head -2 || true
echo $(ls out)
bsdudp-conform run --seeds 1-2 -- ./adapter | head -1 || true
bsdudp-conform lab start hand > /dev/null
(cd hand && python3 judge.pyz lab check --step 4 . | head -1) || true
mkdir -p class/ann
cp "$(python3 -c 'import bsdudp_conform; print(*bsdudp_conform.__path__)')"/lab/solution/c/*.c class/ann
bsdudp-conform lab grade class | tail -1
"""


@pytest.mark.parametrize("how", INSTALL)
def test_an_author_needs_nothing_of_the_stack(how, tmp_path):
    if how == "deb":
        subprocess.run([TOP / "dist/deb", "--judge", tmp_path], check=True)
    else:
        shutil.copytree(TOP / "conform", tmp_path / "conform", ignore=shutil.ignore_patterns("__pycache__", "build"))
    packages, install = INSTALL[how]
    words = [TOP / "tests/fresh/machine", "--root", "--with", packages, "--files", tmp_path, AUTHOR % install]
    done = subprocess.run(words, stdin=subprocess.DEVNULL, capture_output=True, text=True, check=False, timeout=3600)
    if done.returncode == 77:
        pytest.skip(done.stderr.strip())
    assert done.returncode == 0, done.stdout[-1000:] + done.stderr[-2000:]
    summary, cause, files, sweep, check, grades = done.stdout.strip().splitlines()
    assert summary == "my stack 1.0: 533 cases, 533 deviate, by 1 cause"
    assert cause == "  must 511, should 23: a datagram doesn't come (udp.data:1 and 532 more)"
    assert files.split() == ["junit.xml", "my-stack-1.0", "report.html", "report.txt"]
    assert sweep.startswith("./adapter: 2 seeds, ") and "causes" in sweep
    assert check == "step 4, sending: 0 of 15" and grades == "ann,15,15,20,15,15,20,100,"
