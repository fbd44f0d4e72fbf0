"""The Debian packages, with pytest's option --packages. Two builds are identical, and lintian reports no error and no
warning. On an empty Debian 12 without a network (tests/fresh/machine) they're installed, a user's first steps are
run, and they're purged, after which no file is left. The packages for ns-3 are only built and checked by lintian."""
import functools
import re
import shlex
import shutil
import subprocess

import pytest

from tests.cases import TOP
from tests.packages.conftest import left_out

pytestmark = [
    pytest.mark.slow,
    pytest.mark.packages,
    pytest.mark.needs("debhelper"),
    pytest.mark.xdist_group("packages"),
]
ON_A_MACHINE = pytest.mark.needs("root", "overlay", "debootstrap", "rt", "git")
BESIDE = "man-db,gcc,g++,libc6-dev,pkg-config,python3,python3-scapy"
PACKAGES = "bsdudp bsdudp-conform python3-bsdudp libbsdudp-dev libbsdudp0"
DOCUMENTS = "/usr/share/doc"
HI = "(b'hi', ('10.0.0.1', 1024))"
FLAGS = "$(pkg-config --cflags --libs bsdudp)"
WIRE = f"cp {DOCUMENTS}/libbsdudp-dev/examples/wire.c . &&"
STATIC = "$(pkg-config --cflags bsdudp) -Wl,-Bstatic -lbsdudp -Wl,-Bdynamic"


def checks():
    """Yields each of a user's first steps, as a line run in an empty folder, and its output if that is known."""
    examples = f"{DOCUMENTS}/bsdudp/examples"
    replies = (TOP / "examples/first_datagram.txt.stdout").read_text(encoding="utf-8")
    yield f"bsdudp run < {examples}/first_datagram.txt", replies.strip()
    yield f"bsdplay --quiet {examples}/play/first_datagram.txt", None
    pages = {"bsdudp": "plays a script", "bsdplay": "OPTIONS", "3 bsdudp": "bsdudp_boot"}
    pages["bsdudp-conform"] = "DESCRIPTION"
    yield from ((f"man {page} | grep -q '{has}'", None) for page, has in pages.items())
    yield f"{WIRE} gcc -std=c99 -Wall -Werror wire.c {FLAGS} -o wire && ./wire", None
    yield f"{WIRE} g++ -x c++ -Wall -Werror wire.c {FLAGS} -o wire && ./wire", None
    yield f"{WIRE} gcc -std=c99 wire.c {STATIC} -o wire && ./wire", None
    portable = "/usr/share/bsdudp/bsdudp_portable.c"
    yield f"[ ! -e {portable} ] || gcc -std=c99 -c {portable}", None
    yield f"bsdplay why {examples}/play/faults.pcap", None
    yield f"bsdplay {examples}/play/why_dropped.txt", None
    yield f"cc first.c {FLAGS} && ./a.out", "2 bytes, from port 7"
    yield "python3 first.py | cut -d' ' -f1-3", HI
    yield "bsdudp-conform template mine", None
    yield "python3 -I page.py | tail -1", HI
    yield "bsdudp-conform run --list --only ip.version | wc -l", "15"


CHECKS = list(checks())
# Paths that aren't compared: those that dpkg, the linker and man-db use internally.
KEPT = "proc var/lib/dpkg var/cache var/log tmp etc/ld.so.cache"
IN_TREE = """
listed() {
    (cd / && find . -xdev \\( -false %s \\) -prune -o -print | sort)
}
listed > /tmp/before
dpkg -i /srv/files/*.deb > /tmp/said 2>&1 || { cat /tmp/said >&2; exit 1; }
for line in "${lines[@]}"; do
    status=0 scratch=$(mktemp -d)
    (cd "$scratch" && cp /srv/files/*.c /srv/files/*.py . &&
        bash -euo pipefail -c "$line") > /tmp/printed 2> /tmp/said < /dev/null || status=$?
    printf '%%s\\0%%s\\0%%s\\0' "$status" "$(cat /tmp/printed)" "$(cat /tmp/said)"
done
dpkg --purge %s > /tmp/said 2>&1 || { cat /tmp/said >&2; exit 1; }
listed | diff /tmp/before - | sed -n 's/^> //p'
""" % (" ".join(f"-o -path ./{it}" for it in KEPT.split()), PACKAGES)


@pytest.fixture(scope="session")
def debs(all_made, once):
    """The folder with the packages."""

    def make(folder):
        subprocess.run([TOP / "dist/deb", *left_out("page", "portable", "ns3"), folder], check=True)

    return once("debs", make)


def packages_of(folder):
    return {it.name: it.read_bytes() for it in folder.glob("*.deb")}


def test_two_are_the_same(debs, tmp_path):
    subprocess.run([TOP / "dist/deb", *left_out("page", "portable", "ns3"), tmp_path], check=True)
    assert packages_of(tmp_path) == packages_of(debs)


@pytest.mark.needs("lintian")
def test_lintian(debs):
    words = ["lintian", "--allow-root", "--pedantic", "--fail-on", "error,warning", *sorted(debs.glob("*.deb"))]
    done = subprocess.run(words, capture_output=True, text=True, check=False)
    assert done.returncode == 0, re.findall("(?m)^[EW]:.*", done.stdout + done.stderr)[:5]


@functools.lru_cache(maxsize=None)
def outcomes(debs):
    """Runs the checks on one system. Returns each check's status, output and errors, and the files that a purge
    leaves."""
    files = debs / "files"
    files.mkdir(exist_ok=True)
    for pattern in ("bsdudp*.deb", "libbsdudp*.deb", "python3-*.deb"):
        for it in debs.glob(pattern):
            shutil.copy(it, files)
    for it in ("capi/examples/first.c", "python/examples/first.py"):
        shutil.copy(TOP / it, files)
    page = (TOP / "docs/python.md").read_text(encoding="utf-8")
    (files / "page.py").write_text(re.search(r"(?s)```python\n(.*?)```", page)[1], encoding="utf-8")
    lines = " ".join(shlex.quote(line) for line, _ in CHECKS)
    words = [TOP / "tests/fresh/machine", "--root", "--with", BESIDE, "--files", files, f"lines=({lines})\n{IN_TREE}"]
    done = subprocess.run(words, stdin=subprocess.DEVNULL, capture_output=True, text=True, check=False, timeout=3600)
    if done.returncode == 77:
        pytest.skip(done.stderr.strip())
    assert done.returncode == 0, done.stderr[-2000:]
    *parts, left = done.stdout.split("\0")
    return [(int(parts[at]), *parts[at + 1 : at + 3]) for at in range(0, len(parts), 3)], left.split()


@ON_A_MACHINE
@pytest.mark.parametrize("at", range(len(CHECKS)), ids=[line for line, _ in CHECKS])
def test_first_steps(at, debs):
    status, printed, said = outcomes(debs)[0][at]
    wanted = CHECKS[at][1]
    assert status == 0, f"{printed[-1000:]}{said[-1000:]}"
    assert wanted is None or printed.strip() == wanted


@ON_A_MACHINE
def test_purge_leaves_nothing(debs):
    assert outcomes(debs)[1] == []
