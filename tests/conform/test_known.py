"""The program, the host on an Ethernet, lwIP, gVisor, libslirp, passt, ns-3, DPDK, and Linux over a TUN device and on a
wire have exactly the deviations in conform/known. Of passt and ns-3 it's tried with a part of the cases, which takes
seconds."""
import os
import re
import subprocess
import sys

import pytest

from tests.cases import TOP
from tests.conftest import left_out

pytestmark = pytest.mark.slow
KNOWN = TOP / "conform/known"
ADAPTER = [sys.executable, "-m"]
ON_LINUX = pytest.mark.needs("netns", "tun", "ip")
# Adapters that are built, with what each needs.
PEERS = {
    "lwip": ["apt-get"],
    "libslirp": ["apt-get", "glib", "pkg-config"],
    "gvisor": ["go", "gvisor"],
    "ns3": ["c++", "ns-3 3.37"],
    "dpdk": ["dpdk"],
}
# The rules that are tried, if not all are.
RULES = {
    "ns3": ("ip.", "icmp.", "udp.len", "udp.checksum", "frag.udp", "socket.", "send.checksum"),
    "passt": ("ip.", "udp.", "frag.hole", "frag.key", "frag.udp"),
}
# ns-3 reads the type of an ICMP message of 0 bytes from what lies behind it, which is a request's type in few runs.
VARIES = {"ns3": ["FAULT icmp.silent:11"]}


@pytest.fixture
def deviates(judged, tmp_path, pytestconfig):
    """Compares the deviations of a stack with conform/known/NAME.txt, whose first line names the version."""

    def compare(name, *adapter, **environment):
        new = tmp_path / f"{name}.txt"
        rules = [word for it in RULES.get(name, ()) for word in ("--only", it)]
        status, said = judged("--timeout", 120, "--write-baseline", new, *rules, *adapter, **environment)
        assert new.exists(), f"{name} couldn't be judged: status {status}: {said[-1500:]}"
        wanted, came = ((it / f"{name}.txt").read_text(encoding="utf-8").splitlines() for it in (KNOWN, tmp_path))
        came = [it for it in came if it not in VARIES.get(name, [])]
        if wanted[0] != came[0]:
            left_out(pytestconfig, f"another version than in conform/known/{name}.txt: {came[0].partition(' of ')[2]}")
        gone, new = set(wanted) - set(came), set(came) - set(wanted)
        assert wanted == came, f"{name} deviates otherwise: gone: {sorted(gone)[:5]}, new: {sorted(new)[:5]}"

    return compare


def test_program(deviates, bsdudp):
    deviates("bsdudp", "--", *ADAPTER, "bsdudp_conform.adapters.bsdudp", bsdudp, "run")


@pytest.mark.needs("cc")
def test_host_on_an_ethernet(deviates, library):
    shared = str(library.folder / "libbsdudp.so.0")
    deviates("bsdudp-ethernet", "--", *ADAPTER, "bsdudp_conform.adapters.ethernet", BSDUDP_LIBRARY=shared)


@pytest.fixture(scope="session")
def peers(once):
    """The folder with the adapters that are built from Debian's sources and packages, and what is missing."""

    def make(folder):
        words = [TOP / "conform/adapters/build", folder]
        environment = {**os.environ, "ONLY": " ".join(PEERS)}
        done = subprocess.run(words, env=environment, capture_output=True, text=True, check=False)
        (folder / "said").write_text(done.stdout + done.stderr, encoding="utf-8")

    return once("peers", make)


@pytest.mark.xdist_group("peers")
@pytest.mark.needs("cc")
@pytest.mark.parametrize("name", [pytest.param(name, marks=pytest.mark.needs(*it)) for name, it in PEERS.items()])
def test_peer(name, deviates, peers):
    if not (peers / name).exists():
        said = (peers / "said").read_text(encoding="utf-8")
        assert "doesn't compile" not in said, said
        pytest.skip(f"its source isn't available by apt-get here: {said.strip()}")
    deviates(name, "--", peers / name)


@ON_LINUX
@pytest.mark.needs("passt")
def test_passt(deviates):
    """Most rules of fragments are left out: it takes each for a datagram, and opens a socket for it."""
    deviates("passt", "--", *ADAPTER, "bsdudp_conform.adapters.passt")


@pytest.mark.long
@ON_LINUX
def test_linux(judged):
    """A kernel whose version isn't that in conform/known may have other deviations."""
    known = KNOWN / "linux.txt"
    words = ["--no-waits", "--timeout", 120, "--baseline", known, "--", *ADAPTER, "bsdudp_conform.adapters.linux"]
    status, said = judged(*words)
    version = os.uname().release
    is_known = f"of Linux {'.'.join(version.split('.')[:2])}." in known.read_text(encoding="utf-8")
    if status and not is_known and re.search("(?m)^Linux .* cases", said):
        pytest.skip(f"Linux {version} deviates otherwise than that of conform/known/linux.txt, another version")
    assert status == 0, said[:3000]


@ON_LINUX
def test_linux_on_a_wire(conform):
    """Runs the command of a checkout."""
    words = ["--quiet", "--no-waits", "--no-policy", "--timeout", 120, "--mixes", 50]
    words += ["--baseline", KNOWN / "linux-wire.txt"]
    command = [sys.executable, "conform/tests/veth.py", "conform/bsdudp-conform", "wire", "w0", *words]
    status, said = conform(*command, PYTHONPATH="")
    assert status == 0, said[:3000]
