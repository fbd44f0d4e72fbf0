"""A host on an Ethernet. Each frame that it sends is compared with scapy's ARP and ICMP packets, with the Python
package. Linux is the peer of capi/examples/tap_host.c on a TAP device in its own network namespace, with a wire that
loses frames, and with two hosts on one bridge. In both captures, tshark finds no malformed frame and no wrong checksum
from the hosts."""
import os
import subprocess
import sys

import pytest

from tests.cases import TOP
from tests.conftest import in_part

pytestmark = pytest.mark.needs("cc")
ON_LINUX = [pytest.mark.needs("netns", "tun", "ip"), pytest.mark.slow]
# Frames that tshark can't read to their end, and wrong checksums in frames that don't come from Linux or a neighbour.
WRONG = """_ws.malformed || (eth.src[0:3] == 02:00:00 && eth.src != 02:00:00:00:00:02 && eth.src != 02:00:00:00:00:99 &&
(ip.checksum.status == "Bad" || icmp.checksum.status == "Bad"))"""
FLAGS = ["-std=gnu99", "-Wall", "-Wextra", "-Werror", "-Iinclude"]


@pytest.fixture(scope="session")
def ended(once, library):
    """Runs a script in capi/tests once. Its folder has its status, its output, and the capture frames.pcap."""

    def run(name, *words):
        def make(folder):
            paths = {"BSDUDP_LIBRARY": str(library.folder / "libbsdudp.so.0"), "PYTHONPATH": str(TOP / "python")}
            environment = {**os.environ, **paths, "PYTHONDONTWRITEBYTECODE": "1"}
            done = subprocess.run(
                [*map(str, words), folder / "frames.pcap"], cwd=TOP, env=environment, capture_output=True, text=True,
                check=False, timeout=900,
            )  # fmt: skip
            (folder / "status").write_text(str(done.returncode), encoding="utf-8")
            (folder / "said").write_text((done.stdout + done.stderr).strip(), encoding="utf-8")

        return once(name, make)

    return run


@pytest.fixture(scope="session")
def judged(ended):
    return ended("ether-judge", sys.executable, "capi/tests/ether_judge.py")


@pytest.fixture(scope="session")
def peer(ended, once, library):
    def make(folder):
        words = [*FLAGS, "examples/tap_host.c", library.archive, "-o", folder / "tap_host"]
        subprocess.run([os.environ.get("CC", "cc"), *words], cwd=TOP / "capi", check=True)

    program = once("tap-host", make) / "tap_host"
    return ended("ether-peer", "unshare", "-n", sys.executable, "capi/tests/ether_peer.py", program)


def passed(folder):
    """Returns the output of a script that passed."""
    said = (folder / "said").read_text(encoding="utf-8")
    if (folder / "status").read_text(encoding="utf-8") != "0":
        pytest.fail(said[-1500:], pytrace=False)
    return said


@pytest.mark.needs("scapy")
def test_frames_beside_scapys(judged):
    passed(judged)


@ON_LINUX[0]
@ON_LINUX[1]
def test_linux_as_the_peer(peer, pytestconfig):
    in_part(pytestconfig, passed(peer))


@pytest.mark.needs("tshark")
@pytest.mark.parametrize(
    "name", [pytest.param("judged", marks=pytest.mark.needs("scapy")), pytest.param("peer", marks=ON_LINUX)]
)
def test_capture(name, request):
    folder = request.getfixturevalue(name)
    passed(folder)
    options = ["ip.check_checksum:TRUE", "udp.check_checksum:TRUE", "ip.defragment:FALSE"]
    words = ["tshark", "-n", "-r", folder / "frames.pcap", *(it for o in options for it in ("-o", o)), "-Y", WRONG]
    done = subprocess.run(words, capture_output=True, text=True, check=False)
    assert done.returncode == 0, done.stderr[-500:]
    assert not done.stdout, done.stdout.splitlines()[0]
