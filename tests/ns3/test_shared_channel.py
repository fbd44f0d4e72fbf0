"""The settings in docs/ns3.md for a channel that several nodes share, tested with ns-3's own stack."""
import pathlib
import re
import shutil
import subprocess

import pytest

from tests.cases import TOP
from tests.conftest import left_out

LIBRARIES = ["-lns3-internet", "-lns3-network", "-lns3-core", "-lns3-bridge", "-lns3-traffic-control", "-lns3-stats"]
MOST = 1000

pytestmark = pytest.mark.slow


def setting():
    """The page's lines that set whether ns-3's nodes forward packets."""
    page = (TOP / "docs/ns3.md").read_text(encoding="utf-8")
    return re.findall(r"^    (Config::SetDefault\(.*IpForward.*\);)$", page, re.MULTILINE)


@pytest.fixture
def packets(once, pytestconfig):
    """Returns how many packets one datagram causes on a channel of four nodes, with the page's setting or without."""
    if not shutil.which("g++") or not pathlib.Path("/usr/include/ns3/internet-module.h").exists():
        left_out(pytestconfig, "no ns-3: apt-get install g++ libns3-dev")

    def make(folder):
        (folder / "setting.h").write_text("\n".join(setting()) + "\n", encoding="utf-8")
        source = pathlib.Path(__file__).with_name("shared.cc")
        words = ["g++", "-std=c++17", "-w", f"-I{folder}", source, *LIBRARIES, "-o", folder / "shared"]
        subprocess.run(words, check=True)

    def count(*words):
        program = once("ns3-shared-channel", make) / "shared"
        return int(subprocess.run([program, *words], check=True, capture_output=True, text=True, timeout=100).stdout)

    return count


def test_nodes_that_forward_flood_the_channel(packets):
    assert packets() == MOST


def test_by_the_setting_of_the_page_a_datagram_is_one_packet(packets):
    assert len(setting()) == 1, "docs/ns3.md doesn't say what to set"
    assert packets("setting") == 1
