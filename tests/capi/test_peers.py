"""Linux as the peer of capi/examples/tun_echo.c, directly and over a wire that loses, repeats and reorders packets,
each in its own network namespace; and the stored captures, by pcap.c and by tun_echo's device."""
import re
import subprocess

import pytest

from tests.cases import TOP
from tests.conftest import in_part

SOURCES = {"tun_echo": ("examples/tun_echo.c", []), "lossy": ("tests/lossy.c", ["lossy"])}


def demand(*words):
    done = subprocess.run(
        list(map(str, words)), cwd=TOP / "capi", capture_output=True, text=True, check=False, timeout=900
    )
    if done.returncode:
        pytest.fail((done.stdout + done.stderr).strip()[-1500:], pytrace=False)
    return done.stdout + done.stderr


@pytest.mark.slow
@pytest.mark.needs("cc", "netns", "tun", "ip")
@pytest.mark.parametrize("mtu", [1500, 576, 68])
@pytest.mark.parametrize("name", SOURCES)
def test_kernel(name, mtu, library, compiled):
    source, words = SOURCES[name]
    program = compiled(name, *library.threads(source))
    demand("unshare", "-n", "tests/kernel.py", program, mtu, *words)


@pytest.mark.slow
@pytest.mark.needs("cc", "libpcap")
@pytest.mark.parametrize("by_tun", [False, pytest.param(True, marks=pytest.mark.needs("netns", "tun", "ip"))])
def test_captures(by_tun, library, compiled, pytestconfig):
    words = ["tests/replay.py", compiled("pcap", *library.threads("examples/pcap.c"), "-lpcap")]
    if by_tun:
        words = ["unshare", "-n", *words, compiled("tun_echo", *library.threads("examples/tun_echo.c"))]
    in_part(pytestconfig, demand(*words))


@pytest.mark.slow
@pytest.mark.needs("cc", "netns", "tun", "ip")
@pytest.mark.parametrize(
    "name, words, wrong",
    [
        ("tun_echo", ["9000"], "mtu must be 68 to 4352"),
        ("tap_host", ["tap0", "10.0.0.1", "02:00:00:00:00:01", "10.0.1.1"], "gateway must be a neighbour"),
    ],
)
def test_a_wrong_setting_is_named(name, words, wrong, library, compiled):
    """The sentence names the setting of boot, and no other call: the first one is in bsdudp.h."""
    program = compiled(name, *library.threads(f"examples/{name}.c"))
    done = subprocess.run(["unshare", "-n", program, *words], capture_output=True, text=True, check=False, timeout=60)
    assert done.returncode == 1 and re.match(rf"boot: {wrong}\b.*\n\Z", done.stderr), done.stderr
