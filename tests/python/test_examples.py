"""The examples in python/examples and in the package's docstrings, and the service on a TUN device with Linux as the
client."""
import doctest
import importlib
import subprocess
import sys

import pytest

from tests.cases import TOP

# This client sets up the device, and runs at the same time as the service.
SERVICE = """
"$0" python/examples/service.py 10.0.0.1 3 &
for _ in {1..600}; do ip link show bsdudp0 > /dev/null 2>&1 && break; sleep 0.1; done
ip addr add 10.0.0.2/24 dev bsdudp0 && ip link set bsdudp0 up mtu 1500 || exit 1
"$0" -c "$1" && wait
"""
CLIENT = """
import socket
it = socket.socket(socket.AF_INET, socket.SOCK_DGRAM)
it.settimeout(60)
for length in (2, 1472, 5000):
    it.sendto(bytes(length), ("10.0.0.1", 7))
    assert it.recvfrom(65535)[0] == bytes(length)
"""


def demand(*words):
    done = subprocess.run([*map(str, words)], cwd=TOP, capture_output=True, text=True, check=False, timeout=600)
    assert done.returncode == 0, (done.stdout + done.stderr).strip()[-1500:]


def test_docstrings():
    tried = doctest.testmod(importlib.import_module("bsdudp"))
    assert tried.attempted and not tried.failed


@pytest.mark.needs("scapy")
@pytest.mark.parametrize("name", ["fragments", "overlap", "dry_pool"])
def test_example(name):
    demand(sys.executable, f"python/examples/{name}.py")


@pytest.mark.slow
@pytest.mark.parametrize("plots", [False, pytest.param(True, marks=pytest.mark.needs("matplotlib"))])
def test_delivery(plots, tmp_path, monkeypatch):
    monkeypatch.setenv("SEEDS", "15")
    monkeypatch.setenv("MPLCONFIGDIR", str(tmp_path))
    demand(sys.executable, "python/examples/delivery.py", *[tmp_path / "plot.png"] * plots)
    assert (tmp_path / "plot.png").exists() == plots


@pytest.mark.needs("netns", "tun", "ip")
def test_service():
    demand("unshare", "-n", "bash", "-c", SERVICE, sys.executable, CLIENT)
