"""Linux's UDP as the peer: datagrams pass through a TUN device to the built program and back (examples/bridge/echo.py).
Each MTU is tested in its own network namespace."""
import subprocess
import sys

import pytest

from tests.cases import TOP

# The lengths of datagrams for each MTU: those at which a layout or the number of fragments changes, and the longest.
LENGTHS = {
    1500: [0, 1, 27, 28, 29, 72, 73, 207, 208, 1472, 1473, 2048, 4096, 9216],
    576: [0, 548, 549, 4096, 9216],
    68: [0, 40, 41, 1400],
}
ECHOES = """
import socket, sys
peer = socket.socket(socket.AF_INET, socket.SOCK_DGRAM)
peer.setsockopt(socket.IPPROTO_IP, 10, 0)  # no "do not fragment"
peer.settimeout(60)
for length in map(int, sys.argv[1:]):
    sent = bytes(k * 7 % 251 for k in range(length))
    peer.sendto(sent, ("10.0.0.1", 7))
    back, sender = peer.recvfrom(65536)
    if back != sent or sender != ("10.0.0.1", 7):
        sys.exit(f"a datagram of {length} bytes came back as {len(back)} from {sender}")
"""


@pytest.mark.needs("netns", "tun", "ip")
@pytest.mark.parametrize("mtu", LENGTHS)
def test_datagrams_come_back(mtu, bsdudp):
    host = ["examples/bridge/echo.py", "--program", bsdudp, "--mtu", mtu]
    words = ["unshare", "-n", sys.executable, *host, sys.executable, "-c", ECHOES, *LENGTHS[mtu]]
    done = subprocess.run([*map(str, words)], cwd=TOP, capture_output=True, text=True, check=False, timeout=600)
    assert done.returncode == 0, (done.stdout + done.stderr).strip()[-1500:]
