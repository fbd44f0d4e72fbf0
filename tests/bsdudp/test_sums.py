"""The counters of a run add up as docs/behaviour.md says: after random calls, every packet that arrived, from the link
or by loopback, is in a receive queue, was read, waits for other fragments, or is in one counter."""
import re
import subprocess

import pytest

from tests.random_scripts import random_script

SCRIPTS = range(0, 200, 2)  # the even numbers are calls, most of which succeed
# Without these no socket is closed with datagrams in its queue, and no broadcast has two receivers. In the largest pool
# nothing lacks buffers.
LEFT_OUT = re.compile(r"(?m)^(close|setsockopt \d+ reuseport) .*\n")
POOL = ["--mbufs", "65535", "--clusters", "4096"]
RECEIVE = "".join(f"recvfrom {fd} 65535\n" * 160 for fd in range(3, 20))
HEADERS = ["toosmall", "badvers", "badhlen", "options", "badsum", "badlen", "tooshort", "cantforward", "badfrag"]
DATAGRAMS = ["hdrops", "badlen", "badsum", "noport", "noportbcast", "fullsock"]
DROPS = [*(f"ip.{it}" for it in HEADERS), "ip.noproto", *(f"udp.{it}" for it in DATAGRAMS)]


def waiting(replies: list[str]) -> int:
    """Returns the sum of the page for the replies of a script whose last one is of `stat`."""
    counts = {name: int(count) for name, count in re.findall(r"(\S+)=(\d+)", replies[-1])}
    assert "nobufs" not in counts
    total, fragments, whole, *drops = (
        counts.get(it, 0) for it in ("ip.total", "ip.fragments", "ip.reassembled", *DROPS)
    )
    return total - fragments + whole - sum(drops) - sum(reply.startswith("from ") for reply in replies)


@pytest.mark.slow
def test_counters_add_up(bsdudp):
    """What the sum says before the queues are read is how many datagrams they have, and 0 afterwards."""
    arrived = 0
    for seed in SCRIPTS:
        options, script = random_script(seed, [])
        script = LEFT_OUT.sub("", script.decode()) + "stat\n"
        words = [bsdudp, "run", *options[:4], *POOL]
        done = subprocess.run(words, input=script + RECEIVE + "stat\n", capture_output=True, text=True, check=True)
        replies, before = done.stdout.splitlines(), script.count("\n")
        read = sum(reply.startswith("from ") for reply in replies[before:])
        assert (waiting(replies[:before]), waiting(replies)) == (read, 0), f"script {seed}"
        arrived += read
    assert arrived > len(SCRIPTS)
