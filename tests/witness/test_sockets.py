"""Calls of sockets by bsdudp and by Linux, on one host: the replies are the same where POSIX and BSD agree. The rest is
in DIFFERENCES. `reuseport` isn't compared: in Linux such sockets share the datagrams of a port."""
from __future__ import annotations

import collections
import pathlib
import random
import re
import sys

import pytest

from tests.packets import hexed
from tests.witness.player import Player

pytestmark = pytest.mark.needs("netns", "ip")
LINUX = ["unshare", "-n", sys.executable, pathlib.Path(__file__).with_name("linux_sockets.py")]
OURS = ["10.0.0.1", "10.0.0.1", "127.0.0.1", "0.0.0.0"]
PEERS = [*OURS[:3], "10.0.0.255", "10.0.0.2"]
PORTS = [7, 7, 9]
FDS = "333444556"
ERRORS = ["EACCES", "EADDRINUSE", "EADDRNOTAVAIL", "EBADF", "EDESTADDRREQ", "EINVAL", "EMSGSIZE", "EWOULDBLOCK"]
LONG = "61" * 65508  # more than any UDP datagram has


def alike(reply: str) -> str:
    """Returns a reply without error numbers and ephemeral ports, which differ."""
    reply = re.sub(r"^error \d+ (\w+).*", r"error \1", reply)
    return re.sub(r"^(from \S+) \d{4,}", r"\1 ephemeral", reply)


class Calls:
    """Random calls, without those that DIFFERENCES has: a socket connects once, and it sends only if it has a port, and
    to an address only if it isn't connected."""

    def __init__(self, rng: random.Random) -> None:
        self.rng = rng
        self.done: collections.defaultdict[str, set[str]] = collections.defaultdict(set)  # calls that a socket has made

    def line(self) -> str:
        rng, fd = self.rng, self.rng.choice(FDS)
        its, data = self.done[fd], hexed(rng.randbytes(rng.randint(0, 4)))
        bound, connected = bool(its & {"bind", "connect"}), "connect" in its
        forms = {
            "socket": 3.0,
            f"close {fd}": 1,
            f"bind {fd} {rng.choice(OURS if bound else [*OURS, '10.0.0.2'])} {rng.choice(PORTS)}": 5,
            f"connect {fd} {rng.choice(PEERS[:3])} {rng.choice(PORTS)}": 0 if connected else 3,
            f"sendto {fd} {rng.choice(PEERS)} {rng.choice(PORTS)} {data}": 0 if connected or its and not bound else 8,
            f"sendto {fd} 10.0.0.1 7 {LONG}": 0 if connected or its and not bound else 0.5,
            f"send {fd} {data}": 0 if its and not bound else 4,
            f"send {fd} {LONG}": 0.5 if connected else 0,
            f"recvfrom {fd} {rng.choice([2, 100])}": 6,
            f"setsockopt {fd} broadcast {rng.randrange(2)}": 2,
        }
        return rng.choices(list(forms), list(forms.values()))[0]

    def note(self, line: str, reply: str) -> None:
        name, *words = line.split(" ")
        if name == "socket" and reply != "error EMFILE":
            self.done[reply.split(" ")[1]] = {"socket"}
        elif name == "close":
            self.done[words[0]] = set()
        elif reply == "ok":
            self.done[words[0]].add(name)


def test_random_calls(bsdudp):
    counts: collections.Counter[str] = collections.Counter()
    with Player(bsdudp, "run") as ours, Player(*LINUX) as theirs:
        for seed in range(40):
            calls = Calls(random.Random(seed))
            said: list[str] = []
            for turn in range(100):
                line = "socket" if turn < 3 else calls.line()
                our, their = alike(*ours.ask(line)), alike(*theirs.ask(line))
                said.append(f"{line[:60]} => {our}")
                assert our == their, f"seed {seed}: {said[-12:]}, Linux {their}"
                counts[f"{line.split(' ')[0]}: {our[:30] if our.startswith('error') else our.split(' ')[0]}"] += 1
                calls.note(line, our)
            for player in ours, theirs:
                player.ask(*(f"close {fd}" for fd in range(3, 67)))
    assert counts["recvfrom: from"] > 50, counts
    for error in ERRORS:
        assert sum(counts[it] for it in counts if it.endswith(f"error {error}")) > 10, counts


# Calls of which the last has another result here than by Linux, and the results.
DIFFERENCES = {
    "POSIX permits both: a send to an address by a connected socket": (
        ["socket", "connect 3 10.0.0.1 7", "sendto 3 10.0.0.1 9 61"], "error EISCONN", "ok 1",
    ),
    "Linux limits a datagram only by its length field": (
        ["socket", f"sendto 3 10.0.0.1 9 {LONG[:18434]}"], "error EMSGSIZE", "ok 9217",
    ),
    "Linux tests the address before it tests that the socket isn't bound": (
        ["socket", "bind 3 10.0.0.1 7", "bind 3 10.0.0.2 7"], "error EINVAL", "error EADDRNOTAVAIL",
    ),
    "Linux tests the address before the length": (
        ["socket", f"sendto 3 10.0.0.255 7 {LONG}"], "error EMSGSIZE", "error EACCES",
    ),
    "Linux binds a socket before a send that then fails": (
        ["socket", "send 3 61", "bind 3 10.0.0.1 7"], "ok", "error EINVAL",
    ),
    "Linux tests the option broadcast when it connects": (["socket", "connect 3 10.0.0.255 7"], "ok", "error EACCES"),
    "Linux connects to port 0": (["socket", "connect 3 10.0.0.1 0"], "error EADDRNOTAVAIL", "ok"),
    "0.0.0.0 is 127.0.0.1 to Linux, and the interface's address to BSD": (
        ["socket", "bind 3 0.0.0.0 7", "sendto 3 0.0.0.0 7 61", "recvfrom 3 9"],
        "from 10.0.0.1 7 61", "from 127.0.0.1 7 61",
    ),
    "Linux never sends from the broadcast address": (
        ["socket", "bind 3 10.0.0.255 9", "socket", "bind 4 0.0.0.0 7", "sendto 3 10.0.0.1 7 61", "recvfrom 4 9"],
        "from 10.0.0.255 9 61", "from 10.0.0.1 9 61",
    ),
    "Linux has another error for port 0": (
        ["socket", "sendto 3 10.0.0.1 0 61"], "error EADDRNOTAVAIL", "error EINVAL",
    ),
}  # fmt: skip


@pytest.mark.parametrize("reason", DIFFERENCES)
def test_differences(reason, bsdudp):
    lines, our, their = DIFFERENCES[reason]
    with Player(bsdudp, "run") as ours, Player(*LINUX) as theirs:
        assert [alike(it.ask(*lines)[-1]) for it in (ours, theirs)] == [our, their]
