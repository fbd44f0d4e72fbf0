"""Random scripts that set sizes of receive queues: bsdplay takes and drops exactly the datagrams that the rule of
docs/behaviour.md names, on one machine and on one of two hosts. The rule is computed here, from volume 2: an mbuf has 128
bytes, a cluster 2,048, and a packet of up to 100 bytes arrives in one mbuf, one of up to 207 in two, and any longer one
in an mbuf with a cluster (chapter 2)."""
import random

import pytest

from tests.bsdplay.runs import printed, same

MBUF, CLUSTER, ADDRESS, HEADERS = 128, 2048, 16, 28
# Without a size: the bytes, and the memory, in which a datagram's own mbufs don't count.
BYTES, MEMORY = 41_600, 83_200
PORTS = {3: 7, 4: 9}
LENGTHS = [0, 1, 2, 72, 73, 176, 179, 180, 1136, 1137, 1472]
SIZES = [1, 16, 17, 127, 128, 191, 192, 195, 512, 1151, 1152, 1488, 3000, 8192, 65_535]
SCRIPTS, LINES, TOGETHER = 100, 120, 10
POOL = "--mbufs 4096 --clusters 256"


def memory_of(length):
    """Returns the memory of a datagram that arrived in one packet, without the mbuf of its sender's address."""
    packet = HEADERS + length
    return MBUF if packet <= 100 else 2 * MBUF if packet <= 207 else MBUF + CLUSTER


class Queue:
    """A receive queue, and its size, or 0."""

    def __init__(self):
        self.size, self.lengths = 0, []

    def fits(self, length):
        queued = sum(ADDRESS + it for it in self.lengths) + ADDRESS + length
        memory = sum(MBUF + memory_of(it) for it in self.lengths)
        if self.size == 0:
            return queued <= BYTES and memory + ADDRESS + length <= MEMORY
        return queued <= self.size and memory + MBUF + memory_of(length) <= 2 * self.size


def arriving(port, length):
    return f"rx udp 10.0.0.2:5000 > 10.0.0.1:{port} {f'@{length}' if length else '-'}"


def arrival(rng, queues, fd):
    length = rng.choice(LENGTHS)
    fits = queues[fd].fits(length)
    if fits:
        queues[fd].lengths.append(length)
    outcome = "ok" if fits else "dropped receive queue full"
    return arriving(PORTS[fd], length), outcome


def lines(rng):
    """Yields random lines, each with its outcome."""
    queues = {}
    for fd, port in PORTS.items():
        yield from (("socket", f"ok {fd}"), (f"bind {fd} 0.0.0.0 {port}", "ok"))
        queues[fd] = Queue()
    for _ in range(LINES):
        fd, kind = rng.choice([*PORTS, 3]), rng.randrange(40)
        queue = queues[fd]
        if kind < 4:
            queue.size = rng.choice([*SIZES, rng.randrange(1, 4000)])
            yield f"setsockopt {fd} rcvbuf {queue.size}", "ok"
        elif kind < 5:
            yield f"setsockopt {fd + 2} rcvbuf {rng.choice(SIZES)}", "error 9 EBADF"
        elif kind < 6:
            queues[fd] = Queue()
            yield from ((f"close {fd}", "ok"), ("socket", f"ok {fd}"), (f"bind {fd} 0.0.0.0 {PORTS[fd]}", "ok"))
        elif kind < 16:
            length = queue.lengths.pop(0) if queue.lengths else None
            read = "error 35 EWOULDBLOCK" if length is None else f"from 10.0.0.2 5000 {'..' if length else '-'}"
            yield f"recvfrom {fd} 65535", read
        else:
            yield arrival(rng, queues, fd)
    for fd, queue in queues.items():
        for _ in queue.lengths:
            yield f"recvfrom {fd} 65535", "from 10.0.0.2 5000 .."
        yield f"recvfrom {fd} 65535", "error 35 EWOULDBLOCK"


@pytest.mark.parametrize("first", range(0, SCRIPTS, TOGETHER))
def test_random_scripts(first, bsdplay):
    for number in range(first, first + TOGETHER):
        made = list(lines(random.Random(number)))
        one = [POOL, *(f"{line} => {outcome}" for line, outcome in made)]
        two = [f"host a {POOL} --addr 10.0.0.1", "host b --addr 10.0.0.2", "wire a b"]
        two += [f"a: {line} => {outcome}" for line, outcome in made]
        for script in (one, two):
            found = [it for it in printed(bsdplay, script, "--quiet") if it.startswith("-:")]
            same(f"script {number}, {script[0]}", found, [])


def test_each_size_takes_the_datagrams_that_fit_exactly(bsdplay):
    """A queue whose size is exactly enough for a datagram takes it, and one byte less doesn't."""
    for length in LENGTHS:
        enough = max(ADDRESS + length, (MBUF + memory_of(length) + 1) // 2)
        for size, outcome in ((enough, "ok"), (enough - 1, "dropped receive queue full")):
            script = ["socket", "bind 3 0.0.0.0 7", f"setsockopt 3 rcvbuf {size} => ok"]
            script += [f"{arriving(7, length)} => {outcome}", "show sockets"]
            said = printed(bsdplay, script)
            same(f"{length} bytes and a size of {size}", [it for it in said if it.startswith("-:")], [])
            queued = f", {ADDRESS + length} of {size} byte{'s' * (size != 1)} queued" if outcome == "ok" else "no datagram"
            same(f"{length} bytes and a size of {size}", said[-1].endswith(queued), True)
