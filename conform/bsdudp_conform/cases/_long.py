"""Long runs, with `--long`: what leaks, and clocks that wrap."""
from __future__ import annotations

from typing import List

from .._addresses import PEER
from .._case import Send
from .._packets import packet, udp
from ._builder import Builder, Given
from ._datagrams import EACH_LENGTH, LONG_LENGTH, add_lengths

MANY, BATCH = 10_000, 100
# More than there are identifications.
WRAPS_ID = 65_600
# When a clock of 31 or 32 bits wraps that counts microseconds or milliseconds.
WRAPS_MS = (2**31 // 1000, 2**32 // 1000, 2**31, 2**32)
MOST_WAIT_MS = 10**9


def add_long(to: Builder) -> None:
    add_lengths(to, LONG_LENGTH, EACH_LENGTH + 1)
    whole: List[Given] = [packet(udp(to.data(10)), id=to.id) for _ in range(MANY)]
    to.add("udp.data", f"{MANY:,} datagrams, one after the other", whole)
    halves: List[Given] = [piece for _ in range(MANY // 2) for piece in to.halves()]
    to.add("frag.order", f"{MANY // 2:,} datagrams in two fragments, one after the other", halves)
    expired: List[Given] = []
    for _ in range(MANY // BATCH):
        expired += [*(to.halves()[1] for _ in range(BATCH)), 130_000]
    to.add("frag.time.drop", f"{MANY:,} unfinished datagrams expire, and two fragments come", [*expired, *to.halves()])
    for wrap in WRAPS_MS:
        one, other = to.halves()
        before = wrap - 1_000
        waits: List[Given] = [*[MOST_WAIT_MS] * (before // MOST_WAIT_MS), before % MOST_WAIT_MS]
        title = f"two fragments, 2 s apart, while the clock passes {wrap:,} ms"
        to.add("frag.time.keep", title, [*waits, one, 2_000, other])
    to.add("send.id", f"{WRAPS_ID:,} cut sends", [Send(0, PEER, 5000, to.data(60))] * WRAPS_ID, mtu=68)
