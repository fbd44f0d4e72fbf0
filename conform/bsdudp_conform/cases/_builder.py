"""Builds cases."""
from __future__ import annotations

import contextlib
import itertools
import random
from collections import Counter
from typing import Any, Iterator, List, Optional, Sequence, Tuple, Union

from .._case import Case, Receive, Step, Wait
from .._packets import packet, pieces, udp
from .._rules import RULES

Given = Union[bytes, int, Step]


class Builder:
    """Makes cases by rule, with random bytes from a seed: the same seed gives the same cases."""

    def __init__(self, seed: int) -> None:
        self.seed = seed
        self.random = random.Random(seed)
        self.cases: List[Case] = []
        self._numbers: "Counter[str]" = Counter()
        self._identifications: Iterator[int] = itertools.cycle(range(0x100, 0xF000))

    def data(self, length: int) -> bytes:
        """Random bytes, drawn in large blocks, which is faster."""
        if length < 64:
            return bytes(self.random.randrange(256) for _ in range(length))
        return self.random.getrandbits(8 * length).to_bytes(length, "little")

    @property
    def id(self) -> int:
        """A fresh identification."""
        return next(self._identifications)

    @contextlib.contextmanager
    def apart(self) -> Iterator[None]:
        """Cases made within it have separate random bytes: cases made later are the same as without it."""
        kept, self.random = self.random, random.Random(f"apart {self.seed}")
        yield
        self.random = kept

    def add(
        self, rule: str, title: str, steps: Sequence[Given], mtu: int = 1500, parts: Sequence[Case] = ()
    ) -> None:
        """A case. A step may be given as a packet's bytes, or as milliseconds to wait."""
        assert rule in RULES, rule
        self._numbers[rule] += 1
        names = tuple((it.name, len(it.steps)) for it in parts)
        self.cases.append(Case(rule, self._numbers[rule], title, tuple(map(step_of, steps)), mtu, names))

    def one(self, rule: str, title: str, made: bytes) -> None:
        """A case of a single packet."""
        self.add(rule, title, [made])

    def cut(self, count: int, last: Optional[int] = None) -> Tuple[List[int], int]:
        """The offsets at which a datagram is cut into this many fragments, and its length."""
        sizes = [8 * self.random.randint(1, 6) for _ in range(count - 1)]
        cuts = list(itertools.accumulate(sizes))
        return cuts, cuts[-1] + (last or self.random.randint(1, 40))

    def halves(self, **fields: Any) -> List[bytes]:
        """Two fragments of a datagram of 40 fresh bytes, cut at 24."""
        return pieces(udp(self.data(40)), [24], id=self.id, **fields)

    def whole(self, length: int = 10, **fields: Any) -> bytes:
        """A datagram of fresh bytes in one packet."""
        return packet(udp(self.data(length)), **fields)


def step_of(given: Given) -> Step:
    if isinstance(given, bytes):
        return Receive(given)
    return Wait(given) if isinstance(given, int) else given


def both_ways(packets: Sequence[bytes]) -> List[Tuple[str, List[bytes]]]:
    """The same packets forwards and backwards, with the word for it."""
    return [("forwards", list(packets)), ("backwards", list(packets)[::-1])]
