"""The counters of a stack, and the causes of drops."""
from __future__ import annotations

import html
from typing import Dict, Iterator, List, Mapping, NamedTuple

from ._library import LIBRARY


class MbStat(NamedTuple):
    """The usage of a stack's pool: the value of `Stack.mbstat`.

    >>> bsdudp.Stack(mbufs=64, clusters=16).mbstat
    MbStat(free_mbufs=64, mbufs=64, free_clusters=16, clusters=16, refs=0, most=0)"""

    free_mbufs: int
    mbufs: int
    free_clusters: int
    clusters: int
    refs: int
    """The sum of the reference counts of all clusters: the number of references from mbufs to clusters."""
    most: int
    """The greatest reference count of a cluster."""


class Counters(Mapping[str, int]):
    """A snapshot of the counters of a stack: a mapping from name to value. `repr` shows the counters that are not 0.

    ip.total, ip.fragments, ip.reassembled, ip.localout and ip.fragmented count packets and datagrams that were
    processed. Every other counter counts packets or datagrams that were dropped; `causes` gives its meaning in words.
    Source: TCP/IP Illustrated, volume 2, chapters 8 (ipstat) and 23 (udpstat).

    >>> stack = bsdudp.Stack("10.0.0.1")
    >>> before = stack.counters
    >>> stack.rx(b"short")
    <Fate: dropped, packet shorter than a header>
    >>> stack.counters["ip.toosmall"]
    1
    >>> stack.counters.since(before).causes()
    ['packet shorter than a header']"""

    __slots__ = ("_values",)

    def __init__(self, values: Dict[str, int]) -> None:
        self._values = values

    def __getitem__(self, name: str) -> int:
        return self._values[name]

    def __iter__(self) -> Iterator[str]:
        return iter(self._values)

    def __len__(self) -> int:
        return len(self._values)

    def since(self, before: Mapping[str, int]) -> "Counters":
        """Returns the counters that have increased since the snapshot `before`, each with its increase."""
        risen = {name: value - before[name] for name, value in self._values.items() if value != before[name]}
        return Counters(risen)

    def causes(self) -> List[str]:
        """Returns a list of str: for each counter of drops that is not 0, the cause in words and, if it is above 1, the
        number of times."""
        return [
            text if self._values[name] == 1 else f"{text} ({self._values[name]} times)"
            for name, text in LIBRARY.causes.items()
            if self._values.get(name)
        ]

    def __repr__(self) -> str:
        return "Counters(" + ", ".join(f"{name}={value}" for name, value in self._values.items() if value) + ")"

    def _repr_html_(self) -> str:
        rows = "".join(
            f"<tr><td>{html.escape(name)}</td><td>{value}</td></tr>" for name, value in self._values.items() if value
        )
        return f'<table aria-label="counters that aren\'t 0">{rows}</table>'
