"""Datagrams that have some of their fragments."""
from __future__ import annotations

from typing import NamedTuple, Tuple

from ._addresses import text_of
from ._library import Range, Unfinished


class HeldRange(NamedTuple):
    """The contiguous bytes of one fragment that an unfinished datagram still uses (see `UnfinishedDatagram`).

    >>> bsdudp.HeldRange(offset=0, length=1480, more=True)
    HeldRange(offset=0, length=1480, more=True)"""

    offset: int
    """The offset of the first byte, counted from the end of the IP header."""
    length: int
    """The number of bytes."""
    more: bool
    """Whether more fragments follow the one that brought these bytes."""


class UnfinishedDatagram(NamedTuple):
    """A datagram that has some of its fragments, while others are missing: an item of `Stack.unfinished`.

    >>> a, b = bsdudp.Stack("10.0.0.1"), bsdudp.Stack("10.0.0.2")
    >>> a.socket().sendto(bytes(2000), ("10.0.0.2", 7))
    2000
    >>> first, second = a.packets()
    >>> b.rx(second)
    <Fate: kept>
    >>> b.unfinished[0].missing
    ((0, 1480),)"""

    source: str
    destination: str
    identification: int
    protocol: int
    """17 is UDP."""
    ticks: int
    """The number of ticks after which it is dropped: 1 to 60."""
    length: int
    """The number of its bytes that have arrived."""
    ranges: Tuple[HeldRange, ...]
    """The bytes that have arrived, in order of offset."""

    @property
    def missing(self) -> Tuple[Tuple[int, int], ...]:
        """The gaps before and between the ranges, each with its first offset and the first offset after it. The length
        of a gap after the last range is unknown; there is one if `more` of that range is True."""
        ends = [0, *(held.offset + held.length for held in self.ranges)]
        return tuple((end, held.offset) for end, held in zip(ends, self.ranges) if end < held.offset)

    def _cells(self) -> str:
        """Its row in the table of a stack's unfinished datagrams."""
        held = ", ".join(f"{it.offset} to {it.offset + it.length - 1}" for it in self.ranges)
        last = self.ranges[-1].more
        cells = (
            f"{self.source} &gt; {self.destination}, id {self.identification}, protocol {self.protocol}",
            self.ticks,
            f"{held}, more to come" if last else held,
        )
        return "".join(f"<td>{cell}</td>" for cell in cells)


def told(datagram: Unfinished, ranges: Tuple[Range, ...]) -> UnfinishedDatagram:
    """Converts the structs of the library."""
    return UnfinishedDatagram(
        text_of(datagram.source),
        text_of(datagram.destination),
        datagram.id,
        datagram.protocol,
        datagram.ticks,
        datagram.bytes,
        tuple(HeldRange(it.offset, it.len, bool(it.more)) for it in ranges),
    )
