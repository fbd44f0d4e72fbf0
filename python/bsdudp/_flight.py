"""The packets in flight, by the carry in which they are due."""
from __future__ import annotations

import heapq
from typing import Dict, List, NamedTuple, Optional

from ._packet import Packet


class InFlight(NamedTuple):
    """A packet in flight: its place in the order of all that ever were, the carry in which it is due, and the place of
    the stack that sent it."""

    order: int
    due: int
    sender: int
    packet: Packet


class Flight:
    """The packets in flight. Its calls for a carry take as long as there are packets due in it, however many others are
    in flight."""

    __slots__ = ("_due", "_carries", "_order", "_count")

    def __init__(self) -> None:
        self._due: Dict[int, List[InFlight]] = {}  # by carry, each in order
        self._carries: List[int] = []  # a heap of the carries in which some are due
        self._order = 0
        self._count = 0

    def __len__(self) -> int:
        return self._count

    def add(self, due: int, sender: int, packet: Packet) -> None:
        """Adds a packet after all others."""
        self._order += 1
        self._count += 1
        it = InFlight(self._order, due, sender, packet)
        if due in self._due:
            self._due[due].append(it)
        else:
            self._due[due] = [it]
            heapq.heappush(self._carries, due)

    def take(self, carry: int) -> List[InFlight]:
        """Removes those that are due in a carry, and returns them in order."""
        taken: List[InFlight] = []
        while self._carries and self._carries[0] <= carry:
            taken += self._due.pop(heapq.heappop(self._carries))
        self._count -= len(taken)
        return taken

    def next_due(self) -> Optional[int]:
        """Returns the next carry in which a packet is due."""
        return self._carries[0] if self._carries else None

    def all(self) -> List[InFlight]:
        """Returns all, in order."""
        return sorted(it for part in self._due.values() for it in part)

    def set_all(self, packets: List[InFlight]) -> None:
        """Replaces all by these, in this order."""
        self._due, self._carries, self._count = {}, [], 0
        for it in packets:
            self.add(it.due, it.sender, it.packet)

    def copy(self) -> "Flight":
        """Returns a copy."""
        twin = Flight()
        twin.set_all(self.all())
        return twin
