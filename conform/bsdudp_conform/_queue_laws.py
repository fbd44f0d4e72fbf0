"""The law of held reads: what is read of a held socket came for it, in the order in which it came, each datagram once;
and a full queue drops newcomers or its oldest datagrams, and none between."""
from __future__ import annotations

from dataclasses import dataclass, field
from typing import Dict, Iterator, List, Optional, Sequence

from ._case import Answer, Case, Got, Hold, ReadHeld
from ._wire_laws import HELD, MUST, Breach

ORDER, LOST = "hold.order", "hold.lost"
NOT_READ = "a datagram that waited isn't read"
# The longest UDP datagram that each host accepts: RFC 1122, section 3.3.2, without the IP header.
ACCEPTED = 556


@dataclass
class Period:
    """What came for a socket between two reads of it. is_empty: nothing waited when it began."""

    is_empty: bool
    came: List[int] = field(default_factory=list)
    read_at: Optional[int] = None


def is_same(one: Got, other: Got) -> bool:
    """Whether two are one datagram. A sender that the adapter can't know isn't compared."""
    return one.data == other.data and (other.source is None or (one.source, one.port) == (other.source, other.port))


def held_reads(case: Case, arrivals: Sequence[Got], answer: Answer) -> List[Breach]:
    """All breaches of the law. arrivals: the datagrams of all sockets, in the order in which they came."""
    found: List[Breach] = []
    since = {step.socket: number for number, step in reversed([*enumerate(case.steps)]) if isinstance(step, Hold)}
    for socket, first in since.items():
        came = [it for it in arrivals if it.socket == socket and it.step > first]
        got = [it for it in answer.got if it.socket == socket and it.step > first]
        early = next((it for it in got if not isinstance(case.steps[it.step], ReadHeld)), None)
        if early is not None:
            words = "a datagram of a held socket is reported before it's read"
            found.append(Breach(MUST, ORDER, words, early.step, "no datagram before `read`"))
            continue
        shown, wrong = in_order(came, got)
        found += wrong or lost(case, socket, first, came, shown)
    return found


def in_order(came: Sequence[Got], got: Sequence[Got]) -> "tuple[Dict[int, int], List[Breach]]":
    """The step at which each datagram was read, and what is wrong with their order. What never came isn't looked at:
    another law does."""
    shown: Dict[int, int] = {}
    latest = -1
    for it in got:
        places = [place for place, one in enumerate(came) if is_same(one, it)]
        fresh = [place for place in places if place not in shown]
        if places and not fresh:
            return shown, [Breach(MUST, ORDER, "a datagram that waited is read twice", it.step, "each once")]
        if fresh and fresh[0] < latest:
            words = "a datagram that waited is read after one that came later"
            return shown, [Breach(MUST, ORDER, words, it.step, "the order in which they came")]
        if fresh:
            latest = fresh[0]
            shown[latest] = it.step
    return shown, []


def periods(case: Case, socket: int, first: int, came: Sequence[Got], shown: Dict[int, int]) -> Iterator[Period]:
    """The times between the reads of a socket, without what came after the last one."""
    it, place, waiting = Period(True), 0, 0
    for number, step in enumerate(case.steps):
        while place < len(came) and came[place].step <= number:
            it.came.append(place)
            place += 1
        if number > first and isinstance(step, ReadHeld) and step.socket == socket:
            it.read_at = number
            yield it
            waiting = step.count - sum(at == number for at in shown.values())
            it = Period(waiting > 0)


def lost(case: Case, socket: int, first: int, came: Sequence[Got], shown: Dict[int, int]) -> Iterator[Breach]:
    """Datagrams that are lost although a queue has no reason for it."""
    alike = len({len(it.data) for it in came}) == 1
    for it in periods(case, socket, first, came, shown):
        must = [place for place in it.came if 8 + len(came[place].data) <= ACCEPTED]
        if it.is_empty and must and not any(place in shown for place in it.came):
            words = f"none of {len(it.came)} datagrams that waited is read" if len(it.came) > 1 else NOT_READ
            way = HELD + NOT_READ
            yield Breach(MUST, LOST, words, it.read_at, "one of them, or more", NOT_READ, (), way, came[must[0]])
            return
        for place in it.came if alike else ():
            later = any(other > place and other in shown for other in it.came)
            earlier = any(other < place and at >= (it.read_at or 0) for other, at in shown.items())
            if place not in shown and later and earlier:
                words = "a datagram that waited is lost, and those of its length before and after it are read"
                yield Breach(MUST, LOST, words, it.read_at, "newcomers are dropped, or the oldest")
                return
