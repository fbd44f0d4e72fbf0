"""Which packets a wire loses, other than by one chance for each."""
from __future__ import annotations

from typing import TYPE_CHECKING, Callable, NamedTuple, SupportsIndex

from ._addresses import in_range
from ._packet import Packet
from ._pcg import Chance, Pcg32, limit_of

if TYPE_CHECKING:
    from ._stack import Stack

LAST_SEED = (1 << 64) - 1
EACH = 1 << 32  # the limit of what always happens


class Sent(NamedTuple):
    """A packet that is put on a wire: the argument of a function that is a wire's `loss`, and of `Wire.on_loss`.

    >>> def to_port_7(sent):
    ...     return sent.packet[22:24] == b"\\0\\7"
    >>> a, b = bsdudp.Stack("10.0.0.1"), bsdudp.Stack("10.0.0.2")
    >>> wire, socket = bsdudp.Wire([a, b], loss=to_port_7), a.socket()
    >>> for port in (7, 9):
    ...     sent = socket.sendto(b"hi", ("10.0.0.2", port))
    >>> quiet = wire.run()
    >>> wire.carried.lost
    1"""

    number: int
    """Its number among the packets that were put on this wire, counted from 1."""
    sender: "Stack"
    packet: Packet
    now: int
    """The wire's time, in milliseconds."""


LossRule = Callable[[Sent], object]


class Nth:
    """Loses the packets with these numbers, counted from 1. For `Wire.loss` it counts the packets of all stacks, for
    `Sender.loss` those of one.

    >>> a, b = bsdudp.Stack("10.0.0.1"), bsdudp.Stack("10.0.0.2")
    >>> wire, socket = bsdudp.Wire([a, b], loss=bsdudp.Nth(2, 5)), a.socket()
    >>> wire.on_loss = lambda lost: print(lost.packet)
    >>> for _ in range(6):
    ...     sent = socket.sendto(b"hi", ("10.0.0.2", 7))
    >>> quiet = wire.run()
    <Packet 10.0.0.1 > 10.0.0.2 udp 1024 > 7, id 2, 30 bytes>
    <Packet 10.0.0.1 > 10.0.0.2 udp 1024 > 7, id 5, 30 bytes>"""

    __slots__ = ("_numbers", "_count")

    def __init__(self, *numbers: SupportsIndex) -> None:
        self._numbers = frozenset(in_range("a packet's number", number, 1, 1 << 63) for number in numbers)
        self._count = 0

    def __call__(self, sent: Sent) -> bool:
        self._count += 1
        return self._count in self._numbers

    def __repr__(self) -> str:
        return f"Nth({', '.join(map(str, sorted(self._numbers)))})"


class Bursts:
    """Loses packets in bursts (Gilbert 1960). Before each packet outside of a burst, a burst begins with probability
    `chance`; in a burst all packets are lost; after each, the burst ends with probability 1 / `length`. So `length` is
    the mean number of packets in a burst, 1 or more. The choices are determined by `seed`.

    >>> a, b = bsdudp.Stack("10.0.0.1"), bsdudp.Stack("10.0.0.2")
    >>> wire, socket = bsdudp.Wire([a, b], loss=bsdudp.Bursts(0.02, length=4, seed=4)), a.socket()
    >>> lost = []
    >>> wire.on_loss = lambda sent: lost.append(sent.number)
    >>> for _ in range(200):
    ...     sent = socket.sendto(b"hi", ("10.0.0.2", 7))
    ...     quiet = wire.run()
    >>> lost
    [1, 2, 170, 171, 172, 173]"""

    __slots__ = ("_begins", "_ends", "_random", "_is_in", "_shown")

    def __init__(self, chance: Chance, length: float, seed: SupportsIndex = 1) -> None:
        self._begins = limit_of("chance", chance)
        if not length >= 1:
            raise ValueError(f"length must be a mean number of packets, 1 or more, not {length}")
        self._ends = min(EACH, round(EACH / length))
        self._random = Pcg32(in_range("seed", seed, 0, LAST_SEED))
        self._is_in = False
        self._shown = f"Bursts({chance}, {length}, {seed})"

    def __call__(self, sent: Sent) -> bool:
        lost = self._is_in or self._random.happens(self._begins)
        self._is_in = lost and not self._random.happens(self._ends)
        return lost

    def __copy__(self) -> "Bursts":
        twin = type(self).__new__(type(self))
        twin._begins, twin._ends, twin._shown = self._begins, self._ends, self._shown
        twin._random, twin._is_in = self._random.copy(), self._is_in
        return twin

    def __repr__(self) -> str:
        return self._shown
