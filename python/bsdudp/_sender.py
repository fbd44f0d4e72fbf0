"""What a wire does to the packets of each stack."""
from __future__ import annotations

import copy
from typing import TYPE_CHECKING, Dict, Optional, SupportsIndex, Tuple, Union

from ._addresses import in_range
from ._losses import LossRule
from ._pcg import Chance, limit_of
from ._uncopied import Uncopied

if TYPE_CHECKING:
    from ._stack import Stack

Loss = Union[Chance, LossRule]
Delay = Tuple[SupportsIndex, SupportsIndex]

LONGEST_DELAY = 1_000_000


class Sender(Uncopied):
    """What a wire does to the packets that one stack sends: the value of `Wire.sender`. `loss`, `repeat`, `reorder` and
    `delay` are those of `Wire`, and can be set at any time.

    >>> a, b = bsdudp.Stack("10.0.0.1"), bsdudp.Stack("10.0.0.2")
    >>> wire = bsdudp.Wire([a, b], loss=0.1)
    >>> wire.sender(b).loss = 0.5
    >>> wire.sender(a).loss, wire.sender(b).loss
    (0.1, 0.5)"""

    # Those after `_delay` are what the wire uses of the attributes.
    __slots__ = (
        "_stack", "_loss", "_repeat", "_reorder", "_delay", "_lost", "_rule", "_repeated", "_swapped", "_waits",
    )  # fmt: skip

    def __init__(self, stack: "Stack") -> None:
        self._stack = stack
        self.loss, self.repeat, self.reorder, self.delay = 0, 0, 0, (0, 0)

    @property
    def stack(self) -> "Stack":
        """The stack."""
        return self._stack

    @property
    def loss(self) -> Loss:
        """The probability that a packet is lost, or a function of `Sent` that returns whether one is."""
        return self._loss

    @loss.setter
    def loss(self, value: Loss) -> None:
        self._rule: Optional[LossRule] = value if callable(value) else None
        try:
            self._lost = 0 if callable(value) else limit_of("loss", value)
        except TypeError:
            kinds = "a number of 0 to 1, or a function of a Sent, such as bsdudp.Nth(3)"
            raise TypeError(f"loss must be {kinds}, not {type(value).__name__}") from None
        self._loss = value

    @property
    def repeat(self) -> Chance:
        """The probability that a packet is delivered twice."""
        return self._repeat

    @repeat.setter
    def repeat(self, value: Chance) -> None:
        self._repeated = limit_of("repeat", value)
        self._repeat = value

    @property
    def reorder(self) -> Chance:
        """The probability that a packet that is due is swapped with the one after it."""
        return self._reorder

    @reorder.setter
    def reorder(self, value: Chance) -> None:
        self._swapped = limit_of("reorder", value)
        self._reorder = value

    @property
    def delay(self) -> Delay:
        """The smallest and the greatest number of carries for which a packet is in flight."""
        return self._delay

    @delay.setter
    def delay(self, value: Delay) -> None:
        if not isinstance(value, tuple) or len(value) != 2:
            raise TypeError("delay must be a tuple of the smallest and the greatest number of carries, such as (0, 3)")
        least = in_range("the shortest delay", value[0], 0, LONGEST_DELAY)
        most = in_range("the longest delay", value[1], least, LONGEST_DELAY)
        self._waits = least, most - least + 1
        self._delay = value

    def _copy_to(self, twin: "Sender", rules: Dict[int, Loss]) -> None:
        """Gives the sender of a copied wire the same settings. A function is copied once for all senders that share
        it."""
        twin.loss = rules.setdefault(id(self._loss), copy.copy(self._loss))
        twin.repeat, twin.reorder, twin.delay = self._repeat, self._reorder, self._delay

    def __repr__(self) -> str:
        settings = f"loss={self._loss}, repeat={self._repeat}, reorder={self._reorder}, delay={self._delay}"
        return f"<Sender {self._stack.addr}, {settings}>"
