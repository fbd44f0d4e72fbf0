"""The random numbers for a wire's choices: PCG XSH RR 64/32 (O'Neill 2014), like Rust's `rand_pcg::Pcg32`."""
from __future__ import annotations

from decimal import Decimal
from fractions import Fraction
from numbers import Real
from typing import SupportsIndex, Union

MULTIPLIER = 6_364_136_223_846_793_005
STREAM = 0xA02B_DBF7_BB3C_0A7
MASK = (1 << 64) - 1

Chance = Union[float, str, Decimal, Fraction, SupportsIndex]


class Pcg32:
    """A generator that returns the same numbers for the same seed on every computer."""

    __slots__ = ("_increment", "_state")

    def __init__(self, seed: int, stream: int = STREAM) -> None:
        self._increment = (stream << 1 | 1) & MASK
        self._state = (seed + self._increment) & MASK
        self._step()

    def _step(self) -> None:
        self._state = (self._state * MULTIPLIER + self._increment) & MASK

    def copy(self) -> "Pcg32":
        """Returns a generator that returns the same numbers from here on."""
        twin = Pcg32.__new__(Pcg32)
        twin._increment, twin._state = self._increment, self._state
        return twin

    def next_u32(self) -> int:
        """Returns the next 32-bit number."""
        state = self._state
        self._state = (state * MULTIPLIER + self._increment) & MASK
        turn = state >> 59
        word = ((state >> 18) ^ state) >> 27 & 0xFFFF_FFFF
        return (word >> turn | word << (32 - turn)) & 0xFFFF_FFFF

    def below(self, bound: int) -> int:
        """Returns a number of 0 to `bound` - 1: the next number, times `bound`, divided by 2 to the 32nd."""
        return self.next_u32() * bound >> 32

    def happens(self, limit: int) -> bool:
        """Returns whether the next number is below `limit`, which is a result of `limit_of`."""
        return self.next_u32() < limit


def limit_of(what: str, chance: Chance) -> int:
    """Returns the limit for a probability from 0 to 1, taken as it is written: 0.05 is exactly one twentieth. An event
    with probability 1 always happens."""
    if isinstance(chance, bool) or not isinstance(chance, (Real, str, Decimal)):
        raise TypeError(f"{what} must be a number, not {type(chance).__name__}")
    try:
        exact = Fraction(str(chance))
    except ValueError:
        raise ValueError(f"{what} must be 0 to 1, not {chance}") from None
    if not 0 <= exact <= 1:
        raise ValueError(f"{what} must be 0 to 1, not {chance}")
    return int(exact * (1 << 32))
