"""The memory in which the library works on a stack and on its copies."""
from __future__ import annotations

import ctypes
import threading
from types import TracebackType
from typing import Callable, Optional, Type

from ._library import ALIGNMENT


class Turn:
    """The lock of a stack, which a method holds while it runs. It never blocks: a second thread gets a RuntimeError.
    `take(False)` and `give` are the lock's own methods, for the calls that are made for each datagram."""

    __slots__ = ("take", "give")

    def __init__(self) -> None:
        lock = threading.Lock()
        self.take: Callable[[bool], bool] = lock.acquire
        self.give: Callable[[], None] = lock.release

    @staticmethod
    def taken() -> RuntimeError:
        """Returns the exception for a second thread."""
        return RuntimeError(
            "another thread, or what a signal handler stopped, is in this stack or in a copy of it: put a lock"
            " round the calls, or give each thread a stack of its own"
        )

    def __enter__(self) -> None:
        if not self.take(False):
            raise self.taken()

    def __exit__(
        self,
        kind: Optional[Type[BaseException]],
        fault: Optional[BaseException],
        trace: Optional[TracebackType],
    ) -> None:
        self.give()


class State:
    """The bytes of a stack's memory while they are set aside. None while they are in their place."""

    __slots__ = ("aside",)

    def __init__(self, aside: Optional[bytes] = None) -> None:
        self.aside = aside


class Place:
    """Memory for the library. A stack's memory holds addresses of itself, so the stack works at one place only. Its
    copies work at the same place: one state at a time is there, and the others are set aside."""

    __slots__ = ("at", "size", "turn", "here", "_memory")

    def __init__(self, size: int) -> None:
        self._memory = ctypes.create_string_buffer(size + ALIGNMENT)
        at = ctypes.addressof(self._memory)
        self.at = at + -at % ALIGNMENT
        self.size = size
        self.turn = Turn()
        self.here = State()

    def bring(self, state: State) -> None:
        """Brings a state into the place, and sets aside the one that is there. Only bytes are copied."""
        if state.aside is None:
            raise AssertionError("a state that is neither here nor aside")
        self.here.aside = ctypes.string_at(self.at, self.size)
        ctypes.memmove(self.at, state.aside, self.size)
        state.aside = None
        self.here = state

    def copied(self, state: State) -> State:
        """Returns a copy of a state, set aside."""
        return State(ctypes.string_at(self.at, self.size) if state is self.here else state.aside)
