"""Objects that the module `copy` and pickle can't copy."""
from __future__ import annotations

from typing import NoReturn, SupportsIndex


class Uncopied:
    """The base of classes whose objects the module `copy` and pickle cannot copy: trying it raises a TypeError that
    says what to do. An attribute that such a class doesn't have cannot be set either."""

    __slots__ = ("__weakref__",)

    def _uncopied(self, how: str, instead: str) -> NoReturn:
        raise TypeError(f"a {type(self).__name__} can't be {how}: {instead}")

    def __copy__(self) -> NoReturn:
        self._uncopied("copied by the module copy", "call Stack.copy() or Wire.copy()")

    def __deepcopy__(self, memo: object) -> NoReturn:
        self.__copy__()

    def __reduce_ex__(self, protocol: SupportsIndex) -> NoReturn:
        self._uncopied("pickled", "create a Stack(..) in the process that uses it")
