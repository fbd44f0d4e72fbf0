"""What happened to a packet that was passed to a stack."""
from __future__ import annotations

from typing import TYPE_CHECKING, Literal, Mapping, NamedTuple, Optional, Tuple

from ._library import FIRST_DESCRIPTOR, LIBRARY, FateOfC

if TYPE_CHECKING:
    from ._socket import Socket


FateKind = Literal["delivered", "kept", "dropped"]


class Fate(NamedTuple):
    """What happened to a packet: the result of `Stack.rx`.

    >>> stack = bsdudp.Stack("10.0.0.1")
    >>> stack.rx(b"short")
    <Fate: dropped, packet shorter than a header>
    >>> stack.rx(b"short").counter
    'ip.toosmall'"""

    kind: FateKind
    """"delivered": its datagram was for the sockets in `got` and `lost`, at least one. "kept": it is a fragment, which
    waits for the others of its datagram. "dropped": it was dropped, or the datagram that it completed, see `cause`."""
    got: Tuple["Socket", ...] = ()
    """The sockets that got the packet's datagram: several for a broadcast."""
    lost: Tuple["Socket", ...] = ()
    """The sockets that lost it: the receive queue was full, or the pool had too few buffers."""
    counter: Optional[str] = None
    """If it was dropped, the name of the counter that counts it, otherwise None."""
    completed: bool = False
    """Whether the packet is a fragment that completed its datagram. The others are about the datagram."""

    @property
    def cause(self) -> Optional[str]:
        """If it was dropped, the cause in words, otherwise None."""
        return None if self.counter is None else LIBRARY.causes[self.counter]

    def __repr__(self) -> str:
        words = [*["completed"] * self.completed, self.kind]
        words += [f"got by {it.descriptor}" for it in self.got] + [f"lost by {it.descriptor}" for it in self.lost]
        if self.cause is not None:
            words.append(self.cause)
        return f"<Fate: {', '.join(words)}>"


KINDS: Tuple[Optional[FateKind], ...] = (None, "delivered", "kept", "dropped")  # by the library's numbers


def _members(of: int, sockets: Mapping[int, "Socket"]) -> Tuple["Socket", ...]:
    """Returns the sockets of a set of the library."""
    found = []
    while of:
        bit = of.bit_length() - 1
        found.append(sockets[FIRST_DESCRIPTOR + bit])
        of ^= 1 << bit
    return tuple(found[::-1])


def fate_of(told: FateOfC, sockets: Mapping[int, "Socket"]) -> Optional[Fate]:
    """Converts the struct of the library. None if no packet reached the stack."""
    kind = KINDS[told.kind]
    if kind is None:
        return None
    counter = LIBRARY.counter_names[told.cause] if kind == "dropped" else None
    return Fate(kind, _members(told.got, sockets), _members(told.lost, sockets), counter, told.completed == 1)
