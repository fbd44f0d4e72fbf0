"""The calls that a simulation makes for each datagram. Each is one call of the library that keeps Python's lock (the
GIL): a call of a microsecond isn't worth releasing it."""
from __future__ import annotations

import ctypes
import errno
import functools
from typing import TYPE_CHECKING, List, SupportsIndex, Tuple

from ._addresses import Address, Host, in_range, number_of, text_of
from ._errors import TOO_LONG, refused, too_long
from ._fate import Fate, fate_of
from ._library import LIBRARY, FateOfC
from ._library import Address as Raw

if TYPE_CHECKING:
    from ._socket import Socket
    from ._stack import Stack

CLOSED = "the socket is closed"
ENDED = "the stack has ended"
LONGEST = 65_535  # no datagram is longer

_sendto = LIBRARY.quick("sendto", [ctypes.c_uint32, ctypes.c_void_p, ctypes.c_char_p, ctypes.c_size_t])
_receive = LIBRARY.quick("recvfrom_trunc", [ctypes.c_uint32, ctypes.c_void_p, ctypes.c_size_t, ctypes.c_void_p])
_transmit = LIBRARY.quick("tx", [ctypes.c_void_p, ctypes.c_size_t])
_rx = LIBRARY.quick("rx_fate", [ctypes.c_char_p, ctypes.c_size_t, ctypes.POINTER(FateOfC)])


class _Room:
    """A buffer for a datagram, and one for its sender."""

    __slots__ = ("at", "sender", "sender_at", "_bytes")

    def __init__(self) -> None:
        self._bytes = ctypes.create_string_buffer(LONGEST)
        self.at = ctypes.addressof(self._bytes)
        self.sender = Raw()
        self.sender_at = ctypes.addressof(self.sender)


# Buffers that no call uses. A call takes one out, because another thread or a signal handler may receive before it has
# read its bytes.
_rooms: List[_Room] = []


@functools.lru_cache(maxsize=4096, typed=True)
def _known(host: Host, port: SupportsIndex) -> Tuple[Raw, int]:
    """Returns an address for the library, and where it is: a simulation sends to the same addresses again and again."""
    kept = Raw(number_of(host), in_range("a port", port, 0, 65_535))
    return kept, ctypes.addressof(kept)


def endpoint(address: object) -> Tuple[Raw, int]:
    """Returns an address for the library, and where it is. TypeError or ValueError if it is not an `Endpoint`."""
    if not isinstance(address, tuple) or len(address) != 2:
        raise TypeError("an address must be a tuple of a host and a port, such as ('10.0.0.1', 7)")
    try:
        return _known(*address)
    except TypeError:  # a host that can't be a key, or is of a wrong type
        pass
    return _known.__wrapped__(*address)


def sendto(socket: "Socket", data: bytes, to: Tuple[Raw, int]) -> int:
    """Sends one datagram, and returns its length. The wires are told also if it fails: a full queue has taken the packets
    that fit."""
    stack = socket._stack
    turn = stack._turn
    if not turn.take(False):
        raise turn.taken()
    try:
        if socket._descriptor is None or not stack._live:
            raise OSError(errno.EBADF, CLOSED)
        if stack._place.here is not stack._state:
            stack._place.bring(stack._state)
        answer = _sendto(stack._handle_at, socket._descriptor, to[1], data, len(data))
        if stack._wires:
            stack._sends()
    finally:
        turn.give()
    if answer < 0:
        raise refused(answer, "sendto", too_long(len(data), stack.mtu) if answer == TOO_LONG else None)
    return answer


def receive(socket: "Socket", most: int) -> Tuple[bytes, Address, int]:
    """Removes the oldest datagram. Returns its first bytes, at most this many, its sender, and its length."""
    stack = socket._stack
    turn = stack._turn
    if not turn.take(False):
        raise turn.taken()
    try:
        if socket._descriptor is None or not stack._live:
            raise OSError(errno.EBADF, CLOSED)
        if stack._place.here is not stack._state:
            stack._place.bring(stack._state)
        room = _rooms.pop() if _rooms else _Room()
        size = most if most < LONGEST else LONGEST
        length = _receive(stack._handle_at, socket._descriptor, room.at, size, room.sender_at)
    finally:
        turn.give()
    if length < 0:
        _rooms.append(room)
        raise refused(length, "recvfrom")
    data = ctypes.string_at(room.at, length if length < size else size)
    sender = text_of(room.sender.ip), room.sender.port
    _rooms.append(room)
    return data, sender, length


def transmit(stack: "Stack") -> bytes:
    """Removes the oldest packet from the output queue, and returns its bytes: none if the queue is empty."""
    turn = stack._turn
    if not turn.take(False):
        raise turn.taken()
    try:
        if not stack._live:
            raise ValueError(ENDED)
        if stack._place.here is not stack._state:
            stack._place.bring(stack._state)
        length = _transmit(stack._handle_at, stack._room_at, stack._config.mtu)
        packet = ctypes.string_at(stack._room_at, length) if length > 0 else b""
    finally:
        turn.give()
    if length < 0:
        raise refused(length, "tx")
    return packet


def rx(stack: "Stack", packet: bytes) -> Fate:
    """Passes a packet to a stack that makes no notes. Returns what happened to it."""
    told = FateOfC()
    turn = stack._turn
    if not turn.take(False):
        raise turn.taken()
    try:
        if not stack._live:
            raise ValueError(ENDED)
        if stack._place.here is not stack._state:
            stack._place.bring(stack._state)
        answer = _rx(stack._handle_at, packet, len(packet), told)
        fate = fate_of(told, stack._sockets)
    finally:
        turn.give()
    if answer < 0 or fate is None:
        raise refused(answer, "rx_fate")
    return fate
