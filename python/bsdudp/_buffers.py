"""Bytes-like objects, as Python's own sockets accept them."""
from __future__ import annotations

from typing import TYPE_CHECKING

if TYPE_CHECKING:
    from _typeshed import ReadableBuffer, WriteableBuffer


def octets(data: ReadableBuffer) -> bytes:
    """Returns the bytes of an object with a buffer: bytes, a bytearray, a memoryview, an array, an array of numpy."""
    if isinstance(data, bytes):
        return data
    try:
        return bytes(memoryview(data))
    except TypeError:
        raise TypeError(f"data must be bytes, not {type(data).__name__}") from None


def room(buffer: WriteableBuffer) -> memoryview:
    """Returns the bytes of a writable, contiguous buffer."""
    try:
        view = memoryview(buffer).cast("B")
    except TypeError:
        raise TypeError(f"the buffer must be contiguous bytes, not {type(buffer).__name__}") from None
    if view.readonly:
        raise TypeError(f"the buffer must be writable, not {type(buffer).__name__}")
    return view
