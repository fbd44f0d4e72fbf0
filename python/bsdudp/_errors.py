"""The exceptions for the library's negative results, each with one cause."""
from __future__ import annotations

import errno
import functools
from typing import Dict, Optional, Tuple, Type

from ._library import LIBRARY

# The two results that are ENOBUFS.
POOL_LACKS = -55
QUEUE_IS_FULL = -155
TOO_LONG = -40
MAX_DATAGRAM = 9_216
HEADERS = 28  # of IP and UDP

BOUND_ALREADY = "the socket already has a local address or port: call bind once, before connect and sendto"
NOT_OF_HOST = 'the address must belong to this host, or be "" for all its addresses'
SAME_FOUR = "another socket has the same two addresses and ports"
NO_PACKETS = "a host on an Ethernet has frames instead of packets: use receive and transmit"

# The cause of a result that has several causes in the library's own text, by the call that returned it.
CAUSES: Dict[Tuple[str, int], str] = {
    ("bind", -22): BOUND_ALREADY,
    ("bind", -48): "another socket has this address and port",
    ("bind", -49): NOT_OF_HOST,
    ("bind_random", -22): BOUND_ALREADY,
    ("bind_random", -48): "other sockets have this address and each port of the range",
    ("bind_random", -49): NOT_OF_HOST,
    ("connect", -48): SAME_FOUR,
    ("connect", -49): "the port to connect to must not be 0",
    ("sendto", -48): SAME_FOUR,
    ("sendto", -49): "the port to send to must not be 0",
    ("ether_address", -48): "another host on the network uses the address",
    ("ether_last_error", -61): "no socket has the port at the peer",
    ("ether_last_error", -65): "no route leads to the peer",
    ("rx", -45): NO_PACKETS,
    ("tx", -45): NO_PACKETS,
}


class NoBuffersError(OSError):
    """A send failed because buffers or space were lacking; `errno` is ENOBUFS.

    lack  "pool" if the pool has too few free buffers: nothing was sent. "queue" if the output queue is full: the
          packets that fit are queued.

    >>> socket = bsdudp.Stack(mbufs=1, clusters=0).socket()
    >>> try:
    ...     socket.sendto(bytes(500), ("10.0.0.2", 7))
    ... except bsdudp.NoBuffersError as error:
    ...     print(error.lack)
    pool"""

    def __init__(self, number: int, text: str, lack: str) -> None:
        super().__init__(number, text)
        self.lack = lack

    def __reduce__(self) -> Tuple[Type["NoBuffersError"], Tuple[int, str, str]]:
        """Allows pickling with all three arguments: OSError keeps only two of them."""
        return type(self), (self.errno, self.strerror, self.lack)


@functools.lru_cache(maxsize=None)
def _told(answer: int) -> Tuple[int, str]:
    """Returns the operating system's number for a negative result, and what the library says of it. There are few, and a
    program that receives until nothing is left gets one each time."""
    return getattr(errno, LIBRARY.error_name(answer)), LIBRARY.error_text(answer)


def refused(answer: int, call: str = "", cause: Optional[str] = None) -> OSError:
    """Returns the exception for a negative result of a call. OSError chooses its subclass by the number: EWOULDBLOCK is
    a BlockingIOError. Its text is `cause`; without one, it's what the result means for this call."""
    number, meaning = _told(answer)
    text = cause or CAUSES.get((call.partition("_fate")[0], answer)) or meaning
    if answer in (POOL_LACKS, QUEUE_IS_FULL):
        return NoBuffersError(number, text, "pool" if answer == POOL_LACKS else "queue")
    return OSError(number, text)


def too_long(length: int, mtu: int) -> str:
    """Returns why a datagram of this length was too long: for any send, or for a broadcast, which is one packet."""
    if length > MAX_DATAGRAM:
        return f"a datagram must have at most {MAX_DATAGRAM:,} bytes, not {length:,}"
    return f"a broadcast must have at most {mtu - HEADERS:,} bytes at an MTU of {mtu:,}, not {length:,}"
