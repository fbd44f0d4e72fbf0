"""A socket of a stack, with the methods of Python's own `socket`."""
from __future__ import annotations

import ctypes
import errno
import operator
import os
import socket as host
import warnings
from random import Random
from types import TracebackType
from typing import TYPE_CHECKING, List, NamedTuple, NoReturn, Optional, SupportsIndex, Tuple, Type, Union, overload

from . import _quick
from ._addresses import Address, Endpoint, Host, in_range, number_of, raw, text_of
from ._buffers import octets, room
from ._errors import TOO_LONG, refused, too_long
from ._library import SO_BROADCAST, SO_RCVBUF, SO_REUSEPORT, Name, Next, Note
from ._library import Address as Raw
from ._notes import OPTIONS as NOTED
from ._notes import Notes
from ._uncopied import Uncopied

if TYPE_CHECKING:
    from _typeshed import ReadableBuffer, WriteableBuffer

    from ._stack import Stack

LONGEST = 65_507
MOST_OF_QUEUE = 65_535  # the largest value of SO_RCVBUF
ROOM = 1 << 30  # the largest `bufsize`
MSG_PEEK = int(host.MSG_PEEK)
MSG_TRUNC = int(getattr(host, "MSG_TRUNC", 0x20))

# The operating system's numbers of the options, which programs use, and the library's.
OPTIONS = {
    int(host.SO_BROADCAST): SO_BROADCAST,
    int(getattr(host, "SO_REUSEPORT", 15)): SO_REUSEPORT,
    int(host.SO_RCVBUF): SO_RCVBUF,
}


class CutDatagramWarning(RuntimeWarning):
    """`bufsize` was smaller than the datagram: the rest is lost, as with any UDP socket. `recvmsg` returns the flag
    MSG_TRUNC instead of this warning.

    >>> import warnings
    >>> stack = bsdudp.Stack("10.0.0.1")
    >>> socket = stack.socket()
    >>> socket.bind(("", 7))
    >>> socket.sendto(b"hello", ("10.0.0.1", 7))
    5
    >>> with warnings.catch_warnings(record=True) as caught:
    ...     warnings.simplefilter("always")
    ...     socket.recv(2)
    ...     caught[0].category.__name__
    b'he'
    'CutDatagramWarning'"""


class Waiting(NamedTuple):
    """The oldest datagram in a receive queue: the value of `Socket.waiting`.

    >>> socket = bsdudp.Stack("10.0.0.1").socket()
    >>> socket.bind(("", 7))
    >>> socket.sendto(b"hi", ("10.0.0.1", 7))
    2
    >>> socket.waiting
    Waiting(sender=('10.0.0.1', 7), length=2, datagrams=1)"""

    sender: Address
    length: int
    """Its length in bytes."""
    datagrams: int
    """The number of datagrams in the queue, including this one."""


class _Taken(NamedTuple):
    """A received datagram: its first bytes, its sender, whether it had more bytes, and its note."""

    data: bytes
    sender: Address
    is_cut: bool
    note: Optional[Note] = None


NO_DESCRIPTOR = (
    "a socket of a simulated stack has no descriptor of the operating system, so select, selectors and asyncio can't"
    " wait for it: ask Socket.waiting or Stack.readable() after packets arrived. Its number in the stack is"
    " Socket.descriptor"
)


def _no_flags(name: str, flags: object) -> None:
    if flags != 0:
        raise ValueError(f"{name}: flags must be 0")


def _has_peek(name: str, flags: object) -> bool:
    """Returns whether the flags are MSG_PEEK. There is no other flag."""
    if flags not in (0, MSG_PEEK):
        raise ValueError(f"{name}: flags must be 0 or MSG_PEEK")
    return flags == MSG_PEEK


def _warn_of_cut(sender: Address, most: int, depth: int) -> None:
    """Warns that a datagram was truncated. The warning names the line `depth` calls above this one."""
    warnings.warn(CutDatagramWarning(f"a datagram from {sender[0]} was cut to {most} bytes"), stacklevel=depth)


class Socket(Uncopied):
    """A UDP socket, opened by `Stack.socket`. The methods are those of Python's own `socket.socket`.

    A call that fails raises an OSError whose `errno` is the operating system's number for the error: a BlockingIOError
    (EAGAIN) if the receive queue is empty, and a `NoBuffersError` (ENOBUFS) if buffers are lacking. On a closed socket,
    and after the stack has ended, `errno` is EBADF. No method blocks. Source: TCP/IP Illustrated, volume 2, chapters 15
    to 17, 22 and 23.

    >>> stack = bsdudp.Stack("10.0.0.1")
    >>> server, client = stack.socket(), stack.socket()
    >>> server.bind(("", 7))
    >>> client.connect(("10.0.0.1", 7))
    >>> client.send(b"hi")
    2
    >>> server.recvfrom()
    (b'hi', ('10.0.0.1', 1024))"""

    family = host.AF_INET
    type = host.SOCK_DGRAM
    proto = 0
    timeout = 0.0
    __slots__ = ("_stack", "_descriptor")

    def __init__(self, stack: "Stack", descriptor: int) -> None:
        self._stack = stack
        self._descriptor: Optional[int] = descriptor

    def _ask(self, name: str, *arguments: object) -> int:
        """Calls the library, if no other thread is in the stack."""
        with self._stack._turn:
            return self._call(name, *arguments)

    def _call(self, name: str, *arguments: object) -> int:
        """Calls the library, if the socket is open. The caller holds the lock."""
        answer = self._answer(name, *arguments)
        if answer < 0:
            raise refused(answer, name)
        return answer

    def _answer(self, name: str, *arguments: object) -> int:
        """Does the same, and returns the result also if the call failed."""
        if self._descriptor is None or not self._stack._live:
            raise OSError(errno.EBADF, _quick.CLOSED)
        return self._stack._answer(name, self._descriptor, *arguments)

    @property
    def descriptor(self) -> int:
        """Its number in its stack, 3 to 66; -1 if it is closed."""
        return -1 if self._descriptor is None or not self._stack._live else self._descriptor

    def fileno(self) -> NoReturn:
        """Raises an OSError with `errno` EOPNOTSUPP: the operating system has no descriptor for the socket."""
        raise OSError(errno.EOPNOTSUPP, NO_DESCRIPTOR)

    def bind(self, address: Endpoint) -> None:
        """Binds the socket to a local address and port. Address "" means all addresses of the host. Port 0 means the
        next free port of 1024 to 5000, which `getsockname` returns.

        OSError with `errno` EINVAL if the socket already has a local port or address; EADDRNOTAVAIL if the address is
        not one of the host; EADDRINUSE if another socket uses the address and port."""
        self._ask("bind", ctypes.byref(raw(address)))

    def bind_random(self, address: Host, low: SupportsIndex, high: SupportsIndex, random: Random) -> int:
        """Binds the socket to a local address and to a port of `low` to `high` that `random` draws. Returns the port. If
        another socket uses the port, it takes the next free one, and `low` follows `high`. Nobody can guess a port that
        `random.SystemRandom()` draws; `random.Random(seed)` draws the same one again. Source: RFC 6056, section 3.3.1.

        ValueError if `low` is not 1 to 65535, or `high` is not `low` to 65535. OSError with `errno` EINVAL if the socket
        already has a local port or address; EADDRNOTAVAIL if the address is not one of the host; EADDRINUSE if other
        sockets use each port of the range."""
        first = in_range("low", low, 1, 65_535)
        last = in_range("high", high, first, 65_535)
        return self._ask("bind_random", ctypes.byref(Raw(number_of(address), first)), last, random.getrandbits(32))

    def connect(self, address: Endpoint) -> None:
        """Connects the socket to a peer: `send` sends to the peer, and the socket receives only from it. A socket that
        is connected is first disconnected, and stays disconnected if the call fails.

        OSError with `errno` EADDRNOTAVAIL if the port is 0; EHOSTUNREACH if no route leads to the address; EADDRINUSE
        if another socket has the same local and foreign address and port."""
        self._ask("connect", ctypes.byref(raw(address)))

    def connect_ex(self, address: Endpoint) -> int:
        """Connects the socket as `connect` does. Returns 0, or the `errno` of the error."""
        try:
            self.connect(address)
        except OSError as fault:
            return fault.errno or 0
        return 0

    @overload
    def sendto(self, data: "ReadableBuffer", address: Endpoint, /) -> int: ...

    @overload
    def sendto(self, data: "ReadableBuffer", flags: int, address: Endpoint, /) -> int: ...

    def sendto(self, data: "ReadableBuffer", first: Union[int, Endpoint], second: Optional[Endpoint] = None, /) -> int:
        """`sendto(data, address)` or `sendto(data, 0, address)`: sends one datagram. Returns its length in bytes. Its
        packets are queued for `Stack.tx`; a datagram to the host itself has arrived when the call returns.

        OSError with `errno` EMSGSIZE if there are more than 9,216 bytes, or a broadcast would exceed the MTU; EISCONN
        if the socket is connected; EADDRNOTAVAIL if the port is 0; EHOSTUNREACH if no route leads to the address;
        EADDRINUSE if another socket has the same local and foreign address and port; EACCES if the address is the
        broadcast address and the socket does not have SO_BROADCAST. `NoBuffersError` (ENOBUFS) if buffers are lacking;
        if its `lack` is "pool", nothing was sent."""
        if second is not None:
            _no_flags("sendto", first)
        to = _quick.endpoint(first if second is None else second)
        return _quick.sendto(self, octets(data), to)

    def send(self, data: "ReadableBuffer", flags: int = 0) -> int:
        """Sends one datagram to the peer of a connected socket, as `sendto` does. OSError with `errno` EDESTADDRREQ if
        the socket is not connected."""
        _no_flags("send", flags)
        sent = octets(data)
        return self._sent("send", len(sent), sent, len(sent))

    def _sent(self, name: str, length: int, *arguments: object) -> int:
        """Makes a call that sends. A wire is told also if it fails: a full queue has taken the packets that fit."""
        with self._stack._turn:
            answer = self._answer(name, *arguments)
            self._stack._sends()
        if answer < 0:
            raise refused(answer, name, too_long(length, self._stack.mtu) if answer == TOO_LONG else None)
        return answer

    def _take(self, most: int) -> _Taken:
        """Removes the oldest datagram."""
        notes = self._stack._notes
        if notes is not None and self._descriptor is not None and self._descriptor in notes.wanted:
            return self._take_noted(most, notes, self._descriptor)
        data, sender, length = _quick.receive(self, most)
        return _Taken(data, sender, length > most)

    def _take_noted(self, most: int, notes: Notes, descriptor: int) -> _Taken:
        """Does the same, with its note. Two calls of the library read its length and its bytes, while the lock is
        held."""
        found, sender, note = Next(), Raw(), Note()
        with self._stack._turn:
            self._call("next", ctypes.byref(found))
            size = min(most, found.len)
            buffer = ctypes.create_string_buffer(max(size, 1))
            taken = notes.take(buffer, size, sender, descriptor, note)
            length = self._stack._call("recvfrom_noted", *taken)
        return _Taken(buffer.raw[:length], (text_of(sender.ip), sender.port), found.len > most, note)

    def _peek(self, most: int) -> _Taken:
        """Does the same, and the datagram stays."""
        found, sender = Next(), Raw()
        with self._stack._turn:
            self._call("next", ctypes.byref(found))
            size = min(most, found.len)
            buffer = ctypes.create_string_buffer(max(size, 1))
            length = self._call("peek", buffer, size, ctypes.byref(sender))
        return _Taken(buffer.raw[:length], (text_of(sender.ip), sender.port), False)

    def _receive(self, most: int, has_peek: bool, depth: int = 3) -> _Taken:
        """Takes the oldest datagram, with a warning if it was truncated, or only reads it. The warning names the line
        `depth` calls above this one."""
        if has_peek:
            return self._peek(most)
        taken = self._take(most)
        if taken.is_cut:
            _warn_of_cut(taken.sender, most, depth + 1)
        return taken

    def _receive_into(self, buffer: "WriteableBuffer", nbytes: SupportsIndex, has_peek: bool) -> Tuple[int, Address]:
        """Does the same into a buffer. Returns the number of bytes and the sender."""
        view = room(buffer)
        taken = self._receive(in_range("nbytes", nbytes, 0, len(view)) or len(view), has_peek, 4)
        view[: len(taken.data)] = taken.data
        return len(taken.data), taken.sender

    def recvmsg(
        self, bufsize: SupportsIndex, ancbufsize: int = 0, flags: int = 0
    ) -> Tuple[bytes, List[Tuple[int, int, bytes]], int, Address]:
        """Removes the oldest datagram. Returns up to `bufsize` bytes of it, the ancillary data, the flags, and the
        sender. The flag MSG_TRUNC is set if the datagram had more bytes, which are lost. BlockingIOError (EAGAIN) if
        the receive queue is empty.

        The ancillary data are those that options of `setsockopt` want, as Linux has them, up to `ancbufsize` bytes. The
        flag MSG_CTRUNC is set if there were more. A datagram that the stack sent itself has none."""
        _no_flags("recvmsg", flags)
        most = in_range("ancbufsize", ancbufsize, 0, ROOM)
        taken = self._take(in_range("bufsize", bufsize, 0, ROOM))
        told, notes = MSG_TRUNC if taken.is_cut else 0, self._stack._notes
        if notes is None or taken.note is None or self._descriptor is None:
            return taken.data, [], told, taken.sender
        messages, cut = notes.messages(self._descriptor, taken.note, self._stack._config.addr, most)
        return taken.data, messages, told | cut, taken.sender

    def recvfrom(self, bufsize: SupportsIndex = LONGEST, flags: int = 0) -> Tuple[bytes, Address]:
        """Removes the oldest datagram. Returns up to `bufsize` bytes of it, and the sender. If it had more bytes, they
        are lost, with a `CutDatagramWarning`. With the flag MSG_PEEK of Python's `socket`, the datagram stays, and
        nothing is lost. BlockingIOError (EAGAIN) if the receive queue is empty."""
        most = in_range("bufsize", bufsize, 0, ROOM)
        if flags == 0 and self._stack._notes is None:
            data, sender, length = _quick.receive(self, most)
            if length > most:
                _warn_of_cut(sender, most, 3)
            return data, sender
        taken = self._receive(most, _has_peek("recvfrom", flags))
        return taken.data, taken.sender

    def recv(self, bufsize: SupportsIndex = LONGEST, flags: int = 0) -> bytes:
        """Does the same as `recvfrom`, but returns only the bytes."""
        return self._receive(in_range("bufsize", bufsize, 0, ROOM), _has_peek("recv", flags)).data

    def recvfrom_into(
        self, buffer: "WriteableBuffer", nbytes: SupportsIndex = 0, flags: int = 0
    ) -> Tuple[int, Address]:
        """Removes the oldest datagram as `recvfrom` does, and copies up to `nbytes` bytes of it to the front of
        `buffer`; 0 means the length of the buffer. Returns the number of bytes and the sender."""
        return self._receive_into(buffer, nbytes, _has_peek("recvfrom_into", flags))

    def recv_into(self, buffer: "WriteableBuffer", nbytes: SupportsIndex = 0, flags: int = 0) -> int:
        """Does the same as `recvfrom_into`, but returns only the number of bytes."""
        return self._receive_into(buffer, nbytes, _has_peek("recv_into", flags))[0]

    @property
    def waiting(self) -> Optional[Waiting]:
        """A description of the oldest datagram in the receive queue, which stays there; None if the queue is empty."""
        with self._stack._turn:
            return self._waiting()

    def _waiting(self) -> Optional[Waiting]:
        found = Next()
        try:
            self._call("next", ctypes.byref(found))
        except BlockingIOError:
            return None
        return Waiting((text_of(found.ip), found.port), found.len, found.waiting)

    def _name(self) -> Name:
        """Reads its addresses and options. The caller holds the lock."""
        name = Name()
        self._call("getsockname", ctypes.byref(name))
        return name

    def _name_now(self) -> Name:
        with self._stack._turn:
            return self._name()

    def getsockname(self) -> Address:
        """Returns its local address and port; ("0.0.0.0", 0) if it has none."""
        name = self._name_now()
        return text_of(name.local_ip), name.local_port

    def getpeername(self) -> Address:
        """Returns the address and port of its peer. OSError with `errno` ENOTCONN if it is not connected."""
        name = self._name_now()
        if not name.peer_port:
            raise OSError(errno.ENOTCONN, os.strerror(errno.ENOTCONN))
        return text_of(name.peer_ip), name.peer_port

    def setsockopt(self, level: int, option: int, value: SupportsIndex) -> None:
        """Sets `SO_BROADCAST`, `SO_REUSEPORT` or `SO_RCVBUF` of Python's `socket`, at the level SOL_SOCKET. At the level
        IPPROTO_IP, IP_PKTINFO, IP_RECVTTL and IP_RECVTOS say which ancillary data `recvmsg` returns: the destination of
        the datagram's packet, its time to live, and its type of service. Python's `socket` does not have all three
        names; `bsdudp` has.

        SO_RCVBUF is the size of the receive queue in bytes, 1 to 65535, with 16 bytes for each datagram's sender. The
        mbufs and clusters of its datagrams have at most twice as many bytes, so the queue leaves the rest of the pool
        to other sockets, whatever arrives. 1,488 bytes are enough for a datagram in one packet of 1,500 bytes.

        ValueError if SO_RCVBUF is not 1 to 65535. OSError with `errno` ENOPROTOOPT for any other option."""
        if level == host.IPPROTO_IP and option in NOTED:
            with self._stack._turn:
                self._name()  # the socket is open
                self._stack._notes = self._stack._notes or Notes()
                self._stack._notes.want(self._stack._handle, self.descriptor, option, value)
            return
        known = OPTIONS.get(option, -1) if level == host.SOL_SOCKET else -1
        is_size = known == SO_RCVBUF
        number = in_range("SO_RCVBUF", value, 1, MOST_OF_QUEUE) if is_size else int(operator.index(value) != 0)
        self._ask("setsockopt", known, number)

    def getsockopt(self, level: int, option: int) -> int:
        """Returns the value of such an option: 1 or 0, or for SO_RCVBUF the size, and 0 if none was set: the queue then
        holds 41,600 bytes. OSError with `errno` ENOPROTOOPT for any other option."""
        if level == host.IPPROTO_IP and option in NOTED:
            self._name_now()  # the socket is open
            return int(self._stack._notes is not None and self._stack._notes.has(self.descriptor, option))
        return self._ask("getsockopt", OPTIONS.get(option, -1) if level == host.SOL_SOCKET else -1)

    def settimeout(self, value: Optional[float]) -> None:
        """Accepts only 0, because no socket of a stack blocks. ValueError for any other value."""
        if value is None or value != 0:
            raise ValueError("the timeout must be 0: no socket of this stack blocks")

    def gettimeout(self) -> float:
        """Returns 0, as for any socket that does not block."""
        return self.timeout

    def setblocking(self, flag: bool) -> None:
        """Accepts only False, because no socket of a stack blocks. ValueError for True."""
        if flag:
            raise ValueError("flag must be False: no socket of this stack blocks")

    def getblocking(self) -> bool:
        """Returns False."""
        return False

    def close(self) -> None:
        """Closes the socket. The datagrams in its receive queue are lost. A second call does nothing."""
        with self._stack._turn:
            if self._descriptor is not None and self._stack._live:
                self._call("close")
                self._stack._sockets.pop(self._descriptor, None)
                if self._stack._notes is not None:
                    self._stack._notes.forget(self._descriptor)
            self._descriptor = None

    def __enter__(self) -> "Socket":
        return self

    def __exit__(
        self,
        kind: Optional[Type[BaseException]],
        fault: Optional[BaseException],
        trace: Optional[TracebackType],
    ) -> None:
        self.close()

    def __repr__(self) -> str:
        if self.descriptor < 0:
            return "<Socket, closed>"
        try:
            return f"<Socket {self._descriptor} of {self._stack.addr}, local {self.getsockname()}>"
        except RuntimeError:
            return f"<Socket {self._descriptor} of {self._stack.addr}, another thread is in the stack>"

    def _cells(self) -> str:
        """Returns its row in the table of a stack's sockets. The caller holds the lock."""
        name, waiting = self._name(), self._waiting()
        peer = f"{text_of(name.peer_ip)}:{name.peer_port}" if name.peer_port else ""
        cells = (
            self._descriptor,
            f"{text_of(name.local_ip)}:{name.local_port}",
            peer,
            f"{waiting.datagrams}, the oldest of {waiting.length} bytes" if waiting else "0",
        )
        return "".join(f"<td>{cell}</td>" for cell in cells)
