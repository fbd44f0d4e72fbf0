"""bsdudp: the datagram half of a 4.4BSD network stack (TCP/IP Illustrated, volume 2), proved, from Python.

    >>> import bsdudp
    >>> with bsdudp.Stack("10.0.0.1") as a, bsdudp.Stack("10.0.0.2") as b:
    ...     to = b.socket()
    ...     to.bind(("", 7))
    ...     sent = a.socket().sendto(b"hi", ("10.0.0.2", 7))
    ...     quiet = bsdudp.Wire([a, b]).run()
    ...     to.recvfrom()
    (b'hi', ('10.0.0.1', 1024))

`Stack` is a simulated host, `Host` is one on an Ethernet, and `Socket` is a socket of a stack. `Wire` joins stacks and
can lose packets; `sweep` runs a scenario for many seeds. The behaviour of the stack is proved. This package passes
bytes to it and back, and is tested."""
from ._counters import Counters, MbStat
from ._errors import NoBuffersError
from ._fate import Fate
from ._frame import Frame
from ._host import Host, Neighbour, Tallies
from ._library import LIBRARY
from ._losses import Bursts, Nth, Sent
from ._notes import IP_PKTINFO, IP_RECVTOS, IP_RECVTTL
from ._packet import Packet
from ._sender import Sender
from ._socket import CutDatagramWarning, Socket, Waiting
from ._stack import Stack
from ._sweep import sweep
from ._unfinished import HeldRange, UnfinishedDatagram
from ._wire import Carried, UnderWay, Wire

__version__ = "0.5.0"
# The version of the C library that was loaded, such as "0.5.0", or "0.5.0, unproved build" if it was built with TRIAL=1.
library_version = LIBRARY.version

__all__ = [
    "Bursts",
    "Carried",
    "Counters",
    "CutDatagramWarning",
    "Fate",
    "Frame",
    "HeldRange",
    "Host",
    "IP_PKTINFO",
    "IP_RECVTOS",
    "IP_RECVTTL",
    "MbStat",
    "Neighbour",
    "NoBuffersError",
    "Nth",
    "Packet",
    "Sender",
    "Sent",
    "Socket",
    "Stack",
    "Tallies",
    "UnderWay",
    "UnfinishedDatagram",
    "Waiting",
    "Wire",
    "library_version",
    "sweep",
]
