"""The reference machine: a host with UDP over IPv4, whose settings are the freedom that the RFCs leave."""
from __future__ import annotations

import struct
from dataclasses import dataclass, replace
from typing import Dict, List, NamedTuple, Optional, Tuple

from ._addresses import BROADCAST, HOST, LOOPBACK, ONES, OURS, ZERO_BROADCAST, is_host, is_multicast
from ._case import Answer, Case, Connect, Event, Got, Hold, Open, Out, ReadHeld, Receive, Refused, Send, Wait
from ._freedom import Path
from ._packets import USER_PORT, checksum
from ._read import ICMP, UDP, Header, fold, header_sum_is_wrong, read_udp, sum_with_pseudo_header, udp_sum_is_wrong
from ._reassembly import Reassembly

RECORD_ROUTE, LOOSE_ROUTE, STRICT_ROUTE = 7, 0x83, 0x89
MOST_SENT, QUEUE = 9216, 50
UNREACHABLES = frozenset((3, code) for code in range(5))
# The ICMP errors about a send that a call reports, by setting: types and codes.
ERRORS_OF_SENDS = {
    "none": frozenset(),
    "port": frozenset({(3, 3)}),
    "hard": frozenset({(3, 2), (3, 3), (12, 0)}),
    "unreachable": UNREACHABLES,
    "all": UNREACHABLES | {(4, 0), (5, 1), (11, 0), (12, 0)},
}
# 4.4BSD's receive queue: bytes of data with 16 for each address, and what a pool of 512 mbufs holds.
MOST_WAITING, ADDRESS_BYTES, MOST_DATAGRAMS = 41600, 16, 256


def well_formed(options: bytes) -> bool:
    """Whether options have lengths that fit, and no source route (RFC 791 3.1)."""
    at = 0
    while at < len(options) and options[at] != 0:
        if options[at] == 1:
            at += 1
            continue
        if at + 1 >= len(options) or not 2 <= options[at + 1] <= len(options) - at:
            return False
        if (
            options[at] in (LOOSE_ROUTE, STRICT_ROUTE)
            or options[at] == RECORD_ROUTE
            and options[at + 2 : at + 3] < b"\4"
        ):
            return False
        at += options[at + 1]
    return True


def fits(line: List[Got], got: Got) -> bool:
    """Whether a datagram fits 4.4BSD's receive queue with these."""
    size = sum(len(it.data) + ADDRESS_BYTES for it in (*line, got))
    return len(line) < MOST_DATAGRAMS and size <= MOST_WAITING


def bad_source(source: int, destination: int) -> bool:
    """A source that no host has (RFC 1122 3.2.1.3): it must be dropped."""
    if source >> 24 == 0:
        return not (source == 0 and destination == ONES)
    return source >> 24 == 127 or source in (BROADCAST, ONES) or is_multicast(source)


@dataclass
class Socket:
    number: int
    port: int
    peer: Optional[Tuple[int, int]] = None

    def takes(self, sender: Tuple[int, int], port: int) -> bool:
        return self.port == port and self.peer in (None, sender)


class Due(NamedTuple):
    """An ICMP error that a host sends of a packet."""

    step: int
    type: int
    code: int


UNREACHABLE, TIME_EXCEEDED = 3, 11
NO_PROTOCOL, NO_PORT, REASSEMBLY = 2, 3, 1
# No host has these: RFC 3692 keeps 253 for experiments, and 255 is reserved.
UNKNOWN_PROTOCOLS = (253, 255)


class Machine:
    """One host from boot on. `events` is what it did, `due` the ICMP errors that it would send, `arrivals` the
    datagrams of its sockets in the order in which they came. `sums_hold` is whether all header and UDP checksums that
    it looked at were right."""

    def __init__(self, path: Path, mtu: int = 1500, identification: int = 1) -> None:
        self.choose = path.choose
        self.mtu, self.identification = mtu, identification
        self.now, self.step = 0, 0
        self.reassembly = Reassembly(path)
        self.sockets: List[Socket] = [Socket(0, USER_PORT)]
        self.events: List[Event] = []
        self.due: List[Due] = []
        self.arrivals: List[Got] = []
        self.waiting: Dict[int, List[Got]] = {}  # those of held sockets
        self.sums_hold = True

    def play(self, case: Case) -> None:
        """All steps of a case."""
        for self.step, step in enumerate(case.steps):
            if isinstance(step, Receive):
                self.now += 1
                if step.header is not None:
                    self.receive(step.header)
                elif header_sum_is_wrong(step.packet):
                    self.sums_hold = False
            elif isinstance(step, Wait):
                self.now += step.ms
                self.drop_expired()
            elif isinstance(step, Open):
                self.sockets.append(Socket(step.socket, step.port))
            elif isinstance(step, Connect):
                for socket in self.sockets:
                    socket.peer = (step.address, step.port) if socket.number == step.socket else socket.peer
            elif isinstance(step, Hold):
                self.waiting.setdefault(step.socket, [])
            elif isinstance(step, ReadHeld):
                self.read_held(step)
            else:
                self.send(step)

    def read_held(self, step: ReadHeld) -> None:
        """Reads what waits, the oldest first."""
        line = self.waiting.get(step.socket, [])
        self.events += [replace(it, step=self.step) for it in line[: step.count]]
        self.waiting[step.socket] = line[step.count :]

    def enqueue(self, got: Got) -> None:
        """A datagram for a held socket waits, if there is room."""
        line = self.waiting[got.socket]
        if line:
            what, most = self.choose("waiting" if got.data else "waiting without data")  # type: ignore[misc]
            if what == "refuse" and len(line) >= int(most) or what == "bsd" and not fits(line, got):
                return
            if what == "oldest" and len(line) >= int(most):
                line.pop(0)
        line.append(got)

    def drop_expired(self) -> None:
        for (source, destination, _, _), old in self.reassembly.expired(self.now):
            first = bool(old.owner) and old.owner[0] >= 0
            if first and destination == HOST and is_host(source):
                self.due.append(Due(self.step, TIME_EXCEEDED, REASSEMBLY))

    def receive(self, header: Header) -> None:
        """A packet whose header holds."""
        if not self.accepts(header):
            return
        data: Optional[bytes] = header.data
        if not header.whole:
            self.drop_expired()
            data = self.reassembly.arrive(header, self.now)
        elif header.key in self.reassembly.open and self.choose("whole") == "flush":
            del self.reassembly.open[header.key]
        if data is None:
            return
        if header.protocol == UDP:
            self.deliver(data, header)
        elif header.protocol == ICMP:
            self.hear_error(data)
        elif header.protocol in UNKNOWN_PROTOCOLS and header.destination == HOST and is_host(header.source):
            self.due.append(Due(self.step, UNREACHABLE, NO_PROTOCOL))

    def hear_error(self, message: bytes) -> None:
        """An ICMP error about a send of a connected socket: a call reports it, or none does."""
        kind, quote = (*message[:2],), message[8:]
        if kind not in ERRORS_OF_SENDS["all"] or len(quote) < 28 or fold(message) != 0xFFFF:
            return
        if quote[0] != 0x45 or quote[9] != UDP or quote[6] & 0x1F or quote[7]:
            return
        _, peer, port, peer_port = struct.unpack(">IIHH", quote[12:24])
        for socket in self.sockets:
            is_about = (socket.port, socket.peer) == (port, (peer, peer_port))
            if is_about and kind in ERRORS_OF_SENDS[str(self.choose("errors"))]:
                self.events.append(Refused(self.step))

    def accepts(self, header: Header) -> bool:
        """The tests of options, addresses and flags."""
        if header.options:
            if self.choose("options") == "drop":
                return False
            if not well_formed(header.options) and self.choose("bad options") == "drop":
                return False
        if not self.is_ours(header.destination):
            return False
        if not self.takes_source(header.source, header.destination):
            return False
        return not header.reserved or self.choose("reserved") == "take"

    def is_ours(self, destination: int) -> bool:
        if destination in OURS:
            return True
        if destination in (ZERO_BROADCAST, 0):
            how = self.choose("zero broadcast")
            return how == "take" or how == "take 10.0.0.0" and destination == ZERO_BROADCAST
        if destination >> 24 == 127:
            how = self.choose("loop destination")
            return how == "take" or how == "take 127.0.0.1" and destination == LOOPBACK
        return False

    def takes_source(self, source: int, destination: int) -> bool:
        if source >> 24 == 127 and destination >> 24 == 127:
            return self.choose("bad source and loop") == "take"
        if bad_source(source, destination) and self.choose("bad source") == "drop":
            return False
        if source == HOST:
            return self.choose("own source") == "take"
        if source in (ZERO_BROADCAST, 0) or source >> 24 >= 0xF0:
            return self.choose("other source") == "take"
        return True

    def deliver(self, data: bytes, header: Header) -> None:
        """A datagram that IP carries comes to UDP."""
        it = read_udp(data, header.source, header.destination)
        if it is None:
            self.sums_hold = self.sums_hold and not udp_sum_is_wrong(data, header.source, header.destination)
            return
        if len(data) > 8 + len(it.payload) and self.choose("surplus") == "drop":
            return
        if it.checksum == 0 and self.choose("no checksum") == "drop":
            return
        if 8 + len(it.payload) > 556 and 8 + len(it.payload) > int(self.choose("largest")):  # type: ignore[arg-type]
            return
        sender = (header.source, it.source_port)
        wanted = self.receivers(sender, header.destination, it.destination_port)
        for socket in wanted:
            got = Got(self.step, *sender, it.payload, socket.number)
            self.arrivals.append(got)
            if socket.number in self.waiting:
                self.enqueue(got)
            else:
                self.events.append(got)
        if not wanted and header.destination == HOST and it.destination_port and is_host(header.source):
            self.due.append(Due(self.step, UNREACHABLE, NO_PORT))

    def receivers(self, sender: Tuple[int, int], destination: int, port: int) -> List[Socket]:
        """The sockets that get a datagram."""
        found = [socket for socket in self.sockets if socket.takes(sender, port)]
        broadcast = destination != HOST
        if broadcast and any(socket.peer for socket in found) and self.choose("connected broadcast") == "drop":
            found = [socket for socket in found if socket.peer is None]
        if len(found) < 2:
            return found
        how = self.choose("several, broadcast" if broadcast else "several")
        if how == "all":
            return found[::-1]
        best = [socket for socket in found if socket.peer] or found
        return {"best, youngest": best[-1:], "best, oldest": best[:1], "best, all": best[::-1]}[str(how)]

    def send(self, step: Send) -> None:
        """A send, as 4.4BSD cuts it: what other machines send is judged only by the law of sends."""
        if len(step.data) > MOST_SENT:
            self.events.append(Refused(self.step))
            return
        length = 8 + len(step.data)
        bare = struct.pack(">HHHH", self.sockets[step.socket].port, step.port, length, 0) + step.data
        check = 0xFFFF - sum_with_pseudo_header(bare, HOST, step.address, length) or 0xFFFF
        data = bare[:6] + struct.pack(">H", check) + step.data
        size = max(self.mtu - 20, 0) if length + 20 <= self.mtu else (self.mtu - 20) // 8 * 8
        starts = range(0, length, size)
        for start in starts[:QUEUE]:
            self.events.append(Out(self.step, self.packet(step.address, data, start, start + size)))
        if len(starts) > QUEUE:
            self.events.append(Refused(self.step))
        self.identification = (self.identification + 1) % 0x10000

    def packet(self, destination: int, data: bytes, start: int, end: int) -> bytes:
        place = start // 8 | (0x2000 if end < len(data) else 0)
        carried = data[start:end]
        head = struct.pack(
            ">BBHHHBBHII", 0x45, 0, 20 + len(carried), self.identification, place, 64, UDP, 0, HOST, destination
        )
        return head[:10] + struct.pack(">H", checksum(head)) + head[12:] + carried


def play(case: Case, path: Path, identification: int = 1) -> Machine:
    """A machine that played a case."""
    machine = Machine(path, case.mtu, identification)
    machine.play(case)
    return machine


Delivered = Tuple[Tuple[int, int, int, bytes], ...]


def delivered(events: List[Got]) -> Delivered:
    """What users got, whenever: socket, sender and bytes."""
    return tuple(sorted((it.socket, it.source or 0, it.port, it.data) for it in events))


def answer_of(machine: Machine) -> Answer:
    """What an adapter over this machine would say."""
    return Answer(tuple(machine.events))
