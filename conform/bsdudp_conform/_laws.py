"""The two laws of delivery, which hold in every case and depend only on the packets.

never     A datagram that reaches a socket is one that the packets carry: the data of one whole packet with right
          lengths and checksums, or, byte for byte, of fragments of one key (source, destination, identification,
          protocol 17) that leave no hole up to a last one. If they overlap, any choice is allowed. It's for the
          socket's port, and from its peer if it's connected. The sender reported to the user is the real one.
always    A datagram of at most 576 bytes with a UDP checksum reaches the user if it arrived whole, or in fragments
          once each, without overlap, within 2 seconds, without other fragments of its key, and before more than
          three datagrams are unfinished at once. It should reach the user above 576 bytes, and if more than ten
          fragments arrived."""
from __future__ import annotations

import itertools
import struct
from collections import Counter, defaultdict
from dataclasses import dataclass, field, replace
from functools import cached_property
from typing import DefaultDict, Dict, FrozenSet, Iterator, List, Mapping, NamedTuple, Optional, Sequence, Set, Tuple

from ._addresses import HOST, OURS, ZERO_BROADCAST, is_host, text_of
from ._case import Case, Connect, Got, Hold, Open, Receive, Send, Wait, user_sockets
from ._packets import with_checksum
from ._read import UDP, Header, fold, read, read_udp, sum_with_pseudo_header

LENGTH, PROTOCOL, END, GREATEST = (
    "the UDP length",
    "the protocol",
    "the last fragment's end",
    "the greatest length (65,535)",
)
AGE, SOURCES, DESTINATIONS, NUMBERS = (
    "the age of fragments",
    "the source of fragments",
    "the destination of fragments",
    "the identification of fragments",
)
TOTAL, HEADER_SUM, UDP_SUM = "the total length", "the header checksum", "the UDP checksum"
VERSION, FRAGMENT = "the version", "whether it's a fragment"
STRANGER, SENDER = "socket.connected", "udp.source"
CHECKS = (LENGTH, PROTOCOL, FRAGMENT, END, GREATEST, TOTAL, HEADER_SUM, UDP_SUM, VERSION)
# What distinguishes fragments. The place of each in the key:
OF_KEYS = {SOURCES: 0, DESTINATIONS: 1, NUMBERS: 2, PROTOCOL: 3}
ALL_CHECKS = (*CHECKS, AGE, DESTINATIONS, NUMBERS, SOURCES)
NO_CHECK_OMITTED: FrozenSet[str] = frozenset()
# What a stack leaves to a link that checks the sums.
OFFLOADED = frozenset({HEADER_SUM, UDP_SUM})
ANY_HEADER = frozenset({TOTAL, HEADER_SUM, VERSION})
NOTHING_ELSE = "nothing that the packets don't carry"
LONGEST_LIFE_MS, PROMPT_MS = 255_000, 2_000
FEW_FRAGMENTS, FEW_DATAGRAMS = 10, 3
# What an ICMP error quotes at least: a header without options, and 8 bytes.
QUOTED = 28


class Arrival(NamedTuple):
    """A packet of a case, with its step and time."""

    step: int
    ms: int
    packet: bytes
    header: Optional[Header]


class Promise(NamedTuple):
    """A datagram that must arrive: its time, the level of the rule, and its packets."""

    step: int
    level: str
    source: int
    port: int
    data: bytes
    parts: List[Arrival]


Sender = Tuple[int, int]
Key = Tuple[int, int, int, int]


class Wrong(NamedTuple):
    """What is wrong with a datagram that reached a user. rule: the rule that it breaks, None for the case's rule.
    sender: its sender, if another one was reported to the user. cause: the check that the stack omits, if that explains
    it."""

    rule: Optional[str]
    words: str
    expected: str
    sender: Optional[Sender] = None
    cause: str = ""


@dataclass
class Seen:
    """The packets that arrived in a case, and its sockets at each step. omitted: checks that the stack leaves to its
    link."""

    case: Case
    omitted: FrozenSet[str] = NO_CHECK_OMITTED
    arrivals: List[Arrival] = field(default_factory=list)
    ports: Dict[int, int] = field(default_factory=user_sockets)
    peers: List[Tuple[int, int, Tuple[int, int]]] = field(default_factory=list)

    def __post_init__(self) -> None:
        now = 0
        for number, step in enumerate(self.case.steps):
            if isinstance(step, Wait):
                now += step.ms
            elif isinstance(step, Receive):
                self.arrivals.append(Arrival(number, now, step.packet, step.header))
            elif isinstance(step, Open):
                self.ports[step.socket] = step.port
            elif isinstance(step, Connect):
                self.peers.append((number, step.socket, (step.address, step.port)))

    @cached_property
    def sends_before(self) -> List[int]:
        """For each step how many sends are before it."""
        return [0, *itertools.accumulate(isinstance(it, Send) for it in self.case.steps)]

    @cached_property
    def by_beginning(self) -> Dict[bytes, List[Arrival]]:
        """The packets by the bytes that an ICMP error quotes."""
        found: Dict[bytes, List[Arrival]] = {}
        for it in self.arrivals:
            found.setdefault(it.packet[:QUOTED], []).append(it)
        return found

    def peer(self, socket: int, step: int) -> Optional[Tuple[int, int]]:
        """A socket's peer at a step."""
        found = [peer for since, who, peer in self.peers if who == socket and since <= step]
        return found[-1] if found else None

    def fault(self, got: Got) -> Optional[Wrong]:
        """The law `never`: what is wrong with a datagram, or None if it may arrive."""
        peer = self.peer(got.socket, got.step)
        stranger = peer is not None and got.source is not None and peer != (got.source, got.port)
        if not stranger and self.carries(got, self.omitted):
            return None
        claimed = self.senders(got.step)
        is_claimed = got.source is None or (got.source, got.port) in claimed
        size = len(got.data)
        unchecked = self.unchecked(got) if is_claimed and not stranger else None
        if unchecked:
            words = f"{size} bytes reach the user, as if {unchecked} weren't looked at"
            return Wrong(None, words, NOTHING_ELSE, cause=not_read(unchecked))
        own = None if is_claimed and stranger else self.sender(got, claimed)
        if own:
            return wrong_sender(got, own)
        if stranger:
            words = f"a connected socket gets {size} bytes from another than its peer"
            return Wrong(STRANGER, words, "its peer's datagrams alone")
        return Wrong(None, f"{size} bytes reach the user that nobody sent", NOTHING_ELSE)

    def unchecked(self, got: Got) -> Optional[str]:
        """The smallest set of a receiver's checks without which the datagram could arrive, or None."""
        single = [it for it in ALL_CHECKS if it in self.matters]
        several = [it for it in CHECKS if it in self.matters]
        for count, checks in ((1, single), (2, several), (3, several)):
            for omitted in itertools.combinations(checks, count):
                if self.carries(got, self.omitted | frozenset(omitted)):
                    return " and ".join(omitted)
        return None

    @cached_property
    def matters(self) -> FrozenSet[str]:
        """The checks whose lack can make a difference in this case."""
        found = {LENGTH, PROTOCOL, UDP_SUM}
        if any(it.header is None or has_padding(it) for it in self.arrivals):
            found |= ANY_HEADER
        cut = [it for it in self.arrivals if it.header is None or not it.header.whole]
        if cut:
            found |= {FRAGMENT, END, GREATEST, *OF_KEYS}
            found |= {AGE} if cut[-1].ms - cut[0].ms >= LONGEST_LIFE_MS else set()
        return frozenset(found)

    def senders(self, step: int) -> Set[Sender]:
        """The source addresses and ports in the packets up to a step, right or wrong."""
        found = set()
        for it in self.arrivals:
            header = it.header or read(mended(it.packet, ANY_HEADER))
            if header is not None and header.offset == 0 and it.step <= step:
                found.add((header.source, int.from_bytes(header.data[:2], "big")))
        return found

    def sender(self, got: Got, claimed: Set[Sender]) -> Optional[Sender]:
        """The one of these that sent a datagram, whichever sender was reported, or None."""
        if got.source is None:
            return None
        sent = (it for it in sorted(claimed) if self.carries(replace(got, source=it[0], port=it[1]), self.omitted))
        return next(sent, None)

    def carries(self, got: Got, omitted: FrozenSet[str]) -> bool:
        """Whether the packets up to a step carry the datagram if these checks are omitted."""
        keys: Dict[Key, List[Arrival]] = {}
        for it in self.believed(got, omitted):
            header = it.header
            assert header is not None
            if header.whole or FRAGMENT in omitted:
                is_udp = header.protocol == UDP or PROTOCOL in omitted
                if is_udp and self.fits(header.data, header, got, omitted):
                    return True
            elif header.end <= 65515 or GREATEST in omitted:
                key = key_without(header.key, omitted)
                keys.setdefault(key, []).append(it)
        return any(key[3] == UDP and self.made_of(parts, got, omitted) for key, parts in keys.items())

    def believed(self, got: Got, omitted: FrozenSet[str]) -> Iterator[Arrival]:
        """The sender's packets with a valid header, with these checks omitted."""
        for it in self.arrivals:
            if it.step > got.step:
                return
            if it.header is None and omitted & ANY_HEADER or TOTAL in omitted and has_padding(it):
                it = it._replace(header=read(mended(it.packet, omitted)))
            if it.header is not None and got.source in (None, it.header.source):
                yield it

    def carriers(self, got: Got) -> List[Arrival]:
        """The packets that carry a datagram: a whole one, or the fragments of one key."""
        keys: Dict[Key, List[Arrival]] = {}
        for it in self.believed(got, self.omitted):
            header = it.header
            assert header is not None
            if header.protocol == UDP and header.whole and self.fits(header.data, header, got, self.omitted):
                return [it]
            if header.protocol == UDP and not header.whole:
                keys.setdefault(header.key, []).append(it)
        return next((parts for parts in keys.values() if self.made_of(parts, got, self.omitted)), [])

    def parts_of(self, got: Got) -> List[Arrival]:
        """The packets that carry a datagram, whenever it was whole."""
        return self.promised.get((got.source, got.port, got.data)) or self.carriers(
            replace(got, step=len(self.case.steps))
        )

    @cached_property
    def promised(self) -> Dict[Tuple[Optional[int], int, bytes], List[Arrival]]:
        """The packets of the datagrams that must arrive."""
        return {(it.source, it.port, it.data): it.parts for it in self.promises}

    def parts_at(self, step: int) -> List[Arrival]:
        """The packet that arrives at a step, or all fragments of its datagram so far."""
        it = next((one for one in self.arrivals if one.step == step), None)
        if it is None or it.header is None:
            return []
        key = it.header.key
        same = [one for one in self.arrivals if one.step <= step and one.header and one.header.key == key]
        return [it] if it.header.whole else [one for one in same if one.header and not one.header.whole]

    def made_of(self, parts: List[Arrival], got: Got, omitted: FrozenSet[str]) -> bool:
        """Whether fragments of one key make the datagram, for any choice of overlapping bytes."""
        last = max(it.ms for it in parts)
        headers = [it.header for it in parts if it.header and (AGE in omitted or last - it.ms < LONGEST_LIFE_MS)]
        length = 8 + len(got.data)
        if not any(it.end >= length for it in headers):
            return False
        joined = in_sequence(headers)
        if joined is not None:
            return self.fits(joined, headers[0], got, omitted)
        there: DefaultDict[int, Set[int]] = defaultdict(set)  # each place to which a fragment gives bytes, and these
        for it in headers:
            for place, byte in enumerate(it.data, it.offset):
                there[place].add(byte)
        ends = [it.end for it in headers if not it.more]
        if END not in omitted and not any(end >= length and all(map(there.__contains__, range(end))) for end in ends):
            return False
        if not all(byte in there.get(place, ()) for place, byte in enumerate(got.data, 8)):
            return False
        return any(self.fits(head + got.data, headers[0], got, omitted, True) for head in heads(there))

    def fits(self, data: bytes, header: Header, got: Got, omitted: FrozenSet[str], exact: bool = False) -> bool:
        """Whether this UDP datagram, as IP carries it, is the one that arrived."""
        if len(data) < 8:
            return False
        source_port, port, length, check = struct.unpack(">HHHH", data[:8])
        if port != self.ports.get(got.socket) or got.source is not None and source_port != got.port:
            return False
        end = len(data) if LENGTH in omitted else length
        if not 8 <= end <= len(data) or data[8:end] != got.data or exact and end != len(data):
            return False
        if check == 0 or UDP_SUM in omitted:
            return True
        lengths = {end, length} if LENGTH in omitted else {end}
        return any(
            sum_with_pseudo_header(data[:end], header.source, header.destination, it) == 0xFFFF for it in lengths
        )

    @cached_property
    def promises(self) -> List[Promise]:
        """The law `always`: the datagrams that must arrive at the only socket of a case."""
        if self.peers or len(self.ports) > 1 or any(isinstance(it, Hold) for it in self.case.steps):
            return []
        found = []
        keys: Dict[Key, List[Arrival]] = {}
        for it in self.arrivals:
            if it.header is not None:
                keys.setdefault(it.header.key, []).append(it)
        end = self.first_crowd(keys) if len(keys) > FEW_DATAGRAMS else len(self.case.steps)
        few = sum(not it.header.whole for it in self.arrivals if it.header) <= FEW_FRAGMENTS
        for (source, destination, _, protocol), parts in keys.items():
            if protocol != UDP or destination not in OURS or not is_host(source) or source in (HOST, ZERO_BROADCAST):
                continue
            found += whole_promises(parts)
            if parts[-1].step < end:
                found += fragment_promises(parts, few)
        return sorted(found, key=lambda it: it[:5])

    def first_crowd(self, keys: Mapping[Key, List[Arrival]]) -> int:
        """The first step at which more than a few datagrams are unfinished. From then on a host may drop some of them,
        and later fragments of these may begin others."""
        changes: "Counter[int]" = Counter()
        for parts in keys.values():
            cut = [it for it in parts if it.header and not it.header.whole]
            if cut:
                changes[cut[0].step] += 1
                if in_sequence([it.header for it in cut if it.header]) is not None:
                    changes[cut[-1].step + 1] -= 1
        steps = range(len(self.case.steps))
        counts = itertools.accumulate(changes[it] for it in steps)
        return next((step for step, count in zip(steps, counts) if count > FEW_DATAGRAMS), len(steps))

    def is_all_promised(self, got: Sequence[Got]) -> bool:
        """Whether each packet belongs to a datagram that must arrive, and only these arrived: all machines agree."""
        return len(got) == len(self.promises) and sum(len(it.parts) for it in self.promises) == len(self.arrivals)


def not_read(checks: str) -> str:
    """The name of a cause: checks that a stack omits."""
    return f"{checks} {'aren' if ' and ' in checks else 'isn'}'t looked at"


def wrong_sender(got: Got, sender: Sender) -> Wrong:
    """A datagram for which a wrong sender was reported."""
    told, size = (got.source or 0, got.port), f"{len(got.data)} bytes"
    wrong = " and ".join(name for name, one, other in zip(("address", "port"), told, sender) if one != other)
    words = f"{size} with a wrong source {wrong}: {text_of(told[0])} port {told[1]}"
    return Wrong(SENDER, words, f"{size} from {text_of(sender[0])} port {sender[1]}", sender)


def key_without(key: Key, omitted: FrozenSet[str]) -> Key:
    """What a stack compares of fragments that omits these checks."""
    made = [0 if name in omitted else key[place] for name, place in OF_KEYS.items()]
    return made[0], made[1], made[2], UDP if PROTOCOL in omitted else key[3]


def has_padding(it: Arrival) -> bool:
    """Whether bytes follow a packet's total length."""
    return it.header is not None and len(it.packet) > it.header.length


def mended(packet: bytes, omitted: FrozenSet[str]) -> bytes:
    """A packet read without its version, its total length or its header checksum."""
    if len(packet) < 20 or packet[0] & 15 != 5 or packet[0] >> 4 != 4 and VERSION not in omitted:
        return packet
    if HEADER_SUM not in omitted and fold(packet[:20]) != 0xFFFF:
        return packet
    packet = b"\x45" + packet[1:]
    if TOTAL in omitted:
        packet = packet[:2] + struct.pack(">H", len(packet)) + packet[4:]
    return with_checksum(packet)


def in_sequence(headers: Sequence[Header]) -> Optional[bytes]:
    """The data of fragments that follow one another without a hole, once each, up to a last one."""
    data, ordered = b"", sorted(headers, key=lambda it: it.offset)
    for it in ordered:
        if it.offset != len(data) or not it.data or it.more == (it is ordered[-1]):
            return None
        data += it.data
    return data


def heads(there: Mapping[int, Set[int]]) -> Iterator[bytes]:
    """All UDP headers that fragments allow."""
    return map(bytes, itertools.product(*(there.get(place, set()) for place in range(8))))


def plain(header: Header) -> bool:
    """Whether a header leaves no choice."""
    return not header.reserved and not header.options and header.tos & 3 == 0


def whole_promises(parts: List[Arrival]) -> List[Promise]:
    found = []
    for it in parts:
        header = it.header
        if header and header.whole and plain(header):
            promised = promise(it.step, header, header.data, True, [it])
            found += [promised] if promised else []
    return found


def fragment_promises(parts: List[Arrival], few: bool) -> List[Promise]:
    headers = [it.header for it in parts if it.header is not None]
    if any(it.whole or not plain(it) for it in headers):
        return []
    if max(it.ms for it in parts) - min(it.ms for it in parts) > PROMPT_MS:
        return []
    if any(it.more and len(it.data) % 8 for it in headers):
        return []
    data = in_sequence(headers)
    if data is None or len(data) > 65515:
        return []
    whole = replace(headers[0], offset=0)
    promised = promise(max(it.step for it in parts), whole, data, few, parts)
    return [promised] if promised else []


def promise(step: int, header: Header, data: bytes, few: bool, parts: List[Arrival]) -> Optional[Promise]:
    """The guarantee for a datagram's data, if it's for the socket, with a checksum and without bytes after its end."""
    it = read_udp(data, header.source, header.destination)
    if it is None or it.destination_port != 7 or it.checksum == 0 or 8 + len(it.payload) != len(data):
        return None
    level = "MUST" if few and len(data) + 20 <= 576 else "SHOULD"
    return Promise(step, level, header.source, it.source_port, it.payload, parts)
