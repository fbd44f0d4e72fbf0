"""The laws of packets sent: RFC 1122's rules for ICMP errors, and the law of sends."""
from __future__ import annotations

from collections import defaultdict
from typing import DefaultDict, Dict, Iterator, List, NamedTuple, Optional, Tuple

from ._addresses import BROADCAST, HOST, ONES, OURS, is_host, is_multicast, text_of
from ._case import Answer, Got, Out, Send
from ._laws import QUOTED, Arrival, Seen, in_sequence
from ._words import kind_of_source
from ._read import ICMP, UDP, Header, fold, read, read_udp, udp_sum_is_wrong

ERRORS = (3, 4, 5, 11, 12)
# RFC 792, 950 and 1256
KNOWN_TYPES = (*ERRORS, 0, 8, 9, 10, *range(13, 19))
MUST, SHOULD = "MUST", "SHOULD"
FIELDS = (
    ("version or header length", 0, 1),
    ("type of service", 1, 2),
    ("total length", 2, 4),
    ("identification", 4, 6),
    ("flags or offset", 6, 8),
    ("time to live", 8, 9),
    ("protocol", 9, 10),
    ("header checksum", 10, 12),
    ("source", 12, 16),
    ("destination", 16, 20),
)
# A send of more packets may find a queue full, and lose some before the wire.
MOST_PACKETS = 50
# An identification may come again after so many other cut sends.
RECENT = 8_000


class Breach(NamedTuple):
    """A deviation: the level of its rule, the rule, and a text. cause: the name by which deviations of all rules are
    grouped; empty: the text without its numbers. within: causes that explain this one too, if the stack has them. way:
    the way of failing, in which datagrams are compared. datagram: the one that is lost."""

    level: str
    rule: str
    what: str
    step: Optional[int] = None
    expected: str = ""
    cause: str = ""
    within: Tuple[str, ...] = ()
    way: str = ""
    datagram: Optional[Got] = None


# Ways of failing. After the colon come words for the report.
ERROR_TO = "an ICMP error goes to "
LOST, WRONG, UNANSWERED, SENT, QUOTED_WRONG, HELD = "lost", "wrong:", "unanswered:", "sent:", "quoted:", "held:"


def leaving(seen: Seen, answer: Answer, shared: bool) -> List[Breach]:
    """All deviations in the packets sent. shared: the stack isn't new, so errors may be about packets of other
    cases."""
    found: List[Breach] = []
    for it in answer.out:
        header = read(it.packet)
        if header is None:
            found.append(
                Breach(
                    MUST, "ip.out", "a packet leaves whose header doesn't hold", it.step, "right lengths and checksum"
                )
            )
            continue
        found += headers_that_leave(it, header)
        if is_error(header):
            about_this = about(seen, it.step, header.data[8:], shared)
            if about_this is not None or not shared:
                found += errors(seen, about_this, it, header)
    return found + sends(seen, answer)


def headers_that_leave(it: Out, header: Header) -> Iterator[Breach]:
    if not is_host(header.source):
        yield Breach(
            MUST,
            "ip.out",
            f"a packet leaves with the source {text_of(header.source)}",
            it.step,
            "an address of its own",
        )
    if header.ttl == 0:
        yield Breach(MUST, "ip.out", "a packet leaves with time to live 0", it.step, "a time to live of 1 or more")


def about(seen: Seen, step: int, quote: bytes, shared: bool) -> Optional[Arrival]:
    """The packet that an error quotes: the one with most bytes alike, so that a damaged quote is recognised too.
    shared: only a packet with its addresses and identification."""
    same = seen.by_beginning.get(quote[:QUOTED], []) if len(quote) >= QUOTED else []
    among = same if any(it.step <= step for it in same) else seen.arrivals
    found = [it for it in among if it.step <= step and len(quote) >= 20 and len(it.packet) >= 20]
    if shared:
        found = [it for it in found if it.packet[12:20] == quote[12:20] and it.packet[4:6] == quote[4:6]]

    def place(it: Arrival) -> Tuple[int, bool, bool]:
        return -alike(it.packet, quote), it.header is None, bool(it.header and it.header.offset)

    first = min(found, key=place, default=None)
    return first if first and alike(first.packet, quote) * 2 >= QUOTED else None


def total_length(packet: bytes) -> int:
    """The total length of a packet."""
    return int.from_bytes(packet[2:4], "big")


def alike(packet: bytes, quote: bytes) -> int:
    """How many of the bytes that an error without options quotes are the packet's."""
    return sum(one == other for one, other in zip(packet[:QUOTED], quote))


def errors(seen: Seen, packet: Optional[Arrival], it: Out, header: Header) -> Iterator[Breach]:
    """The deviations from RFC 1122 3.2.2 of one ICMP error about a packet."""
    quote = header.data[8:]
    if fold(header.data) != 0xFFFF:
        yield Breach(MUST, "icmp.quote", "the ICMP checksum is wrong", it.step, "a right checksum")
    if packet is None:
        yield Breach(
            MUST, "icmp.quote", "an error quotes no packet that came", it.step, "the packet's header and 8 bytes"
        )
        return
    cause = packet.header
    silent = "no error"
    if cause is None:
        yield Breach(MUST, "icmp.never", "an error for a packet whose header doesn't hold", it.step, silent)
        return
    for wrong, words in (
        (
            cause.destination not in (HOST, BROADCAST, ONES) and not is_multicast(cause.destination),
            "for another host's packet",
        ),
        (cause.destination in (BROADCAST, ONES) or is_multicast(cause.destination), "for a broadcast or multicast"),
        (not is_host(cause.source), f"for the source {text_of(cause.source)}"),
        (cause.offset > 0, "for a fragment that isn't the first"),
        (
            cause.whole
            and cause.protocol == UDP
            and udp_sum_is_wrong(cause.data, cause.source, cause.destination),
            "for a datagram whose checksum is wrong",
        ),
        (is_error(cause), "for an ICMP error"),
        (is_unknown(cause), "for ICMP of unknown type"),
    ):
        if wrong:
            why = error_to(cause.source) if words.startswith("for the source") else f"an ICMP error {words}"
            yield Breach(MUST, "icmp.never", f"an error {words}", it.step, silent, why)
    if header.destination != cause.source:
        yield Breach(
            MUST, "icmp.quote", f"an error goes to {text_of(header.destination)}", it.step, text_of(cause.source)
        )
    if cause.whole:
        yield from quoted(it, packet, cause, quote)
    elif cause.offset == 0:
        yield from quoted_datagram(seen, it, packet, cause, quote)


def error_to(source: int) -> str:
    """The name of a cause: an error goes where none may go."""
    return f"{ERROR_TO}{kind_of_source(source) or 'an address that no host has'}"


def is_error(header: Header) -> bool:
    """Whether a packet is an ICMP error."""
    return header.protocol == ICMP and header.offset == 0 and header.data[:1] != b"" and header.data[0] in ERRORS


def is_unknown(header: Header) -> bool:
    """Whether a packet is an ICMP message of a type that no host knows."""
    begins = header.protocol == ICMP and header.offset == 0 and header.data[:1] != b""
    return begins and header.data[0] not in KNOWN_TYPES


def quoted(it: Out, packet: Arrival, cause: Header, quote: bytes) -> Iterator[Breach]:
    """Whether an error quotes its packet unchanged: the header with its options, and 8 bytes."""
    header = 20 + len(cause.options)
    length = min(cause.length, header + 8)
    wanted = packet.packet[:length]
    if quote[:length] == wanted:
        return
    expected = f"{length} bytes as they came"
    words = f"the quote changes the packet's {changed(wanted, quote, header)}"
    if wanted.startswith(quote):
        words = f"the quote ends after {len(quote)} bytes"
    yield wrong_quote(it, packet, words, expected)


def wrong_quote(it: Out, packet: Arrival, words: str, expected: str) -> Breach:
    about_it = Got(packet.step, None, 0, b"")
    return Breach(MUST, "icmp.quote", words, it.step, expected, way=QUOTED_WRONG + words, datagram=about_it)


def changed(wanted: bytes, quote: bytes, header: int) -> str:
    """The names of the fields that differ."""
    parts = (*FIELDS, ("options", 20, header), ("data", header, len(wanted)))
    return " and ".join(name for name, begin, end in parts if wanted[begin:end] != quote[begin : min(end, len(wanted))])


# What may differ in the header of a reassembled datagram from that of its first fragment: bytes of the total length, of
# flags and offset, and of the checksum.
REASSEMBLED = (2, 3, 6, 7, 10, 11)


def quoted_datagram(seen: Seen, it: Out, packet: Arrival, cause: Header, quote: bytes) -> Iterator[Breach]:
    """Whether an error about a datagram in fragments quotes a first fragment unchanged, or the datagram's own header
    with a right checksum, and 8 bytes."""
    firsts = [
        one.packet
        for one in seen.arrivals
        if one.step <= it.step and one.header is not None and one.header.key == cause.key and not one.header.offset
    ]
    header = 20 + len(cause.options)
    length = min(cause.length, header + 8)
    if any(quote[:length] == one[:length] for one in firsts):
        return
    wanted, expected = packet.packet[:length], "the first fragment's header, or the datagram's with a right checksum"
    ends = [one.header.end for one in seen.parts_at(packet.step) if one.header]
    ends += [one.header.end for one in seen.arrivals if one.header and one.header.key == cause.key]
    lengths, is_damaged = {header + end for end in ends} | {cause.length}, fold(quote[:header]) != 0xFFFF
    same = bytes(wanted[at] if at in REASSEMBLED else quote[at] for at in range(min(length, len(quote))))
    for breaks, words in (
        (len(quote) < length, f"the quote ends after {len(quote)} bytes"),
        (same != wanted, f"the quote changes the packet's {changed(wanted, same, header)}"),
        (is_damaged and total_length(quote) not in lengths, "the quote changes the packet's total length"),
        (is_damaged, "the header checksum in the quote of a reassembled datagram is wrong"),
    ):
        if breaks:
            yield wrong_quote(it, packet, words, expected)
            return


def sends(seen: Seen, answer: Answer) -> List[Breach]:
    """The law of sends: for each send that isn't refused, exactly its datagram is sent."""
    found: List[Breach] = []
    at_step: DefaultDict[int, List[Header]] = defaultdict(list)
    for it in answer.out:
        header = read(it.packet)
        if header and header.protocol == UDP:
            at_step[it.step].append(header)
    latest: Dict[int, int] = {}  # the last cut send with each identification
    cut = 0
    for number, step in enumerate(seen.case.steps):
        if not isinstance(step, Send) or answer.refused(number):
            continue
        headers = [it for it in at_step[number] if it.destination == step.address]
        found += one_send(seen, number, step, headers)
        if len(headers) > 1:
            own = headers[0].identification
            if cut - latest.get(own, -RECENT - 1) <= RECENT:
                words = "two cut sends have one identification"
                found.append(Breach(MUST, "send.id", words, number, "another one", way=SENT + words))
            latest[own] = cut
            cut += 1
    return found


def one_send(seen: Seen, number: int, step: Send, headers: List[Header]) -> Iterator[Breach]:
    rule = "send.cut" if len(headers) > 1 else "send.bytes"
    if not headers:
        words = "nothing leaves of a datagram"
        yield Breach(MUST, "send.bytes", words, number, "the datagram", way=SENT + words)
        return
    for wrong, words, expected in (
        (
            any(it.length > seen.case.mtu for it in headers),
            "a packet is longer than the MTU",
            f"at most {seen.case.mtu} bytes",
        ),
        (
            any(it.more and len(it.data) % 8 for it in headers),
            "a fragment that isn't the last is no multiple of 8",
            "a multiple of 8",
        ),
        (len({it.key for it in headers}) > 1, "fragments of one datagram differ in their key", "one key"),
        (
            len(headers) > 1 and any(it.dont_fragment for it in headers),
            "fragments leave with the flag don't fragment",
            "a datagram with this flag is never cut",
        ),
        (any(it.source not in OURS for it in headers), "another source than the host's own", text_of(HOST)),
    ):
        if wrong:
            yield Breach(MUST, rule, words, number, expected, way=SENT + words)
            return
    if len(step.data) + 8 > MOST_PACKETS * (seen.case.mtu - 27):
        return
    data = in_sequence(headers)
    it = None if data is None else read_udp(data, headers[0].source, step.address)
    if data is None:
        words, expected = "the fragments don't make one datagram", "each once, from 0 to a last one"
    elif it is None:
        words, expected = "a datagram leaves with a wrong UDP length or checksum", "right ones"
    elif (it.payload, it.destination_port, it.source_port) != (step.data, step.port, seen.ports[step.socket]):
        words, expected = "other bytes or ports leave than were given", f"{len(step.data)} bytes as given"
    elif it.checksum == 0:
        rule, words = "send.checksum", "a datagram leaves without a checksum"
        expected = "a checksum, 0xffff for a sum of 0"
    else:
        return
    yield Breach(MUST, rule, words, number, expected, way=SENT + words)
