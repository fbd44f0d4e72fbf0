"""The law of pings (RFC 792, RFC 1122 3.2.2): each Echo Request that a host must reply to gets one reply, with its
identifier, number and data, and from the address that it was sent to; other messages get none."""
from __future__ import annotations

from dataclasses import replace
from typing import Dict, FrozenSet, Iterator, List, NamedTuple, Optional, Sequence, Tuple

from ._addresses import HOST, OURS, ZERO_BROADCAST, is_host, text_of
from ._case import Answer
from ._cause import accepted, no_reply
from ._laws import FEW_FRAGMENTS, PROMPT_MS, Arrival, Seen, in_sequence, plain
from ._machine import LOOSE_ROUTE, RECORD_ROUTE, STRICT_ROUTE, well_formed
from ._read import ICMP, Header, fold, read
from ._wire_laws import MUST, SHOULD, Breach
from ._words import kind_of_source

ECHO_REPLY, ECHO_REQUEST = 0, 8
# Hosts mustn't send the one, and shouldn't the other (RFC 1122 3.2.2.9, 3.2.2.7).
MASK_REPLY, INFORMATION_REPLY = 18, 16
HEADER, CLASS_E, DUE_BYTES = 8, 0xF0, 576
TIMESTAMP, PRESPECIFIED = 0x44, 3


class Request(NamedTuple):
    """An Echo Request, and whether it must get a reply: None if a host may reply or not. options: those of a request in
    one packet."""

    step: int
    level: Optional[str]
    source: int
    message: bytes
    options: bytes = b""

    @property
    def reply(self) -> bytes:
        """What the reply carries, except its type, code and checksum."""
        return self.message[4:]

    @property
    def ways(self) -> Tuple[int, ...]:
        """The destinations that a reply may have: the sender, or the hops of the request's source route."""
        routes = [it for it in split(self.options) if it[0] in (LOOSE_ROUTE, STRICT_ROUTE)]
        hops = [int.from_bytes(it[at : at + 4], "big") for it in routes for at in range(3, len(it) - 3, 4)]
        return (self.source, *hops)


def requests(seen: Seen) -> Iterator[Request]:
    """All Echo Requests of a case that a host may reply to."""
    keys: Dict[Tuple[int, int, int, int], List[Arrival]] = {}
    for it in seen.arrivals:
        header = it.header
        if header is None or header.protocol != ICMP:
            continue
        if header.whole:
            yield from request(it.step, header, header.data, True)
        else:
            keys.setdefault(header.key, []).append(it)
    for parts in keys.values():
        headers = [it.header for it in parts if it.header is not None]
        data = in_sequence(headers)
        if data is not None:
            prompt = parts[-1].ms - parts[0].ms <= PROMPT_MS and len(parts) <= FEW_FRAGMENTS
            yield from request(parts[-1].step, headers[0], data, prompt and all(map(plain, headers)))


def request(step: int, header: Header, message: bytes, few: bool) -> Iterator[Request]:
    """The request that a packet carries, or fragments that were put together."""
    source = header.source
    if len(message) < HEADER or message[0] != ECHO_REQUEST or header.destination not in OURS or not is_host(source):
        return
    free = header.destination != HOST or source in (HOST, ZERO_BROADCAST) or source >> 24 >= CLASS_E
    bare = replace(header, options=b"") if header.whole and well_formed(header.options) else header
    free = free or message[1] != 0 or fold(message) != 0xFFFF or not plain(bare)
    level = MUST if few and 20 + len(header.options) + len(message) <= DUE_BYTES else SHOULD
    yield Request(step, None if free else level, source, message, header.options if header.whole else b"")


def pings(seen: Seen, answer: Answer, abilities: FrozenSet[str]) -> List[Breach]:
    """All breaches of the law. Without `ping` a missing reply is no breach; of a stack that isn't a fresh one, a reply
    may be to another case."""
    left = list(requests(seen))
    found: List[Breach] = []
    for it in answer.out:
        header = read(it.packet)
        if header is None or header.protocol != ICMP or not header.data:
            continue
        if header.data[0] == ECHO_REPLY:
            asked = answered(left, header)
            if asked is not None:
                left.remove(asked)
                found += wrong(it.step, asked, header)
            elif "echo" not in abilities:
                words = f"an Echo Reply to {text_of(header.destination)} leaves that no request asks for"
                source = kind_of_source(header.destination)
                cause = accepted(source) if source else "an Echo Reply leaves that no request asks for"
                found.append(Breach(MUST, "icmp.silent", words, it.step, "no answer", cause))
        elif header.data[0] in (MASK_REPLY, INFORMATION_REPLY):
            level = MUST if header.data[0] == MASK_REPLY else SHOULD
            words = f"an ICMP message of type {header.data[0]} leaves"
            found.append(Breach(level, "icmp.silent", words, it.step, "no answer"))
    if "ping" in abilities:
        for asked in left:
            if asked.level:
                words = f"{len(asked.message) - HEADER} bytes in an Echo Reply to {text_of(asked.source)}"
                arrived = next(it for it in seen.arrivals if it.step == asked.step)
                why = no_reply(arrived.packet, bool(arrived.header and not arrived.header.whole))
                found.append(Breach(asked.level, "icmp.echo", "no Echo Reply", asked.step, words, *why))
    return found


def answered(asked: Sequence[Request], header: Header) -> Optional[Request]:
    """The request that a reply is for: of several the one with its bytes, or otherwise with its identifier and
    number."""
    same = [it for it in asked if header.destination in it.ways]
    same.sort(key=lambda it: (it.reply != header.data[4:], it.message[4:8] != header.data[4:8]))
    return same[0] if same else None


def wrong(step: int, asked: Request, header: Header) -> Iterator[Breach]:
    """What's wrong with a reply."""
    for breaks, words, expected in (
        (fold(header.data) != 0xFFFF, "the checksum of an Echo Reply is wrong", "a right checksum"),
        (header.data[1:2] not in (b"\0", asked.message[1:2]), "another code in an Echo Reply", "code 0"),
        (header.source != HOST, f"an Echo Reply leaves with the source {text_of(header.source)}", text_of(HOST)),
        (header.data[4:8] != asked.message[4:8], "another identifier or number in an Echo Reply", "the request's"),
        (header.data[8:] != asked.message[8:], "other data in an Echo Reply", "the request's data"),
    ):
        if breaks:
            yield Breach(MUST, "icmp.echo", words, step, expected)
    if well_formed(asked.options):
        yield from options_of_reply(step, asked, header)


def split(options: bytes) -> List[bytes]:
    """The options of a header, without padding. What isn't well formed ends the list."""
    found, at = [], 0
    while at < len(options) and options[at] != 0:
        size = 1 if options[at] == 1 else options[at + 1] if at + 1 < len(options) else 0
        if size == 0 or size == 1 and options[at] != 1 or at + size > len(options):
            break
        if size > 1:
            found.append(options[at : at + size])
        at += size
    return found


def options_of_reply(step: int, asked: Request, header: Header) -> Iterator[Breach]:
    """A record route and a timestamp of the request are brought up to date, and returned (RFC 1122 3.2.2.6)."""
    for option in split(asked.options):
        name = {RECORD_ROUTE: "record route", TIMESTAMP: "timestamp"}.get(option[0])
        if name is None:
            continue
        returned = next((it for it in split(header.options) if it[0] == option[0]), None)
        words = "isn't returned" if returned is None else what_differs(option, returned)
        if words:
            expected = f"the request's {name} with {text_of(HOST)}"
            yield Breach(SHOULD, "icmp.echo.options", f"the {name} of a ping {words}", step, expected)


def what_differs(option: bytes, returned: bytes) -> Optional[str]:
    """What is wrong with a record route or timestamp that came back, or None. The host may have added itself more than
    once."""
    if len(option) != len(returned):
        return "is returned with another length"
    begin = 3 if option[0] == RECORD_ROUTE else 4
    kind = 0 if option[0] == RECORD_ROUTE else option[3] & 15
    size = 4 if option[0] == RECORD_ROUTE or kind == 0 else 8
    old, new = option[2] - 1, returned[2] - 1
    entries = [returned[at : at + size] for at in range(old, new, size)]
    own = HOST.to_bytes(4, "big")
    named = option[old : old + 4] if kind == PRESPECIFIED else own
    if returned[begin:old] != option[begin:old] or new < old or new > len(option):
        return "is returned with other entries"
    if old + size <= len(option) and named == own and not entries:
        return "isn't brought up to date"
    if (option[0] == RECORD_ROUTE or kind in (1, PRESPECIFIED)) and any(it[:4] != own for it in entries):
        return "gets another address than the host's"
    return None

