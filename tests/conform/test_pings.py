"""The law of pings: a stack whose replies scapy makes raises no alarm, also if it sends optional replies. Each fault in
FAULTS, in its replies or in the choice of requests, must be found."""
import functools

import pytest

try:
    from scapy.layers.inet import ICMP, IP
    from scapy.packet import Raw
except ImportError:  # all tests are skipped then
    pass

from bsdudp_conform import cases
from bsdudp_conform._addresses import HOST, PEER, is_host, text_of
from bsdudp_conform._case import Answer, Out, Receive
from bsdudp_conform._freedom import Path
from bsdudp_conform._laws import in_sequence
from bsdudp_conform._machine import Machine
from bsdudp_conform._read import fold
from bsdudp_conform._verdict import verdict

ABILITIES = frozenset({"out", "ping", "send", "mtu"})
RULES = ("icmp.echo", "icmp.echo.options", "icmp.silent")
OWN = HOST.to_bytes(4, "big")
RECORD_ROUTE, TIMESTAMP, SOURCE_ROUTES = 7, 0x44, (0x83, 0x89)
pytestmark = pytest.mark.needs("scapy")


def is_request(header, data):
    return data[:1] == b"\x08" and len(data) >= 8 and header.destination == HOST and is_host(header.source)


def updated(options, times=1, own=OWN):
    """Returns a record route or timestamp as the host returns it, having added itself so many times; other options
    aren't returned."""
    found, at = b"", 0
    while at < len(options) and options[at]:
        size = 1 if options[at] == 1 else options[at + 1]
        one = bytearray(options[at : at + size])
        if one[0] in (RECORD_ROUTE, TIMESTAMP):
            kind = one[3] & 15 if one[0] == TIMESTAMP else 9
            for _ in range(times):
                place = one[2] - 1
                entry = {9: own, 0: b"\0\0\1\2", 1: own + b"\0\0\1\2", 3: own + b"\0\0\1\2"}[kind]
                room = place + len(entry) <= len(one)
                if room and (kind != 3 or one[place : place + 4] == OWN):
                    one[place : place + len(entry)] = entry
                    one[2] += len(entry)
            found += one
        at += size
    return found + bytes(-len(found) % 4)


def reply(header, data, options=None, **fields):
    """Returns a reply that scapy makes."""
    options = updated(header.options) if options is None else options
    ip = IP(src=text_of(HOST), dst=text_of(header.source), options=[Raw(options)] if options else [])
    icmp = ICMP(type=0, code=0, id=int.from_bytes(data[4:6], "big"), seq=int.from_bytes(data[6:8], "big"))
    for name, value in fields.items():
        setattr(ip if name in ("src", "dst") else icmp, name, value)
    return bytes(ip / icmp / Raw(data[8:]))


def right(header, data):
    return [reply(header, data)] if is_request(header, data) and fold(data) == 0xFFFF else []


def free(header, data):
    """It also replies to requests that need no reply."""
    asked = data[:1] == b"\x08" and len(data) >= 8 and is_host(header.source)
    ours = header.destination in (HOST, HOST | 0xFF, 0xFFFFFFFF)
    return [reply(header, data)] if asked and ours else []


def by_the_route(header, data):
    """It records its address twice, as Linux does, and returns a source route reversed: the first hop is the last one
    of the request."""
    if header.options[:1] and header.options[0] in SOURCE_ROUTES:
        route = bytes([header.options[0], 7, 4]) + header.source.to_bytes(4, "big") + b"\0"
        hop = text_of(int.from_bytes(header.options[3:7], "big"))
        return [reply(header, data, route, dst=hop) for _ in right(header, data)]
    return [reply(header, data, updated(header.options, 2)) for _ in right(header, data)]


def with_options(made):
    """Right, except for the options of the reply."""
    return lambda header, data: [reply(header, data, made(header.options)) for _ in right(header, data)]


def instead(**fields):
    """Right, except for fields of the reply."""
    return lambda header, data: [reply(header, data, **fields)] if right(header, data) else []


def beside(kinds, made):
    """Right, but it also replies to messages of these types."""
    return lambda header, data: [made(header, data)] if data[:1] and data[0] in kinds else right(header, data)


def error(kind, code):
    return lambda header, data: bytes(
        IP(src=text_of(HOST), dst=text_of(header.source)) / ICMP(type=kind, code=code) / Raw(bytes(IP(
            src=text_of(header.source), dst=text_of(HOST), proto=1, id=header.identification, ttl=header.ttl,
        ) / Raw(data))[:28])
    )


FAULTS = {
    "no reply": lambda header, data: [],
    "no reply to an empty one": lambda header, data: right(header, data) if len(data) > 8 else [],
    "no reply above 512 bytes": lambda header, data: right(header, data) if len(data) < 521 else [],
    "no reply to a request in fragments": lambda header, data: right(header, data) if header.whole else [],
    "two replies": lambda header, data: right(header, data) * 2,
    "the last byte is lost": lambda header, data: [it[:-1] for it in right(header, data)],
    "data is cut to 64 bytes": lambda header, data: [reply(header, data[:72])] if right(header, data) else [],
    "data of an odd length gets one more byte": lambda header, data: [
        reply(header, data + b"\0" * (len(data) % 2)) for _ in right(header, data)
    ],
    "another identifier": instead(id=1),
    "another number": instead(seq=9),
    "the request's checksum is kept": lambda header, data: [
        reply(header, data, chksum=int.from_bytes(data[2:4], "big")) for _ in right(header, data)
    ],
    "the request's code is kept as 1": instead(code=1),
    "the source is another's": instead(src=text_of(PEER)),
    "the reply goes to another": instead(dst="10.0.0.9"),
    "all requests are answered, whoever they're for": lambda header, data: [reply(header, data)]
    if data[:1] == b"\x08" and len(data) >= 8
    else [],
    "a request of 4 bytes is answered": lambda header, data: [reply(header, data.ljust(8, b"\0"))]
    if data[:1] == b"\x08" and header.destination == HOST and is_host(header.source)
    else [],
    "replies are answered": beside((0,), reply),
    "a mask request is answered": beside((17,), lambda header, data: reply(header, data, type=18)),
    "an information request is answered": beside((15,), lambda header, data: reply(header, data, type=16)),
    "an unknown type is answered by an error": beside((7, 44), error(3, 2)),
    "an error is answered by an error": beside((3, 11), error(3, 3)),
    "a request with options gets no reply": lambda header, data: [] if header.options else right(header, data),
    "options aren't returned": with_options(lambda options: b""),
    "a record route is returned as it came": with_options(lambda options: options),
    "a record route has another's address": with_options(lambda options: updated(options, own=b"\x0a\0\0\x09")),
    "a record route is shortened": with_options(
        lambda options: b"\7\7" + updated(options)[2:7] + b"\0" if options[:2] == b"\7\x27" else updated(options)
    ),
    "a record route begins anew": with_options(
        lambda options: updated(b"\7\x0f\4" + bytes(13)) if options[:2] == b"\7\x0f" else updated(options)
    ),
    "only the first of two options is returned": with_options(
        lambda options: updated(options[:7]) if options[:1] == b"\7" else updated(options)
    ),
}


def answer(case, replies):
    """Returns the packets of a stack with these replies to ICMP."""
    machine = Machine(Path({}), case.mtu)
    machine.play(case)
    out, cut = [], {}
    for number, step in enumerate(case.steps):
        header = step.header if isinstance(step, Receive) else None
        if header is None or header.protocol != 1:
            continue
        data = header.data
        if not header.whole:
            parts = cut.setdefault(header.key, [])
            parts.append(header)
            data = in_sequence(parts)
        out += [Out(number, it) for it in replies(header, data)] if data is not None else []
    return Answer((*machine.events, *out))


@functools.lru_cache(maxsize=None)
def chosen():
    return [it for it in cases.make(1, 0) if it.rule in RULES]


def breaches(replies):
    for case in chosen():
        for it in verdict(case, answer(case, replies), ABILITIES):
            yield f"{case.name}, {case.title}: {it.what}"


@pytest.mark.parametrize("replies", [right, free, by_the_route])
def test_no_false_alarm(replies):
    assert not list(breaches(replies))


@pytest.mark.parametrize("name", FAULTS)
def test_fault_is_seen(name):
    assert next(breaches(FAULTS[name]), None)
