"""What ICMP errors quote (RFC 1122 3.2.2): errors that scapy makes raise no alarm, whichever header of a reassembled
datagram they quote, and each fault in a quote is found."""
import functools

import pytest

try:
    from scapy.layers.inet import ICMP, IP
    from scapy.packet import Raw
except ImportError:  # all tests are skipped then
    pass

from bsdudp_conform import cases
from bsdudp_conform._addresses import HOST, text_of
from bsdudp_conform._case import Answer, Out, Receive
from bsdudp_conform._freedom import Path
from bsdudp_conform._machine import Machine
from bsdudp_conform._verdict import verdict

ABILITIES = frozenset({"out", "send", "mtu"})
RULES = ("icmp.port", "icmp.proto", "icmp.reass")
pytestmark = pytest.mark.needs("scapy")


def size_of(packet):
    return (packet[0] & 15) * 4


def quote(packet, length=None):
    """Returns the header with its options, and 8 bytes."""
    return packet[: size_of(packet) + 8 if length is None else length]


def first_of(packets):
    """Returns the packet that an error is about: the datagram's first fragment."""
    return next(it for it in packets[::-1] if int.from_bytes(it[6:8], "big") % 0x2000 == 0)


def as_one(packets):
    """Returns the first packet with the total length of the datagram, no flags and a right checksum, by scapy."""
    it = IP(quote(first_of(packets)))
    if len(packets) > 1:
        it.len, it.flags, it.frag = it.len + 24, 0, 0
    del it.chksum
    return bytes(it)


def without_a_new_sum(packets):
    whole = as_one(packets)
    return whole[:10] + first_of(packets)[10:12] + whole[12:]


def changed(place, bit=1):
    """One byte of the quote differs."""
    return lambda packets: bytes(it ^ bit * (at == place) for at, it in enumerate(quote(first_of(packets))))


def route_filled_in(packets):
    made = quote(first_of(packets))
    if made[20:23] == b"\7\7\4":
        made = made[:22] + b"\x08\x0a\0\0\1" + made[27:]
    return made


def without_options(packets):
    made = quote(first_of(packets))
    return b"\x45" + made[1:20] + made[size_of(made) :]


RIGHT = {
    "the first fragment": lambda packets: quote(first_of(packets)),
    "all of the first fragment": first_of,
    "the reassembled datagram": as_one,
}
FAULTS = {
    "28 bytes, whatever the options": lambda packets: quote(first_of(packets), 28),
    "the header alone": lambda packets: quote(first_of(packets), size_of(first_of(packets))),
    "7 bytes of data": lambda packets: quote(first_of(packets))[:-1],
    "a record route is filled in": route_filled_in,
    "the header of a reassembled datagram has the checksum of its first fragment": without_a_new_sum,
    "the time to live is one less": changed(8),
    "the checksum field is changed": changed(11),
    "the type of service is changed": changed(1, 4),
    "the source port is changed": changed(21),
    "the last byte is changed": lambda packets: changed(size_of(first_of(packets)) + 7)(packets),
    "options are left out": without_options,
}


def answer(case, quoting):
    """Returns what a stack sends that reports each error that is due, with this quote."""
    machine = Machine(Path({}), case.mtu)
    machine.play(case)
    packets = [it.packet for it in case.steps if isinstance(it, Receive)]
    out = []
    for due in machine.due:
        source = text_of(int.from_bytes(packets[0][12:16], "big"))
        error = IP(src=text_of(HOST), dst=source) / ICMP(type=due.type, code=due.code) / Raw(quoting(packets))
        out.append(Out(due.step, bytes(error)))
    return Answer((*machine.events, *out))


@functools.lru_cache(maxsize=None)
def chosen():
    return [it for it in cases.make(1, 0) if it.rule in RULES]


def breaches(quoting):
    for case in chosen():
        for it in verdict(case, answer(case, quoting), ABILITIES):
            yield it.rule, f"{case.name}, {case.title}: {it.what}"


@pytest.mark.parametrize("name", RIGHT)
def test_no_false_alarm(name):
    assert not list(breaches(RIGHT[name]))


@pytest.mark.parametrize("name", FAULTS)
def test_fault_is_seen(name):
    rules = {rule for rule, _ in breaches(FAULTS[name])}
    assert rules == {"icmp.quote"}, rules
