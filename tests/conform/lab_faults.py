"""Faults of students, each planted in the clean solution: its step and language, what it is, old and new text."""
from __future__ import annotations

from typing import List, NamedTuple


class StudentsFault(NamedTuple):
    step: int
    language: str
    name: str
    old: str
    new: str


def c(step: int, name: str, old: str, new: str) -> StudentsFault:
    return StudentsFault(step, "c", name, old, new)


def python(step: int, name: str, old: str, new: str) -> StudentsFault:
    return StudentsFault(step, "python", name, old, new)


SUM = "    if (get16(it->data + 6) == 0) return true;"
ONE_TAIL = "if (length % 2) sum += (uint32_t)bytes[length - 1] << 8;"
MATCHES = "it->port == port && (!it->connected || (it->peer == source && it->peer_port == source_port))"
TO_BEST = "deliver(best, it->source, source_port, it->data + 8, length - 8);"
KEY = "one->source == other->source && one->destination == other->destination"
SHORT = "(packet[0] & 15) < 5 ? 20 : (packet[0] & 15) * 4"
HOLDS = "ones_sum(packet[: (packet[0] & 15) * 4]) == 0xFFFF"
PUT = "        put_ip(packet, &part);"
EMPTY = "    if (it->length == 0 || "

FAULTS: List[StudentsFault] = [
    c(1, "the version isn't looked at", "length < 20 || packet[0] >> 4 != 4", "length < 20"),
    c(1, "a short header length is read as 20", "size = (packet[0] & 15) * 4", f"size = {SHORT}"),
    c(1, "a total length above the packet's is taken", " || total > length", ""),
    c(1, "the total length is compared with the packet's", "total > length", "total != length"),
    c(1, "options aren't skipped", ".data = packet + size,", ".data = packet + 20,"),
    c(1, "bytes after the total length are data", ".length = total - size,", ".length = length - size,"),
    c(1, "255.255.255.255 is dropped", " || to->destination == ONES", ""),
    c(1, "each destination is taken", "return is_ours &&", "(void)is_ours;\n    return"),
    c(1, "sources in 127/8 are taken", " && network != 127", ""),
    c(1, "the offset isn't multiplied by 8", "(place & 0x1fff) * 8", "(place & 0x1fff)"),
    c(1, "don't fragment is read as more", "(place & 0x2000)", "(place & 0x6000)"),
    python(1, "the network's broadcast address is dropped", "(HOST, BROADCAST, ONES) or", "(HOST, ONES) or"),
    c(2, "an odd tail is the low byte", ONE_TAIL, "if (length % 2) sum += bytes[length - 1];"),
    c(2, "an odd tail is left out", ONE_TAIL, ""),
    c(2, "no carry is folded in", "while (sum >> 16) sum = (sum & 0xffff) + (sum >> 16);", ""),
    c(2, "the pseudo header lacks the protocol", " + PROTOCOL_UDP\n", "\n"),
    c(2, "the header's options aren't summed", "(packet[0] & 15) * 4", "20"),
    c(2, "a datagram without a checksum is dropped", SUM, SUM.replace("true", "false")),
    python(2, "the sum isn't compared", HOLDS, "bool(packet)"),
    c(3, "a UDP length below 8 is taken", "length < 8 || ", ""),
    c(3, "a UDP length above the data is taken", " || length > it->length", ""),
    c(3, "bytes after the UDP length are delivered", TO_BEST, TO_BEST.replace("length - 8", "it->length - 8")),
    c(3, "the UDP header is delivered", TO_BEST, TO_BEST.replace("it->data + 8", "it->data")),
    c(3, "the port isn't compared", MATCHES, MATCHES.replace("it->port == port", "port != 0")),
    c(3, "the peer's port isn't compared", "it->peer_port == source_port", "source_port"),
    c(3, "no Port Unreachable", "if (best == NULL) return false;", "if (best == NULL) return true;"),
    python(3, "the sender's port is the destination's", "it.source, source_port,", "it.source, port,"),
    c(4, "a checksum of 0 is sent as 0", "checksum == 0 ? 0xffff : checksum", "checksum"),
    c(4, "the total length lacks the header", "(uint16_t)(20 + it->length)", "(uint16_t)(it->length)"),
    c(4, "the protocol is always UDP", "to[9] = it->protocol;", "to[9] = PROTOCOL_UDP;"),
    c(4, "the source port isn't written", "put16(to, source_port);", "put16(to, port);\n    (void)source_port;"),
    c(4, "the offset is written in bytes", "it->offset / 8 |", "it->offset |"),
    python(4, "the UDP checksum lacks the pseudo header", "(bare, pseudo_sum(HOST, destination, size))", "(bare)"),
    c(5, "a fragment's data is as long as the MTU", "(mtu - 20) / 8 * 8", "mtu / 8 * 8"),
    c(5, "fragments are no multiples of 8", "(mtu - 20) / 8 * 8", "mtu - 20"),
    c(5, "each fragment has its own identification", PUT, f"        part.identification = ++identification;\n{PUT}"),
    c(5, "the last fragment has more, too", "part.more = part.length < left;", "part.more = most < it->length;"),
    python(5, "one identification for all", "next(identifications) % 0x10000", "1"),
    c(6, "the key lacks the source", KEY, "one->destination == other->destination"),
    c(6, "a front is cut, and its bytes aren't advanced", "    it->bytes += begin - it->begin;\n", ""),
    c(6, "nothing expires", "now - (*at)->born < LIFE_MS", "now + 1 > 0"),
    c(6, "no Time Exceeded", "if ((*at)->has_first) time_exceeded((*at)->first);", ""),
    c(6, "fragments must come in order", EMPTY, f"    if (it->offset > 0 && all == NULL) return false;\n{EMPTY}"),
    python(6, "the end isn't looked at", "0 in old.there[: old.ends[0]]", "not old.there[0]"),
]  # fmt: skip
