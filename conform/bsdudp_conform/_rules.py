"""The rules: what each says in our own words, and its source."""
from __future__ import annotations

from typing import Dict, NamedTuple

POLICY = "policy"


class Rule(NamedTuple):
    """A rule. If the source begins with "policy", the RFCs leave the behaviour open."""

    sentence: str
    source: str


RULES: Dict[str, Rule] = {
    "ip.version": Rule("another version than 4 is silently discarded", "RFC 1122 3.2.1.1"),
    "ip.checksum": Rule("a wrong header checksum is silently discarded", "RFC 1122 3.2.1.2"),
    "ip.checksum.forms": Rule("a right header checksum is taken, 0x0000 and 0xffff alike", "RFC 791 3.1, RFC 1071 1"),
    "ip.ihl": Rule("a header length below 5 words is discarded", "RFC 791 3.1"),
    "ip.ihl.beyond": Rule("a header that ends beyond the datagram is discarded", "RFC 791 3.1"),
    "ip.total.below": Rule("a total length below the header's is discarded", "RFC 791 3.1"),
    "ip.total.beyond": Rule("a total length above what came is discarded", "RFC 791 3.1"),
    "ip.padding": Rule("bytes after the total length aren't the datagram's", "RFC 791 3.1, RFC 894"),
    "ip.runt": Rule("a packet cut short is discarded", "RFC 791 3.1"),
    "ip.ttl": Rule("a time to live of 0 or 1 is no reason to discard", "RFC 1122 3.2.1.7"),
    "ip.tos": Rule("each type of service is taken", "RFC 1122 3.2.1.6, RFC 2474 3"),
    "ip.id": Rule("the identification of a whole datagram means nothing", "RFC 6864 4.1"),
    "ip.flags.df": Rule("don't-fragment is no reason to discard", "RFC 791 3.1"),
    "ip.flags.reserved": Rule("the reserved flag: taken or discarded", POLICY),
    "ip.options": Rule("options that aren't understood are ignored", "RFC 1122 3.2.1.8"),
    "ip.options.bad": Rule("malformed options: taken or discarded", POLICY),
    "ip.flip": Rule("each bit of a header turned over, with the checksum wrong or made right", "RFC 791 3.1"),
    "ip.dst.other": Rule("another host's datagram is silently discarded", "RFC 1122 3.2.1.3"),
    "ip.dst.broadcast": Rule("both broadcast addresses are recognised", "RFC 1122 3.2.1.3, 3.3.6"),
    "ip.dst.zerocast": Rule("the broadcast forms with 0 for -1", "policy (RFC 1122 3.3.6)"),
    "ip.dst.loopback": Rule("127.0.0.0/8 from the wire isn't taken", "RFC 1122 3.2.1.3 (g)"),
    "ip.src.invalid": Rule(
        "a source of broadcast, multicast or 127/8 is silently discarded", "RFC 1122 3.2.1.3, 4.1.3.6"
    ),
    "ip.src.zero": Rule(
        "a source in 0/8 is silently discarded, unless a host learns its address", "RFC 1122 3.2.1.3 (a), (b)"
    ),
    "ip.src.policy": Rule("the host's own address, and class E, as source", POLICY),
    "ip.out": Rule(
        "what leaves has a right header, a source that may leave, and a time to live", "RFC 1122 3.2.1.3, 3.2.1.7"
    ),
    "icmp.port": Rule("Port Unreachable for a port without a socket", "RFC 1122 4.1.3.1"),
    "icmp.proto": Rule("Protocol Unreachable for an unknown protocol", "RFC 1122 3.2.2.1"),
    "icmp.never": Rule(
        "no error for a broadcast, for a source that isn't one host, or for what is silently discarded",
        "RFC 1122 3.2.2",
    ),
    "icmp.quote": Rule("an error quotes the header and 8 bytes unchanged, and goes to the sender", "RFC 1122 3.2.2"),
    "icmp.reass": Rule("Time Exceeded where reassembly ends with the first fragment there", "RFC 1122 3.3.2"),
    "icmp.reass.none": Rule("none where the first fragment isn't there", "RFC 792"),
    "icmp.echo": Rule(
        "an Echo Request is answered once, with its identifier, number and data", "RFC 1122 3.2.2.6, RFC 792"
    ),
    "icmp.echo.options": Rule(
        "a record route or timestamp of an Echo Request comes back in the reply, with the host's own address",
        "RFC 1122 3.2.2.6",
    ),
    "icmp.silent": Rule(
        "ICMP of unknown type, errors, replies, and requests that no host may have sent aren't answered",
        "RFC 1122 3.2.2, 3.2.1.3",
    ),
    "icmp.error": Rule(
        "an ICMP error about a send: a call reports it, or none does; the socket lives on",
        "policy (RFC 1122 4.1.3.3, POSIX ECONNREFUSED)",
    ),
    "udp.short": Rule("fewer than 8 bytes are no UDP datagram", "RFC 768"),
    "udp.len.below": Rule("a length below 8 is discarded", "RFC 768, Length"),
    "udp.len.beyond": Rule("a length above what IP carries is discarded", "RFC 768, Length"),
    "udp.len.trim": Rule("bytes after the UDP length never reach the user", "RFC 768, Length"),
    "udp.checksum": Rule("a wrong checksum is silently discarded", "RFC 1122 4.1.3.4"),
    "udp.checksum.zero": Rule("no checksum (0): passed on", "RFC 768, RFC 1122 4.1.3.4"),
    "udp.checksum.ffff": Rule("a checksum computed as 0 comes as 0xffff", "RFC 768"),
    "udp.flip": Rule("each bit of a UDP header turned over", "RFC 768, RFC 1122 4.1.3.4"),
    "udp.data": Rule("data of each length comes as sent, in one packet", "RFC 768"),
    "udp.ports": Rule("source port 0 is taken; other ports' datagrams aren't", "RFC 768"),
    "udp.source": Rule("the user gets the address and port of a datagram's sender", "RFC 768, User Interface"),
    "udp.proto": Rule("another protocol's bytes don't reach UDP", "RFC 791 3.1"),
    "frag.order": Rule("fragments in any order make the datagram", "RFC 791 3.2, RFC 1122 3.3.2"),
    "frag.sizes": Rule("fragments of 8 bytes on, and last ones of 1 on", "RFC 791 3.2"),
    "frag.large": Rule("datagrams above 576 bytes, with data of each length up to 4,415", "RFC 1122 3.3.2"),
    "frag.hole": Rule("with a fragment missing nothing comes", "RFC 791 3.2"),
    "frag.dup": Rule("a fragment that comes twice does no harm", "RFC 791 3.2"),
    "frag.overlap.same": Rule(
        "overlaps with equal bytes", "policy (RFC 791 3.2 takes them; RFC 5722 forbids them in IPv6)"
    ),
    "frag.overlap.differ": Rule(
        "overlaps with different bytes: which win, or all dropped", "policy (RFC 791 3.2: the last)"
    ),
    "frag.odd": Rule("more fragments, and no multiple of 8", POLICY),
    "frag.empty": Rule("fragments without data", POLICY),
    "frag.beyond": Rule("fragments beyond 65,535: nothing comes, and the stack lives on", "RFC 791 3.1"),
    "frag.key": Rule("source, destination, identification and protocol distinguish datagrams", "RFC 791 3.2"),
    "frag.whole.between": Rule("a whole datagram with the identification of an unfinished one comes", "RFC 6864 4.1"),
    "frag.ends": Rule("last fragments that disagree, and bytes after the last", "RFC 791 3.2, and policy"),
    "frag.header": Rule("TOS, TTL and DF may differ among fragments", "RFC 791 3.2"),
    "frag.ecn": Rule("CE with Not-ECT among fragments", "policy (RFC 3168 5.3)"),
    "frag.padding": Rule("bytes after a fragment's total length aren't its own", "RFC 791 3.1, RFC 894"),
    "frag.bad": Rule("a fragment with a wrong header counts for nothing", "RFC 1122 3.2.1.2"),
    "frag.flip": Rule("each bit of a fragment's header turned over", "RFC 791 3.1, 3.2"),
    "frag.udp": Rule("UDP's own checks hold of what was put together", "RFC 1122 4.1.3.4, RFC 768"),
    "frag.broadcast": Rule("fragments to a broadcast address", "RFC 1122 3.3.2, 3.3.6"),
    "frag.options": Rule("options in fragments are ignored like others", "RFC 1122 3.2.1.8"),
    "frag.reuse": Rule("an identification may come again after its datagram", "RFC 791 3.2"),
    "frag.time.keep": Rule("unfinished datagrams are kept 60 s", "RFC 1122 3.3.2"),
    "frag.time.drop": Rule("and not beyond 120 s", "RFC 1122 3.3.2; 255 s: RFC 791 3.2"),
    "frag.many": Rule(
        "a whole datagram comes in a flood of unfinished ones; how many of these are kept", "RFC 791 3.2, and policy"
    ),
    "socket.ports": Rule("each socket gets its own port's datagrams", "RFC 768"),
    "socket.connected": Rule("a connected socket receives only from its peer", "POSIX connect; RFC 1122 4.1.4"),
    "socket.several": Rule("two sockets on a port", POLICY),
    "hold.order": Rule("datagrams that wait are read in the order in which they came, each once", "POSIX 2.10.11"),
    "hold.lost": Rule("a datagram that waits is there when it's read", "RFC 768; POSIX 2.10.11"),
    "hold.many": Rule("how many datagrams wait, and which are dropped", "policy (POSIX 2.10.11)"),
    "send.bytes": Rule("what leaves is the datagram that was given", "RFC 768, RFC 791 3.2"),
    "send.cut": Rule(
        "a cut send: packets within the MTU, offsets in eights, one identification, no don't fragment, right sums",
        "RFC 791 2.3, 3.2, RFC 1122 3.3.3",
    ),
    "send.checksum": Rule(
        "a UDP checksum is there, and one computed as 0 is sent as 0xffff", "RFC 768, RFC 1122 4.1.3.4"
    ),
    "send.id": Rule("two cut sends have different identifications", "RFC 6864 4.3"),
    "run": Rule("many cases on one machine, without a fresh boot", "the two laws"),
    "mix": Rule("random mixes of good, cut, bad and doubled packets", "the two laws"),
}
