"""The six steps of the course's stack: for each test its points, the cases that decide it, and what a student must know
to mend it."""
from __future__ import annotations

from typing import List, NamedTuple, Sequence, Tuple

from ._case import Case

# A test doesn't need all cases of a rule with many: it takes each N-th, so that about this many are left.
MOST_CASES = 40


# A plain datagram of 10 bytes: a stack that drops everything passes no test.
PLAIN = "udp.data:11"


class Test(NamedTuple):
    """What a step must do: it passes if the stack deviates in none of these rules' cases."""

    points: int
    rules: Tuple[str, ...]
    message: str

    def cases(self, every: Sequence[Case]) -> List[Case]:
        """The cases that decide it, few of each rule."""
        found: List[Case] = []
        for rule in self.rules:
            of_rule = [it for it in every if it.name == rule or it.rule == rule or it.rule.startswith(f"{rule}.")]
            short = [it for it in of_rule if len(it.steps) < MOST_CASES] or of_rule
            found += short[:: -(-len(short) // MOST_CASES)]
        return found


class Step(NamedTuple):
    number: int
    title: str
    tests: Tuple[Test, ...]

    @property
    def points(self) -> int:
        return sum(it.points for it in self.tests)


STEPS = (
    Step(1, "header checks", (
        Test(3, ("ip.tos", "ip.id", "ip.ttl", "ip.flags.df", "udp.data"), "an ordinary packet is taken, whatever its "
             "type of service, identification and time to live"),
        Test(1, ("ip.version", PLAIN), "another version than 4 is dropped"),
        Test(2, ("ip.ihl", "ip.runt", PLAIN), "a packet that is shorter than its header, or whose header length is "
             "below 20, is dropped"),
        Test(2, ("ip.total", "ip.padding", "frag.padding"), "the total length: below the header or above the packet, "
             "the packet is dropped; bytes after it aren't data"),
        Test(2, ("ip.options", "frag.options"), "options are skipped"),
        Test(2, ("ip.dst",), "destinations: HOST, BROADCAST and ONES, and no others"),
        Test(2, ("ip.src", PLAIN), "sources that no host may have are dropped"),
        Test(1, ("frag.order", "frag.header"), "offset and `more` are read: the offset in units of 8 bytes, and no "
             "other flag"),
    )),
    Step(2, "the checksum", (
        Test(4, ("ip.checksum", "ip.options"), "a header checksum is right if the sum over the header and its options "
             "is 0xffff, and only then"),
        Test(4, ("udp.checksum",), "the UDP checksum covers the pseudo header, the UDP header and the data; 0 is none"),
        Test(4, ("udp.data", "frag.sizes", "udp.checksum:1"), "odd lengths: the last byte is the high byte of a word"),
        Test(3, ("udp.flip", "frag.large", "send.cut"), "all carries are folded in, also those of a long datagram"),
    )),
    Step(3, "demultiplexing", (
        Test(4, ("udp.short", "udp.len.below", "udp.len.beyond", PLAIN), "a datagram shorter than 8 bytes, or with a "
             "UDP length below 8 or above its data, is dropped"),
        Test(3, ("udp.len.trim",), "bytes after the UDP length don't reach the user"),
        Test(4, ("udp.ports", "socket.ports"), "the destination port selects the socket"),
        Test(4, ("socket.connected",), "a connected socket receives from its peer's address and port, and from nobody "
             "else"),
        Test(3, ("udp.source", "ip.dst.broadcast", "socket.several"), "the user gets the sender's address and port; a "
             "broadcast reaches the sockets that match"),
        Test(2, ("icmp.port",), "if no socket matches, false is returned, so that Port Unreachable is sent"),
    )),
    Step(4, "sending", (
        Test(5, ("send.bytes",), "what leaves is the datagram that was given, with a right header"),
        Test(5, ("send.checksum",), "the UDP checksum is there, and one computed as 0 is sent as 0xffff"),
        Test(3, ("icmp.port", "icmp.proto"), "put_ip writes what it's given: the protocol and the addresses"),
        Test(2, ("send.cut",), "put_ip writes the offset in units of 8 bytes, and `more`, and no other flag"),
    )),
    Step(5, "fragments out", (
        Test(3, ("send.bytes",), "what fits the MTU leaves as one packet"),
        Test(8, ("send.cut",), "packets within the MTU; each fragment except the last is a multiple of 8 bytes"),
        Test(4, ("send.id",), "one identification for all fragments of a datagram, and another one for the next"),
    )),
    Step(6, "reassembly", (
        Test(4, ("frag.order", "frag.sizes", "frag.large"), "fragments in any order make the datagram"),
        Test(2, ("frag.hole", "frag.dup", "frag.reuse", "frag.bad"), "a missing fragment: nothing comes; one that "
             "comes twice does no harm"),
        Test(4, ("frag.overlap", "frag.ends", "mix"), "overlaps: no byte reaches the user that no fragment has there"),
        Test(4, ("frag.key", "socket.ports", "udp.source"), "source, destination, identification and protocol "
             "distinguish datagrams"),
        Test(2, ("frag.empty", "frag.odd", "frag.beyond"), "fragments without data, of odd lengths, or beyond 65,535 "
             "do no harm"),
        Test(2, ("frag.time",), "unfinished datagrams are kept for 60 seconds, and then dropped"),
        Test(2, ("icmp.reass",), "Time Exceeded is sent if the first fragment is there, and only then"),
    )),
)  # fmt: skip
