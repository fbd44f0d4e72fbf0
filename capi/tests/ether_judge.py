"""Compares the frames of a host on an Ethernet (bsdudp.Host with libbsdudp) with scapy's, without a network. Time is
the host's ticks, so the test doesn't wait. It prints the first fault and exits with 1, and writes all frames of the
host to CAPTURE."""
import argparse
import errno
import random
import socket as c
import sys

from scapy.layers.inet import ICMP, IP, UDP
from scapy.layers.l2 import ARP, Ether
from scapy.utils import PcapWriter, checksum

import bsdudp

OWN_IP, OWN_MAC, ALL, NOBODY = "10.0.0.1", "02:00:00:00:00:01", "ff:ff:ff:ff:ff:ff", "00:00:00:00:00:00"
TABLE, HELD, TRIES, TICKS_APART, KEPT = 32, 8, 5, 3, 2400
POLLS = 2  # RFC 1122, section 2.3.2.1
PROBES, PROBES_APART, ANNOUNCEMENTS_APART, UNREACHABLE_A_TICK = 3, 3, 5, 10  # RFC 5227, in ticks; RFC 1812
UNFINISHED = 60  # the book, chapter 10, in ticks
DEFENCES_APART = 2 * 10 + 1  # RFC 5227: ten seconds or more, so 21 ticks, because the first one may follow at once
ECHO, CLOSED = 7, 9
captured = []


def check(holds, what):
    if not holds:
        raise AssertionError(what)


def mac_of(n):
    return f"02:00:00:00:{n >> 8:02x}:{n & 255:02x}"


def ip_of(n):
    return f"10.0.{n >> 8}.{n & 255}"


def own_claim(source):
    """A probe, or an announcement (RFC 5227)."""
    return bytes(Ether(dst=ALL, src=OWN_MAC) / ARP(op=1, hwsrc=OWN_MAC, psrc=source, hwdst=NOBODY, pdst=OWN_IP))


def host(**words):
    """A host that listens on port 7 and has announced its address, and its socket."""
    it = bsdudp.Host(OWN_IP, OWN_MAC, mask="255.255.0.0", bcast="10.0.255.255", **words)
    for _ in range(2):
        check(given(it) == [own_claim(OWN_IP)], "the announcement isn't scapy's")
        it.tick(ANNOUNCEMENTS_APART)
    check(given(it) == [], "a third announcement")
    socket = it.socket()
    socket.bind(("", ECHO))
    return it, socket


def given(it):
    """All frames that the host has for its link, as bytes."""
    found = [bytes(frame) for frame in it.frames()]
    captured.extend(found)
    return found


def asks(n, target=OWN_IP):
    return Ether(dst=ALL, src=mac_of(n)) / ARP(op=1, hwsrc=mac_of(n), psrc=ip_of(n), hwdst=NOBODY, pdst=target)


def replies(n):
    return Ether(dst=OWN_MAC, src=mac_of(n)) / ARP(op=2, hwsrc=mac_of(n), psrc=ip_of(n), hwdst=OWN_MAC, pdst=OWN_IP)


def own_reply(n):
    reply = ARP(op=2, hwsrc=OWN_MAC, psrc=OWN_IP, hwdst=mac_of(n), pdst=ip_of(n))
    return bytes(Ether(dst=mac_of(n), src=OWN_MAC) / reply)


def own_request(n, to=ALL):
    return bytes(Ether(dst=to, src=OWN_MAC) / ARP(op=1, hwsrc=OWN_MAC, psrc=OWN_IP, hwdst=NOBODY, pdst=ip_of(n)))


def knows(it, *who):
    """Neighbours send the host their hardware addresses."""
    for n in who:
        it.receive(asks(n))
        check(given(it) == [own_reply(n)], f"the reply to neighbour {n} isn't scapy's")


def from_near(n, body, **words):
    return Ether(dst=OWN_MAC, src=mac_of(n)) / IP(src=ip_of(n), dst=OWN_IP, **words) / body


def echoed(it, socket, n, data, port=1234):
    """The host's frames after a neighbour's datagram arrived and was echoed."""
    it.receive(from_near(n, UDP(sport=port, dport=ECHO) / data))
    got, sender = socket.recvfrom()
    check((got, sender) == (data, (ip_of(n), port)), f"neighbour {n}'s datagram came as another")
    socket.sendto(got, sender)
    return given(it)


def carries(frame, n, data, port=1234):
    """Whether a frame is the echo to a neighbour, read by scapy."""
    it = Ether(frame)
    told = (it.dst, it.src, it[IP].dst, it[UDP].dport, bytes(it[UDP].payload))
    return told == (mac_of(n), OWN_MAC, ip_of(n), port, data)


# ---- tests


def arp():
    it, socket = host()
    knows(it, 2)
    check(it.neighbours == [bsdudp.Neighbour(ip_of(2), mac_of(2), KEPT, 0)], f"neighbours: {it.neighbours}")
    # a request for another address gets no reply, and its sender isn't learnt
    it.receive(asks(3, ip_of(2)))
    check(given(it) == [] and len(it.neighbours) == 1, "a request for another host got a reply, or changed the table")
    # an ARP packet for another host changes only known entries (RFC 826, "Packet Reception")
    other = ARP(op=2, hwsrc=mac_of(4), psrc=ip_of(4), hwdst=mac_of(9), pdst=ip_of(9))
    it.receive(Ether(dst=ALL, src=mac_of(4)) / other)
    check(len(it.neighbours) == 1, "a reply for another host was learnt")
    it.receive(Ether(dst=ALL, src=mac_of(9)) / ARP(op=1, hwsrc=mac_of(9), psrc=ip_of(2), hwdst=NOBODY, pdst=ip_of(2)))
    check(it.neighbours[0].mac == mac_of(9), "a neighbour's new hardware address wasn't learnt")
    # a probe (RFC 5227) has no sender address, and gets a reply
    it.receive(Ether(dst=ALL, src=mac_of(5)) / ARP(op=1, hwsrc=mac_of(5), psrc="0.0.0.0", hwdst=NOBODY, pdst=OWN_IP))
    check([Ether(frame)[ARP].op for frame in given(it)] == [2], "a probe gets no reply")
    check(len(it.neighbours) == 1, "a probe was learnt")
    # another host claims the address
    it.receive(Ether(dst=ALL, src=mac_of(6)) / ARP(op=1, hwsrc=mac_of(6), psrc=OWN_IP, hwdst=NOBODY, pdst=OWN_IP))
    check(it.tallies.conflicts == 1, "a conflict isn't counted")
    check(own_claim(OWN_IP) in given(it), "the address isn't defended")
    del socket


def claims():
    """A host that probes first whether another host has its address (RFC 5227)."""
    it = bsdudp.Host(OWN_IP, OWN_MAC, probe=True)
    it.receive(asks(2))
    for _ in range(PROBES):
        check(not it.uses_address and given(it) == [own_claim("0.0.0.0")], "the probe isn't scapy's")
        it.tick(PROBES_APART)
    it.tick(ANNOUNCEMENTS_APART)
    check(it.uses_address and given(it) == [own_claim(OWN_IP)], "the announcement after the probes isn't scapy's")
    it = bsdudp.Host(OWN_IP, OWN_MAC, probe=True)
    given(it)
    claim = ARP(op=2, hwsrc=mac_of(6), psrc=OWN_IP, hwdst=OWN_MAC, pdst="0.0.0.0")
    it.receive(Ether(dst=OWN_MAC, src=mac_of(6)) / claim)
    try:
        check(not it.uses_address, "an address that another host has is used")
        raise AssertionError("another host's claim isn't reported")
    except OSError as fault:
        check(fault.errno == errno.EADDRINUSE, f"another host's claim is reported as {fault}")
    it.tick(100)
    it.receive(asks(2))
    check(given(it) == [], "a host without an address sends")


def defends():
    """A host defends its address at most once in ten seconds, and then again (RFC 5227, section 2.4 (c))."""
    it, _ = host()
    rival = Ether(dst=ALL, src=mac_of(6)) / ARP(op=2, hwsrc=mac_of(6), psrc=OWN_IP, hwdst=NOBODY, pdst=OWN_IP)
    at = []
    for tick in range(3 * DEFENCES_APART):
        it.receive(rival)
        at += [tick for frame in given(it) if frame == own_claim(OWN_IP)]
        it.tick()
    check(at == [0, DEFENCES_APART, 2 * DEFENCES_APART], f"the address is defended at the ticks {at}")
    check(it.uses_address and it.tallies.conflicts == 3 * DEFENCES_APART, "a conflict isn't counted")


def polls():
    """Before the entry of a neighbour expires the host sends it two requests, to its hardware address (RFC 1122,
    section 2.3.2.1). A reply renews the entry."""
    it, _ = host()
    knows(it, 2)
    last = KEPT - POLLS * TICKS_APART
    for is_answered in (True, False):
        at = []
        for tick in range(KEPT + 1):
            frames = given(it)
            check(set(frames) <= {own_request(2, mac_of(2))}, "a request for a known neighbour isn't sent to it")
            at += [tick] * len(frames)
            if is_answered and frames:
                break
            it.tick()
        wanted = [last] if is_answered else [last, last + TICKS_APART]
        check(at == wanted, f"requests for a known neighbour at the ticks {at}")
        if is_answered:
            it.receive(replies(2))
            check(it.neighbours == [bsdudp.Neighbour(ip_of(2), mac_of(2), KEPT, 0)], "a reply doesn't renew the entry")
    check(it.neighbours == [], f"a neighbour that didn't reply is kept: {it.neighbours}")


def martians():
    """Packets whose addresses can't be on a link are dropped (RFC 1122, section 3.2.1.3)."""
    it, socket = host()
    wrong = ("255.255.255.255", "224.0.0.1", "0.1.2.3", "127.0.0.1", "10.0.255.255")
    for source in wrong:
        it.receive(Ether(dst=OWN_MAC, src=mac_of(2)) / IP(src=source, dst=OWN_IP) / UDP(sport=5, dport=ECHO) / b"x")
    check(it.tallies.martians == len(wrong) and not it.readable() and given(it) == [], "a martian came in")
    del socket


def held():
    """Packets wait for a hardware address, and are sent in order. The request is repeated, and then given up."""
    it, socket = host()
    data = random.Random(1).randbytes(9216)
    socket.sendto(data, (ip_of(2), 99))
    check(given(it) == [own_request(2)], "not one request for seven fragments")
    it.receive(replies(2))
    sent = [Ether(frame) for frame in given(it)]
    check(b"".join(bytes(frame[IP].payload) for frame in sent)[8:] == data, "the fragments aren't the datagram")
    check([frame[IP].frag * 8 for frame in sent] == list(range(0, 9224, 1480)), "the fragments go in another order")
    check({frame.dst for frame in sent} == {mac_of(2)}, "a fragment goes to another hardware address")
    for k in range(HELD + 2):
        socket.sendto(bytes([k]), (ip_of(3), 99))
    requests = given(it)
    it.receive(replies(3))
    left = [Ether(frame)[UDP].load for frame in given(it)]
    check(requests == [own_request(3)] and left == [bytes([k]) for k in range(2, HELD + 2)], f"eight newest: {left}")
    check(it.tallies.held_dropped == 2, "what was dropped isn't counted")
    socket.sendto(b"x", (ip_of(4), 99))
    at = []
    for tick in range(30):
        at += [tick for frame in given(it) if frame == own_request(4)]
        it.tick()
    check(at == [k * TICKS_APART for k in range(TRIES)], f"requests at the ticks {at}")
    check(it.tallies.unresolved == 1 and [n.ip for n in it.neighbours] == [ip_of(2), ip_of(3)], "it isn't given up")
    it.tick(2 * KEPT)
    given(it)
    it.tick(TRIES * TICKS_APART + 1)
    check(it.neighbours == [], f"neighbours are kept for ever: {it.neighbours}")


def ways():
    """The next hop: a neighbour, the gateway, everyone, or none."""
    it, socket = host(gateway=ip_of(2))
    knows(it, 2, 3)
    socket.sendto(b"near", (ip_of(3), 99))
    socket.sendto(b"far", ("192.168.7.7", 99))
    sent = [Ether(frame) for frame in given(it)]
    hops = [(frame.dst, frame[IP].dst) for frame in sent]
    check(hops == [(mac_of(3), ip_of(3)), (mac_of(2), "192.168.7.7")], f"other next hops: {hops}")
    socket.setsockopt(c.SOL_SOCKET, c.SO_BROADCAST, 1)
    socket.sendto(b"all", ("10.0.255.255", 99))
    check([Ether(frame).dst for frame in given(it)] == [ALL], "a broadcast goes to one")
    it, socket = host()
    socket.sendto(b"far", ("192.168.7.7", 99))
    check(given(it) == [] and it.tallies.no_route == 1, "a packet without a way goes out, or isn't counted")


def own_number(frames, spent):
    """The identification of a reply, the same in all its frames. No reply had it before, and none has "don't fragment"
    (RFC 6864, sections 4.1 and 4.3)."""
    found = {Ether(frame)[IP].id for frame in frames}
    check(len(found) == 1, f"a reply has the identifications {found}")
    check(not found & spent, f"the identification {found} is used again")
    check(not any(Ether(frame)[IP].flags.DF for frame in frames), "a reply has the flag DF")
    spent.update(found)
    return found.pop()


def ping():
    it, _ = host()
    knows(it, 2)
    rng, spent = random.Random(2), set()
    for length in [*range(80), 500, 1471, 1472]:
        request = ICMP(type=8, id=rng.randrange(65536), seq=rng.randrange(65536)) / rng.randbytes(length)
        it.receive(from_near(2, request, id=length % 2, tos=rng.randrange(256), flags=rng.choice(("", "DF"))))
        frames = given(it)
        answer = IP(src=OWN_IP, dst=ip_of(2), id=own_number(frames, spent), ttl=64)
        answer = answer / ICMP(type=0, id=request.id, seq=request.seq)
        wanted = bytes(Ether(dst=mac_of(2), src=OWN_MAC) / answer / bytes(request.payload))
        check(frames == [wanted], f"the echo reply of {length} bytes isn't scapy's")
    # no reply: to everyone, of another type, with a wrong checksum, to a broadcast address
    silent = [
        Ether(dst=ALL, src=mac_of(2)) / IP(src=ip_of(2), dst=OWN_IP) / ICMP() / b"all",
        from_near(2, ICMP(type=0) / b"a reply"),
        from_near(2, ICMP(type=13) / bytes(12)),
        from_near(2, ICMP(chksum=1) / b"wrong"),
        Ether(dst=ALL, src=mac_of(2)) / IP(src=ip_of(2), dst="10.0.255.255") / ICMP() / b"all",
        Ether(dst=mac_of(7), src=mac_of(2)) / IP(src=ip_of(2), dst=OWN_IP) / ICMP() / b"another's",
    ]
    for frame in silent:
        it.receive(frame)
        check(given(it) == [], f"this got a reply: {frame.summary()}")


def long_ping(n, length, seq=0):
    """A ping of a neighbour, as Linux sends it: with the flag DF and the identification 0."""
    return from_near(n, ICMP(type=8, id=n, seq=seq) / (bytes(range(256)) * 6)[:length], id=0, flags="DF")


def is_reply(frames, request, spent):
    """Whether frames are the fragments of the reply to a ping, in order, and have all its data (RFC 1122, section
    3.2.2.6)."""
    parts = [Ether(frame) for frame in frames]
    own_number(frames, spent)
    message = b"".join(bytes(part[IP].payload) for part in parts)
    wanted = bytes(ICMP(type=0, id=request[ICMP].id, seq=request[ICMP].seq) / bytes(request[ICMP].payload))
    offsets, at = [part[IP].frag * 8 for part in parts], 0
    for part, offset in zip(parts, offsets):
        check(offset == at and bool(part[IP].flags.MF) == (part is not parts[-1]), f"fragments at {offsets}")
        at += len(part[IP].payload)
    return message == wanted and {part.dst for part in parts} == {request.src}


def fragmented():
    """Replies to pings, at an MTU of 68: more than eight fragments each. Two replies have two identifications. While
    the hardware address of the next hop isn't known all of a reply waits, and takes no place of a datagram."""
    it, socket = host(mtu=68)
    knows(it, 2)
    spent = set()
    for length in (0, 40, 41, 88, 377, 1472):
        request = long_ping(2, length)
        it.receive(request)
        frames = given(it)
        check(len(frames) == -(-(8 + length) // 48), f"{len(frames)} fragments for {length} bytes")
        check(is_reply(frames, request, spent), f"the reply to a ping of {length} bytes isn't whole")
    for k in range(HELD):
        socket.sendto(bytes([k]), (ip_of(3), 99))
    requests = given(it)
    request = long_ping(4, 1472)
    it.receive(request)
    for _ in range(40):  # a driver asks for frames again and again
        requests += given(it)
    check(requests == [own_request(3), own_request(4)], "not one request for each unknown neighbour")
    it.receive(replies(4))
    check(is_reply(given(it), request, spent), "the reply to a ping of an unknown neighbour isn't whole")
    it.receive(replies(3))
    left = [Ether(frame)[UDP].load for frame in given(it)]
    check(left == [bytes([k]) for k in range(HELD)], f"a reply took the place of a datagram: {left} are left")
    # the newest reply waits
    it.receive(long_ping(5, 400, 1))
    newest = long_ping(6, 400, 2)
    it.receive(newest)
    check(given(it) == [own_request(5), own_request(6)], "not one request for each unknown neighbour")
    it.receive(replies(5))
    check(given(it) == [] and it.tallies.icmp_dropped == 1, "a reply that was replaced is sent, or isn't counted")
    it.receive(replies(6))
    check(is_reply(given(it), newest, spent), "the newest reply isn't sent")
    # no hardware address comes
    it.receive(long_ping(7, 400))
    for _ in range(TRIES):
        check(given(it) == [own_request(7)], "another request isn't sent")
        it.tick(TICKS_APART)
    it.receive(replies(7))
    check(given(it) == [] and it.tallies.icmp_dropped == 2, "a reply is kept, or isn't counted")
    it.receive(request)
    check(is_reply(given(it), request, spent), "no reply after one that was dropped")


def groups():
    """No ARP sender has a group's hardware address, or none (RFC 1812, section 3.3.2, for routers)."""
    it, socket = host()
    knows(it, 2)
    wrong = ("01:00:5e:00:00:01", "33:33:00:00:00:01", "03:00:00:00:00:05", ALL, NOBODY)
    for mac in wrong:
        for n, op in ((2, 1), (2, 2), (3, 1), (3, 2)):
            it.receive(Ether(dst=OWN_MAC, src=mac_of(n)) / ARP(op=op, hwsrc=mac, psrc=ip_of(n), pdst=OWN_IP))
    check(it.tallies.bad_arp == 4 * len(wrong), "a wrong sender isn't counted")
    check(given(it) == [] and [n.mac for n in it.neighbours] == [mac_of(2)], "a wrong sender is believed")
    frames = echoed(it, socket, 2, b"still here")
    check(len(frames) == 1 and carries(frames[0], 2, b"still here"), "an echo goes to another hardware address")


def unreachable():
    it, _ = host()
    knows(it, 2)
    spent = set()
    for length in (0, 1, 7, 8, 9, 100, 1472):
        request = from_near(2, UDP(sport=5, dport=CLOSED) / bytes(length), id=length % 2)
        it.receive(request)
        quoted, frames = bytes(request[IP])[:28], given(it)
        answer = IP(src=OWN_IP, dst=ip_of(2), id=own_number(frames, spent), ttl=64) / ICMP(type=3, code=3) / quoted
        wanted = bytes(Ether(dst=mac_of(2), src=OWN_MAC) / answer)
        check(frames == [wanted], f"port unreachable for {length} bytes isn't scapy's")
    it.receive(Ether(dst=ALL, src=mac_of(2)) / IP(src=ip_of(2), dst="10.0.255.255") / UDP(sport=5, dport=CLOSED))
    check(given(it) == [], "a broadcast got a port unreachable")
    it.tick()
    answered = 0
    for _ in range(UNREACHABLE_A_TICK + 2):
        it.receive(from_near(2, UDP(sport=5, dport=CLOSED)))
        answered += len(given(it))
    check(answered == UNREACHABLE_A_TICK and it.tallies.limited == 2, f"{answered} were sent in one tick")


def expired():
    """Time Exceeded for an unfinished datagram whose first fragment arrived (RFC 1122, section 3.3.2), and no other."""
    it, _ = host()
    for n in (2, 3):
        knows(it, n)
    spent = set()

    def waits(*frames):
        """What the host sends after so many ticks that these fragments expire."""
        for frame in frames:
            it.receive(frame)
        it.tick(UNFINISHED - 1)
        check(given(it) == [], "an error before the datagram expired")
        it.tick()
        return given(it)

    def is_error(frames, n, first):
        answer = IP(src=OWN_IP, dst=ip_of(n), id=own_number(frames, spent), ttl=64) / ICMP(type=11, code=1)
        return frames == [bytes(Ether(dst=mac_of(n), src=OWN_MAC) / answer / bytes(first[IP])[:28])]

    def first(n, payload, **words):
        return from_near(n, payload, flags="MF", **words)

    half = UDP(sport=5, dport=ECHO, len=108, chksum=0) / bytes(40)
    rest = from_near(2, bytes(8), frag=9, flags="MF", proto=17, id=1)
    for length in (0, 8, 40):
        frame = first(2, UDP(sport=5, dport=ECHO, len=108, chksum=0) / bytes(length), id=1)
        check(is_error(waits(frame), 2, frame), f"time exceeded for {length} bytes isn't scapy's")
    frame = first(2, half, id=1)
    check(is_error(waits(frame, rest), 2, frame), "no time exceeded for a first fragment before another")
    check(is_error(waits(rest, frame), 2, frame), "no time exceeded for a first fragment after another")
    frame = first(3, ICMP(type=8, chksum=0) / bytes(16), id=2)
    check(is_error(waits(frame), 3, frame), "no time exceeded for a ping")
    frame = first(3, bytes(16), proto=253, id=3)
    check(is_error(waits(frame), 3, frame), "no time exceeded for another protocol")
    check(it.tallies.expired == 7 and it.tallies.unreachable == 0, "the errors aren't counted")
    everyone = Ether(dst=ALL, src=mac_of(2)) / IP(src=ip_of(2), dst=OWN_IP, flags="MF", id=4) / half
    silent = [
        rest,
        from_near(2, bytes(8), frag=9, proto=17, id=1),
        everyone,
        Ether(dst=ALL, src=mac_of(2)) / IP(src=ip_of(2), dst="10.0.255.255", flags="MF", id=5) / half,
        first(2, ICMP(type=3, code=3, chksum=0) / bytes(32), id=6),
        first(2, ICMP(type=0, chksum=0) / bytes(32), id=7),
        Ether(dst=OWN_MAC, src=mac_of(2)) / IP(src=OWN_IP, dst=OWN_IP, flags="MF", id=8) / half,
    ]
    for frame in silent:
        check(waits(frame) == [], f"this got an error: {frame.summary()}")
    check(waits(first(2, half, id=9), from_near(2, bytes(60), frag=6, proto=17, id=9)) == [], "a whole one got an error")
    two = [first(n, half, id=10) for n in (2, 3)]
    check(is_error(waits(*two), 2, two[0]), "not the oldest of two that expire together")
    check(it.tallies.expired == 8 and it.tallies.icmp_dropped == 1, "the second of two isn't counted")


def with_options(n, options, body, **words):
    """A frame of a neighbour: a packet with these bytes as its options, by RFC 791, section 3.1."""
    bare = bytes(IP(src=ip_of(n), dst=OWN_IP, **words) / body)
    head = bytearray(bare[:20] + options)
    head[0] = 0x40 + len(head) // 4
    head[2:4] = (len(bare) + len(options)).to_bytes(2, "big")
    head[10:12] = bytes(2)
    head[10:12] = checksum(bytes(head)).to_bytes(2, "big")
    return bytes(Ether(dst=OWN_MAC, src=mac_of(n), type=0x0800)) + bytes(head) + bare[20:]


# Options with lengths that fit, and those that aren't accepted: RFC 791, section 3.1; RFC 1122, section 3.2.1.8.
ACCEPTED = {
    "no operation": b"\1\1\1\1",
    "an end of the list": bytes(4),
    "bytes after the end of the list": b"\1\0\x83\1",
    "40 bytes": b"\1" * 40,
    "a record route": b"\7\7\4\0\0\0\0\0",
    "a full record route": b"\7\7\10\n\0\0\2\0",
    "a timestamp": b"\x44\x0c\5\0" + bytes(8),
    "a router alert": b"\x94\4\0\0",
    "an unknown option of 2 bytes": b"\x9e\2\1\1",
    "an unknown option to the end": b"\x9e\x28" + bytes(38),
}
REFUSED = {
    "a loose source route": b"\x83\7\4\n\0\0\3\0",
    "a strict source route at its end": b"\x89\7\x08\n\0\0\1\0",
    "a source route after a no operation": b"\1\x83\3\4",
    "length 0": b"\x9e\0\0\0",
    "length 1": b"\x9e\1\0\0",
    "a length beyond the header": b"\x9e\5\0\0",
    "no length": b"\1\1\1\x9e",
    "a record route whose pointer is 3": b"\7\7\3\0\0\0\0\0",
    "a record route without a pointer": b"\1\1\7\2",
}


def options():
    """Packets with options: they are ignored, as unknown ones must be (RFC 1122, section 3.2.1.8). An error quotes the
    packet with them (section 3.2.2). Malformed options, source routes and wrong headers reach the stack as they came:
    it drops them."""
    it, socket = host()
    knows(it, 2)
    spent = set()
    echo, closed, ping = (UDP(sport=5, dport=ECHO) / b"data", UDP(sport=5, dport=CLOSED) / b"data", ICMP(id=7) / b"ping")
    for name, some in ACCEPTED.items():
        for after in (b"", bytes(20)):  # bytes after the total length, as of an Ethernet's padding
            it.receive(with_options(2, some, echo) + after)
            check(socket.recvfrom() == (b"data", (ip_of(2), 5)), f"a datagram with {name} comes as another")
        frame = with_options(2, some, closed)
        it.receive(frame)
        frames, quoted = given(it), frame[14 : 14 + 20 + len(some) + 8]
        answer = IP(src=OWN_IP, dst=ip_of(2), id=own_number(frames, spent), ttl=64) / ICMP(type=3, code=3) / quoted
        check(frames == [bytes(Ether(dst=mac_of(2), src=OWN_MAC) / answer)], f"the error about {name} isn't scapy's")
        it.tick()
        it.receive(with_options(2, some, ping))
        frames = given(it)
        answer = IP(src=OWN_IP, dst=ip_of(2), id=own_number(frames, spent), ttl=64) / ICMP(type=0, id=7) / b"ping"
        check(frames == [bytes(Ether(dst=mac_of(2), src=OWN_MAC) / answer)], f"the reply to a ping with {name}")
        data = bytes(IP(src=ip_of(2), dst=OWN_IP) / UDP(sport=5, dport=ECHO) / bytes(range(40)))[20:]
        for first, last in ((some, some), (some, b""), (b"", some)):
            it.receive(with_options(2, last, data[24:], proto=17, frag=3, id=9))
            it.receive(with_options(2, first, data[:24], proto=17, flags="MF", id=9))
            check(socket.recvfrom()[0] == bytes(range(40)), f"two fragments with {name} come as another datagram")
        frame = with_options(2, some, data[:24], proto=17, flags="MF", id=10)
        it.receive(frame)
        it.tick(UNFINISHED)
        frames, quoted = given(it), frame[14 : 14 + 20 + len(some) + 8]
        answer = IP(src=OWN_IP, dst=ip_of(2), id=own_number(frames, spent), ttl=64) / ICMP(type=11, code=1) / quoted
        check(frames == [bytes(Ether(dst=mac_of(2), src=OWN_MAC) / answer)], f"time exceeded for {name} isn't scapy's")
    wrong = [with_options(2, some, body) for some in REFUSED.values() for body in (echo, closed, ping)]
    good = bytearray(with_options(2, ACCEPTED["a record route"], echo))
    for at in range(14 + 1, 14 + 28):  # a wrong checksum, over the options too
        wrong.append(bytes(good[:at] + bytes([good[at] ^ 1]) + good[at + 1 :]))
    wrong += [bytes(good[:cut]) for cut in range(14 + 20, len(good))]
    before = it.counters["ip.options"]
    for frame in wrong:
        it.receive(frame)
        check(given(it) == [] and not it.readable(), f"{frame.hex()} isn't dropped")
    more = it.counters["ip.options"] - before
    check(more == len(wrong), f"{more} of {len(wrong)} packets are counted in ip.options")
    # an error with options is read
    near = it.socket()
    near.connect((ip_of(2), CLOSED))
    near.send(b"x")
    (sent,) = given(it)
    quoted = bytes(Ether(sent)[IP])[:28]
    it.receive(with_options(2, ACCEPTED["a timestamp"], ICMP(type=3, code=3) / quoted))
    check(isinstance(it.last_error(near), ConnectionRefusedError), "an error with options isn't reported")
    # it takes the place of the datagram that has waited longest
    for k in range(HELD):
        socket.sendto(bytes([k]), (ip_of(3), 99))
    given(it)
    it.receive(with_options(2, ACCEPTED["no operation"], echo))
    check(socket.recvfrom()[0] == b"data", "a datagram with options is lost while others wait")
    it.receive(with_options(2, ACCEPTED["no operation"], echo))
    it.receive(replies(3))
    left = [Ether(frame)[UDP].load for frame in given(it)]
    check(left == [bytes([k]) for k in range(1, HELD)] and it.tallies.held_dropped == 1, f"{left} are left of eight")


def reported():
    """ICMP errors about a datagram that a connected socket sent. The meaning of each code is in volume 2, chapter 11
    (`icmp_input`, `inetctlerrmap`)."""
    it, _ = host()
    knows(it, 2)
    socket = it.socket()
    socket.connect((ip_of(2), CLOSED))
    socket.send(b"x")
    (sent,) = given(it)
    quoted = bytes(Ether(sent)[IP])[:28]
    refused = {2: errno.ECONNREFUSED, 3: errno.ECONNREFUSED, 4: None}
    for code in range(13):
        it.receive(from_near(2, ICMP(type=3, code=code) / quoted))
        error, wanted = it.last_error(socket), refused.get(code, errno.EHOSTUNREACH)
        check((error.errno if error else None) == wanted, f"code {code} is reported as {error!r}")
        check(it.last_error(socket) is None, f"code {code} is reported twice")
    whole = from_near(2, ICMP(type=3, code=3) / quoted)
    wrong = [from_near(2, ICMP(type=3, code=3) / quoted[:cut]) for cut in range(len(quoted))]
    wrong += [bytes(whole)[:cut] for cut in range(len(whole))]
    wrong += [from_near(2, ICMP(type=3, code=3, chksum=1) / quoted), Ether(dst=ALL, src=mac_of(2)) / whole[IP]]
    wrong += [from_near(2, ICMP(type=kind, code=3) / quoted) for kind in (0, 4, 5, 11, 12)]
    for at in (0, 9, *range(12, 16), *range(16, 20), *range(20, 24)):  # the header's length, UDP, addresses and ports
        wrong.append(from_near(2, ICMP(type=3, code=3) / (quoted[:at] + bytes([quoted[at] ^ 1]) + quoted[at + 1 :])))
    for frame in wrong:
        it.receive(frame)
        check(it.last_error(socket) is None, f"{bytes(frame).hex()} is reported")
    it.receive(whole)
    check(isinstance(it.last_error(socket), ConnectionRefusedError), "nothing is reported after wrong messages")


def truncations():
    """Every truncation of ARP packets and of ICMP messages, and every byte of an ARP packet's head changed."""
    it, _ = host()
    knows(it, 2)
    whole = {"request": bytes(asks(3)), "reply": bytes(replies(2)), "echo": bytes(from_near(2, ICMP() / bytes(20)))}
    for name, frame in whole.items():
        for cut in range(len(frame)):
            it.receive(frame[:cut])
            check(given(it) == [], f"an {name} cut to {cut} bytes got a reply")
    check([n.ip for n in it.neighbours] == [ip_of(2)], "a cut ARP packet taught something")
    for cut in range(28):
        message = bytes(ICMP(type=8, id=1, seq=2) / bytes(range(20)))[:cut]
        it.receive(from_near(2, message, proto=1))
        check(given(it) == [], f"an ICMP message cut to {cut} bytes got a reply")
        # with a corrected checksum, a message with a whole head is a shorter request
        it.receive(from_near(2, ICMP(type=8, id=1, seq=2) / bytes(range(cut))))
        check(len(given(it)) == 1, f"an echo request of {cut} bytes got no reply")
    for at in range(14, 22):
        frame = bytearray(whole["request"])
        frame[at] ^= 0x55
        it.receive(bytes(frame))
        check(given(it) == [] and len(it.neighbours) == 1, f"ARP with another byte {at} got a reply or was learnt")


def hundred():
    """A hundred neighbours and a table of 32: it contains the 32 most recent ones, and each gets a reply."""
    it, socket = host()
    everyone = range(2, 102)
    knows(it, *everyone)
    check([n.ip for n in it.neighbours] == [ip_of(n) for n in everyone[-TABLE:]], "not the 32 most recent ones")
    rng = random.Random(3)
    order = list(everyone) * 3
    rng.shuffle(order)
    for n in order:
        is_known = any(near.ip == ip_of(n) for near in it.neighbours)
        data = rng.randbytes(rng.randrange(1400))
        frames = echoed(it, socket, n, data)
        if not is_known:
            check(frames == [own_request(n)], f"forgotten neighbour {n} isn't requested")
            it.receive(replies(n))
            frames = given(it)
        check(len(frames) == 1 and carries(frames[0], n, data), f"the echo to neighbour {n} is wrong")
        check(len(it.neighbours) <= TABLE, "more than 32 neighbours")


def flood():
    """Random ARP packets. Those for others don't change the table. Those for the host may, and the host keeps
    working."""
    it, socket = host()
    knows(it, 2)
    rng = random.Random(4)
    for _ in range(3000):
        n = rng.randrange(1000, 60000)
        op = rng.choice((1, 2))
        other = ARP(op=op, hwsrc=mac_of(n), psrc=ip_of(n), pdst=ip_of(rng.randrange(3, 900)))
        it.receive(Ether(dst=ALL, src=mac_of(n)) / other)
    check(given(it) == [] and [n.ip for n in it.neighbours] == [ip_of(2)], "ARP packets for others changed the table")
    for _ in range(1000):
        n = rng.randrange(1000, 60000)
        it.receive(rng.choice((asks, replies))(n))
        if rng.random() < 0.1:
            check(len(given(it)) <= HELD, "more than eight ARP replies waited")
    given(it)
    check(len(it.neighbours) == TABLE, "the table isn't full after a flood of requests")
    check(it.tallies.replies_dropped > 0, "replies that found no place aren't counted")
    for _ in range(2000):
        it.receive(bytes(asks(2))[:14] + rng.randbytes(rng.randrange(60)))
    given(it)
    frames = echoed(it, socket, 2, b"still here")
    if frames == [own_request(2)]:
        it.receive(replies(2))
        frames = given(it)
    check(len(frames) == 1 and carries(frames[0], 2, b"still here"), "after a flood of ARP an echo is wrong")
    usage = it.mbstat
    check(usage.free_mbufs == usage.mbufs and usage.free_clusters == usage.clusters, "the flood holds buffers")


def lossy():
    """2,000 random datagrams between two hosts over a bridge that loses frames, also those of ARP: none arrives
    changed."""
    rng = random.Random(5)
    near = bsdudp.Host("10.0.0.1", mac_of(1), mbufs=2000, clusters=400)
    far = bsdudp.Host("10.0.0.2", mac_of(2), mbufs=2000, clusters=400)
    pairs = ((near, far), (far, near))
    out, service = near.socket(), far.socket()
    service.bind(("", ECHO))
    sent, came, back, lost = [], 0, 0, 0
    for k in range(2000):
        data = k.to_bytes(4, "big") + rng.randbytes(rng.choice((0, 10, 1000, 1468, 1469, 4000, 9000)))
        sent.append(data)
        try:
            out.sendto(data, ("10.0.0.2", ECHO))
        except bsdudp.NoBuffersError:
            continue
        moved = True
        while moved:
            moved = False
            for giver, taker in pairs:
                for frame in given(giver):
                    moved = True
                    if rng.random() < 0.1:
                        lost += 1
                    else:
                        taker.receive(frame)
            for it in far.readable():
                got, sender = it.recvfrom()
                check(got == sent[int.from_bytes(got[:4], "big")], "a datagram came as another")
                came += 1
                it.sendto(got, sender)
        for it in near.readable():
            got = it.recv()
            check(got == sent[int.from_bytes(got[:4], "big")], "a datagram came back as another")
            back += 1
        if k % 7 == 0:
            near.tick()
            far.tick()
    check(came > 500 and back > 200 and lost > 500, f"{came} came, {back} came back, {lost} frames were lost")


def main(capture):
    arps = (arp, claims, defends, polls, martians, held, ways)
    errors = (unreachable, expired, options, reported)
    for tried in (*arps, groups, ping, fragmented, *errors, truncations, hundred, flood, lossy):
        try:
            tried()
        except AssertionError as fault:
            sys.exit(f"ether_judge.py: {tried.__name__}: {fault}")
    with PcapWriter(capture, linktype=1) as writer:
        for at, frame in enumerate(captured):
            layer = Ether(frame)
            layer.time = at / 1000
            writer.write(layer)
    print(f"{len(captured)} frames")


if __name__ == "__main__":
    parser = argparse.ArgumentParser(description=__doc__)
    parser.add_argument("capture", metavar="CAPTURE", help="the file that is written")
    main(parser.parse_args().capture)
