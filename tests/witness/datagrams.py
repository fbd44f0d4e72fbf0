"""Random packets and sends, for `bsdudp run` and for libslirp, whose ip_input, ip_reass, ip_output, udp_input and
udp_output come from 4.4BSD (slirp.c).

A Pair is a line for bsdudp and the one for the witness that must have the same effect. The latter is None for a packet
that bsdudp drops and the witness accepts: bsdudp must act as if it hadn't arrived."""
from __future__ import annotations

import random
from typing import Iterator

from tests.packets import DONT_FRAGMENT, HERE, MORE, PEER, RESERVED, damaged, datagram, hexed, ip, udp
from tests.witness.player import Player

ROOM = ["--mbufs", "65535", "--clusters", "4096"]
TICKS = 60
MTUS = [68, 69, 75, 76, 84, 100, 296, 508, 576, 1006, 1500, 1501, 1507, 2002, 4352]
LONGEST, QUEUE = 9216, 50
Pair = tuple[str, "str | None"]


def rx(packet: bytes) -> str:
    return f"rx {packet.hex()}"


def both(packet: bytes) -> Pair:
    return rx(packet), rx(packet)


def delivered(ours: Player, theirs: Player, pairs: list[Pair]) -> int:
    """Plays lines `rx` and `tick`, and compares the datagrams delivered after each. Returns their number."""
    ours.ask("socket", "bind 3 0.0.0.0 7")
    count = 0
    for line, other in pairs:
        our = ours.ask(line, "recvfrom 3 65535")[1].replace("error 35 EWOULDBLOCK", "ok")
        their = theirs.ask(other)[0] if other else "ok"
        assert our == their, f"{line[:200]}: bsdudp {our[:200]}, the witness {their[:200]}"
        count += our != "ok"
    return count


def overlapping(rng: random.Random, ident: int, odd: bool) -> Iterator[Pair]:
    """Yields fragments of one datagram, which overlap with different bytes: their offsets and ends are multiples of a
    unit. Some odd ones are fragments that bsdudp drops, and others have the reserved flag, which it ignores."""
    unit = rng.choice([8, 8, 8, 16, 24, 104, 200, 504, 1480])
    units = rng.randint(2, 12)
    total = units * unit - rng.choice([0, 0, 1, 3, 7])
    length = rng.choice([total, total, total, total - 1, max(total - unit, 8), total + 1])
    head = rng.randint(1, 65535).to_bytes(2, "big") + b"\0\7" + length.to_bytes(2, "big") + bytes(2)
    for _ in range(rng.randint(2, 3 * units)):
        low = rng.randrange(units)
        high = min(units, low + rng.choice([1, 1, 2, 3, units]))
        end = min(high * unit, total)
        data = rng.randbytes(end - low * unit)
        data = head + data[8:] if low == 0 else data
        more = end % 8 == 0 and rng.random() < (0.1 if high == units else 0.97)  # seldom an end before the end
        place = low * unit // 8 + MORE * more
        kind = rng.choice(["empty", "uneven", "long", "reserved", "whole"]) if odd and rng.random() < 0.15 else ""
        if kind == "empty":
            yield rx(ip(b"", ident=ident, place=place or MORE)), None
        elif kind == "uneven":
            data = data if len(data) % 8 else data[: -rng.randint(1, 7)]
            yield rx(ip(data, ident=ident, place=place | MORE)), None
        elif kind == "long":
            yield rx(ip(rng.randbytes(rng.choice([16, 24, 100])), ident=ident, place=rng.randint(8190, 8191))), None
        elif kind:
            data, place = (udp(data), 0) if kind == "whole" else (data, place)
            yield rx(ip(data, ident=ident, place=place | RESERVED)), rx(ip(data, ident=ident, place=place))
        else:
            yield both(ip(data, ident=ident, place=place))


def fragments(rng: random.Random, odd: bool = False) -> list[Pair]:
    """Returns the fragments of several datagrams, mixed, with ticks between them; and some datagrams whose last
    fragment arrives about when their time ends."""
    waiting = [list(overlapping(rng, ident, odd)) for ident in range(1, rng.randint(3, 12))]
    pairs: list[Pair] = []
    while waiting:
        if rng.random() < 0.02:
            pairs += [("tick", "tick")] * rng.choice([1, 5, 30, TICKS])
        its = rng.choice(waiting)
        pairs.append(its.pop(0))
        waiting = [it for it in waiting if it]
    for ident in range(100, 100 + rng.randint(0, 2)):
        data = udp(rng.randbytes(8))
        pairs.append(both(ip(data[:8], ident=ident, place=MORE)))
        pairs += [("tick", "tick")] * rng.choice([58, 59, 59, 60, 60, 61])
        pairs.append(both(ip(data[8:], ident=ident, place=1)))
    return pairs


def odd_fragments(rng: random.Random) -> list[Pair]:
    return fragments(rng, odd=True)


def whole(rng: random.Random, ident: int) -> Pair:
    """Returns a whole datagram, most of them with one wrong or unusual field."""
    data = rng.randbytes(rng.choice([0, 1, 2, 3, 8, 100, 207, 208, 1472, 3000]))
    carried, few = udp(data), rng.randint(0, 7)
    usual = ip(carried, ident=ident)
    source = rng.choice(["10.0.0.255", "255.255.255.255", "127.0.0.1", "0.0.0.0", "224.0.0.1"])
    length = rng.choice([len(carried) + 1, len(carried) - 1, 8, 65535])
    options = rng.choice([b"\1\1\1\0", b"\1" * 8, b"\x94\4\0\0", b"\1" * 40])
    alike = [
        usual,
        usual[: rng.randint(1, len(usual) - 1)],
        usual + rng.randbytes(rng.randint(1, 30)),
        damaged(usual, rng.choice([10, 11, 26, 27]), rng.randrange(8)),
        ip(carried, ident=ident, first=rng.choice([0x05, 0x35, 0x40, 0x44, 0x55, 0x65])),
        ip(carried, ident=ident, total=rng.choice([0, 19, 20, 27, 28])),
        ip(carried[:few], ident=ident),
        ip(carried, ident=ident, place=rng.choice([DONT_FRAGMENT, RESERVED])),
        ip(carried, ident=ident, tos=rng.randrange(256)),
        ip(carried, ident=ident, protocol=rng.choice([0, 2, 18, 255])),
        ip(udp(data[: max(length - 8, 0)], length=length) + data[max(length - 8, 0) :], ident=ident),
        ip(carried[:6] + bytes(2) + data, ident=ident),
        datagram(data, between=(source, HERE), ident=ident),
    ]
    alone = [
        ip(carried, ident=ident, options=options),
        ip(carried[:4] + bytes([0, few, 0, 0]) + data, ident=ident),  # a UDP length below 8
    ]
    packet = rng.choice(alike + alone)
    return rx(packet), None if packet in alone else rx(packet)


def wholes(rng: random.Random) -> list[Pair]:
    return [whole(rng, ident) for ident in range(1, 100)]


def sent(ours: Player, theirs: Player, rng: random.Random, mtu: int) -> int:
    """Sends data of random lengths, never more than the output queue holds. Compares the packets, and returns their
    number."""
    ours.ask("socket")
    part = (mtu - 20) // 8 * 8
    most, count = min(LONGEST, QUEUE * part - 8), 0
    for _ in range(40):
        border = part * rng.randint(1, 6) - 8 + rng.randint(-9, 9)
        n = rng.choice([rng.randint(0, most), rng.randint(0, 300), border, mtu - 28 + rng.randint(-2, 2)])
        data = rng.randbytes(min(max(n, 0), most))
        if len(data) > 1 and rng.random() < 0.1:  # the word that makes the checksum 0, which is sent as 65,535
            data = udp(bytes(2) + data[2:], (1024, 7), (HERE, PEER))[6:8] + data[2:]
        assert ours.ask(f"sendto 3 10.0.0.2 7 {hexed(data)}") == [f"ok {len(data)}"]
        (their,) = theirs.ask(f"send {hexed(data)}")
        packets = ours.ask(*["tx"] * (their.count("packet") + 1))
        assert " ".join(packets) == f"{their} none", f"mtu {mtu}: {packets}, the witness {their}"[:500]
        count += len(packets) - 1
    return count
