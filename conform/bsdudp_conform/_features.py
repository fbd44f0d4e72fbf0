"""What can be said of a datagram that arrives and of one that is sent: the features by which failing and passing ones
are compared. A flag completes "a datagram ..", a number has a name, and words for more than a bound and for fewer."""
from __future__ import annotations

import itertools
from collections import Counter
from typing import Dict, FrozenSet, Iterable, Iterator, List, NamedTuple, Set, Tuple

from ._addresses import BROADCAST, ONES
from ._case import Connect, Got, Hold, Open, Send, Wait
from ._laws import Arrival, Key, Seen, in_sequence
from ._packets import even_cuts
from ._words import oddities

# The numbers of a datagram: more than N, and fewer than N.
NUMBERS: Dict[str, Tuple[str, str]] = {
    "data": ("of more than {:,} bytes", "of fewer than {:,} bytes"),
    "fragments": ("in more than {:,} fragments", "in fewer than {:,} fragments"),
    "spread": ("in fragments that come more than {:,} ms apart", ""),
    "others": ("while more than {:,} others are unfinished", ""),
    "before": ("after more than {:,} others", ""),
    "time": ("after more than {:,} ms", ""),
    "least piece": ("", "with a fragment of fewer than {:,} bytes"),
    "last piece": ("", "whose last fragment has fewer than {:,} bytes"),
    "source port": ("from a port above {:,}", "from a port below {:,}"),
    "mtu": ("on a link with an MTU above {:,}", "on a link with an MTU below {:,}"),
    "to port": ("to a port above {:,}", "to a port below {:,}"),
}
SURPLUS = "bytes after the UDP length"
# The packets of a case of which passing datagrams are so many that a part of their features suffices.
LONG = 60
# A passing datagram for so many failing ones doesn't refute a feature.
FEW = 50
MULTIPLES = (8, 64, 128, 256, 512, 1024, 2048)
# What other flags say.
NOT_NAMED = ("", "fragments", "a broadcast address as destination", SURPLUS)
KEY_FIELDS = ("source", "destination", "identification", "protocol")
IN_FRAGMENTS = "in fragments"


class Unit(NamedTuple):
    """A datagram's flags, the likeliest reasons first, and its numbers."""

    flags: Tuple[str, ...]
    numbers: Dict[str, int]
    has: FrozenSet[str]  # the flags as a set


def unit_of(flags: Iterable[str], numbers: Dict[str, int]) -> Unit:
    made = tuple(dict.fromkeys(flags))
    return Unit(made, numbers, frozenset(made))


def beside(field: str) -> str:
    """The flag of a datagram while fragments are there whose key differs only in this field."""
    return f"in fragments, beside those of another {field},"


def of_length(length: int) -> Iterator[str]:
    """The flags of a length of data."""
    if length == 0:
        yield "without data"
    yield "of odd length" if length % 2 else "of even length"
    for multiple in MULTIPLES:
        if length and length % multiple == 0:
            yield f"whose data is a multiple of {multiple} bytes"
        if (length + 8) % multiple == 0:
            yield f"whose UDP length is a multiple of {multiple}"


def received(seen: Seen, parts: List[Arrival], got: Got) -> Unit:
    """The features of a datagram that arrives in these packets."""
    is_cut = len(parts) > 1
    kinds = dict.fromkeys(it.kind for one in parts for it in oddities(one.packet))
    flags = [f"with {SURPLUS}"] if has_surplus(parts) else []
    flags += [f"with {kind}" for kind in kinds if kind not in NOT_NAMED]
    flags += of_ends(seen, parts, got)
    flags += of_length(len(got.data))
    if "with no UDP checksum" not in flags:
        flags.append("with a UDP checksum")
    if is_cut:
        flags = [*flags, *of_pieces(seen, parts), *(f"in fragments, {it}," for it in flags)]
    flags.append(IN_FRAGMENTS if is_cut else "in one packet")
    return unit_of(flags, numbers_of(seen, parts, got))


def passed(seen: Seen, parts: List[Arrival], got: Got) -> Unit:
    """The features of a datagram that came. If some of its fragments may not count, nothing is said of their headers,
    and in a case of very many packets only its length."""
    if len(seen.arrivals) > LONG:
        return in_long_case(parts, got)
    if len(parts) == 1 or is_whole(parts):
        return received(seen, parts, got)
    flags = [*of_pieces(seen, parts), *of_length(len(got.data)), IN_FRAGMENTS]
    return unit_of(flags, {"data": len(got.data)})


def in_long_case(parts: List[Arrival], got: Got) -> Unit:
    """A datagram of a case with very many packets: only its length and its fragments."""
    length = len(got.data)
    flags = [*of_length(length), IN_FRAGMENTS if len(parts) > 1 else "in one packet"]
    return unit_of(flags, {"data": length, "fragments": len(parts)})


def has_surplus(parts: List[Arrival]) -> bool:
    """Whether packets carry bytes after the UDP length."""
    headers = [it.header for it in parts if it.header]
    first = next((it.data for it in headers if not it.offset), b"")
    return 8 <= int.from_bytes(first[4:6], "big") < max(it.end for it in headers)


def of_ends(seen: Seen, parts: List[Arrival], got: Got) -> Iterator[str]:
    """The flags of a datagram's addresses and of its socket."""
    header = parts[0].header
    destination = header.destination if header else 0
    if destination in (BROADCAST, ONES):
        yield "to a broadcast address"
        yield "to 255.255.255.255" if destination == ONES else "to the network's broadcast address"
    if header and not header.identification:
        yield "with identification 0"
    if got.socket:
        yield "for a further socket"
    before = seen.case.steps[: parts[-1].step + 1]
    if seen.peer(got.socket, parts[-1].step):
        yield "for a connected socket"
    if sum(isinstance(it, Connect) for it in before) > 1:
        yield "for a socket that is connected again"
    if any(isinstance(it, Hold) and it.socket == got.socket for it in before):
        yield "that waits for a reader"
    if sum(isinstance(it, Open) for it in before):
        yield "while further sockets are open"


def of_pieces(seen: Seen, parts: List[Arrival]) -> Iterator[str]:
    """The flags of fragments: their order, their sizes, overlaps, and other fragments beside them."""
    headers = [it.header for it in parts if it.header]
    spans = sorted((it.offset, it.end) for it in headers)
    overlap = any(one[1] > other[0] for one, other in zip(spans, spans[1:]))
    if overlap and len(set(spans)) < len(spans):
        yield "in fragments, one of which comes twice,"
    if overlap:
        yield "in overlapping fragments"
    key = headers[0].key
    others = at_once(seen, parts)
    for place, field in reversed([*enumerate(KEY_FIELDS)]):
        rest = key[:place] + key[place + 1 :]
        if any(it[place] != key[place] and it[:place] + it[place + 1 :] == rest for it in others):
            yield beside(field)
    offsets = [it.offset for it in headers]
    if offsets != sorted(offsets):
        yield "in fragments that come out of order"
    if not headers[0].more:
        yield "in fragments, the last of which comes first,"
    if any(it.offset == 0 and it.more and it.end == 8 for it in headers):
        yield "in fragments, the first of which has only the UDP header,"


def at_once(seen: Seen, parts: List[Arrival]) -> Set[Key]:
    """The keys of the other datagrams that are unfinished while these fragments arrive."""
    of_key: Dict[Key, List[Arrival]] = {}
    for it in seen.arrivals:
        if it.header and not it.header.whole and it.step <= parts[-1].step:
            of_key.setdefault(it.header.key, []).append(it)
    of_key.pop(parts[0].header.key if parts[0].header else None, None)  # type: ignore[arg-type]
    return {key for key, there in of_key.items() if there[-1].step > parts[0].step or not is_whole(there)}


def is_whole(parts: List[Arrival]) -> bool:
    return in_sequence([it.header for it in parts if it.header]) is not None


def numbers_of(seen: Seen, parts: List[Arrival], got: Got) -> Dict[str, int]:
    """The numbers of a datagram that arrives."""
    end, key = parts[-1].step, parts[0].header.key if parts[0].header else None
    earlier = [it for it in seen.arrivals if it.step < end and it.header]
    found = {
        "data": len(got.data),
        "time": sum(it.ms for it in seen.case.steps[:end] if isinstance(it, Wait)),
        "source port": got.port,
        "before": sum(it.header.offset == 0 and it.header.key != key for it in earlier if it.header),
    }
    if len(parts) > 1:
        sizes = {it.header.offset: len(it.header.data) for it in parts if it.header}
        found["fragments"] = len(parts)
        found["spread"] = parts[-1].ms - parts[0].ms
        found["others"] = len(at_once(seen, parts))
        found["least piece"] = min(sizes.values())
        found["last piece"] = sizes[max(sizes)]
    return found


def sent(seen: Seen, number: int, step: Send) -> Unit:
    """The features of a datagram that a socket sends."""
    size, mtu = 8 + len(step.data), seen.case.mtu
    count = 1 if size + 20 <= mtu else 1 + len(even_cuts(size, (mtu - 20) // 8 * 8))
    flags = [*of_length(len(step.data))]
    if step.socket:
        flags.append("by a further socket")
    if seen.peer(step.socket, number):
        flags.append("by a connected socket")
    flags.append(IN_FRAGMENTS if count > 1 else "in one packet")
    before = seen.sends_before[number]
    numbers = {"data": len(step.data), "fragments": count, "mtu": mtu, "before": before, "to port": step.port}
    return unit_of(flags, numbers)


def refuted_by(passing: List[Unit], failing: int) -> FrozenSet[str]:
    """The flags of datagrams that passed. A few don't refute what very many failing ones share: a wrong checksum of odd
    lengths, for example, is right for a last byte of 0."""
    counts: "Counter[str]" = Counter()
    for has, count in Counter(it.has for it in passing).items():
        counts.update(dict.fromkeys(has, count))
    return frozenset(flag for flag, count in counts.items() if count * FEW > failing)


def shared(failing: List[Unit], passing: List[Unit], refuted: FrozenSet[str], is_plain: bool) -> str:
    """What all failing datagrams share and no passing one has, or nothing. is_plain: only a flag."""
    first = failing[0]
    common = first.has.intersection(*(it.has for it in failing))
    there = frozenset().union(*(it.has for it in passing))
    flags = [it for it in first.flags if it in common and it not in there]
    few = [it for it in first.flags if it in common and it in there and it not in refuted]
    if is_plain:
        return next(iter(flags + few), "")
    length = first.numbers["data"]
    if all(it.numbers["data"] == length for it in failing) and all(it.numbers["data"] != length for it in passing):
        flags.append(f"of exactly {length:,} bytes")
    bounds = of_bounds(failing, passing)
    both = [] if bounds else pairs([it for it in first.flags if it in common], passing, len(failing))
    flags += [*bounds, *few, *both]
    return min(flags, key=lambda it: "multiple of" in it, default="")


def pairs(common: List[str], passing: List[Unit], failing: int) -> List[str]:
    """The pairs of these flags that no passing datagram has, or only few."""
    plain = [it for it in common if not it.startswith("in fragments, ")]
    kinds = Counter(it.has for it in passing)
    found = []
    for one, other in itertools.combinations(plain, 2):
        if sum(count for has, count in kinds.items() if one in has and other in has) * FEW <= failing:
            found.append(f"{one} and {other}")
    return found


def of_bounds(failing: List[Unit], passing: List[Unit]) -> List[str]:
    """The bounds above or below which all datagrams fail and none passes."""
    found = []
    for name, (more, fewer) in NUMBERS.items():
        bad = [it.numbers[name] for it in failing if name in it.numbers]
        good = [it.numbers[name] for it in passing if name in it.numbers]
        if len(bad) < len(failing) or not good:
            continue
        if more and min(bad) > max(good):
            found += [more.format(max(good))] if max(good) else []
        if fewer and max(bad) < min(good):
            found.append(fewer.format(min(good)))
    return found


def widest(failing: List[Unit], passing: List[Unit], refuted: FrozenSet[str]) -> Tuple[str, Set[int]]:
    """What most failing datagrams have and no passing one, a flag or a bound, and the places of these."""
    found: Dict[str, Set[int]] = {}
    for place, it in enumerate(failing):
        for flag in it.flags:
            if flag not in refuted:
                found.setdefault(flag, set()).add(place)
    for name, (more, fewer) in NUMBERS.items():
        good = [it.numbers[name] for it in passing if name in it.numbers]
        bad = {place: it.numbers[name] for place, it in enumerate(failing) if name in it.numbers}
        if good and more and max(good):
            found[more.format(max(good))] = {place for place, number in bad.items() if number > max(good)}
        if good and fewer:
            found[fewer.format(min(good))] = {place for place, number in bad.items() if number < min(good)}
    best = max(found, key=lambda it: len(found[it]), default="")
    return best, found.get(best, set())
