"""The cause of a deviation in words, by what is unusual about the packets that carry a datagram. Deviations with one
cause are one entry of the report, whatever their rules."""
from __future__ import annotations

from typing import List, Tuple

from ._case import Got
from ._features import IN_FRAGMENTS, SURPLUS, beside, received
from ._laws import AGE, DESTINATIONS, LENGTH, NUMBERS, PROTOCOL, SOURCES, TOTAL, Arrival, Seen, not_read
from ._words import kind_of_source, oddities

EXPIRED_MS = 120_000
NO_DATAGRAM, NO_REPLY = "a datagram doesn't come", "a ping gets no reply"
NO_EXPIRY = not_read(AGE)
ACCEPTED, ANY_SOURCE = " is accepted as source", "sources that no host may have are accepted"
# What a law names, if a stack breaks it: the same checks lose datagrams with these features.
NAMED = {
    f"with {SURPLUS}": not_read(LENGTH),
    f"in fragments, with {SURPLUS},": not_read(LENGTH),
    "with padding": not_read(TOTAL),
    "in fragments, with padding,": not_read(TOTAL),
    beside("protocol"): not_read(PROTOCOL),
    beside("destination"): not_read(DESTINATIONS),
    beside("source"): not_read(SOURCES),
    beside("identification"): not_read(NUMBERS),
}
# What isn't the reason of a deviation, unless it's all that is unusual.
MILD = ("", "fragments", "don't fragment", "no UDP checksum", "a type of service")


def extra(seen: Seen, got: Got) -> str:
    """The cause of a datagram that comes and shouldn't."""
    parts = seen.carriers(got)
    source = kind_of_source(got.source or 0) if got.source is not None else ""
    if source:
        return accepted(source)
    if not parts:
        return "a datagram comes that shouldn't"
    if parts[-1].ms - parts[0].ms >= EXPIRED_MS:
        return NO_EXPIRY
    return f"a datagram {unusual(seen, parts, got)} comes"


def unusual(seen: Seen, parts: List[Arrival], got: Got) -> str:
    """What is most unusual about a datagram."""
    plain = ("of odd length", "of even length", "whose", *(f"with {it}" for it in MILD if it))
    flags = [it for it in received(seen, parts, got).flags if not it.startswith((*plain, "in fragments, of", *plain))]
    return flags[0] if flags else IN_FRAGMENTS


def accepted(source: str) -> str:
    return f"{source}{ACCEPTED}"


def no_reply(packet: bytes, in_fragments: bool) -> Tuple[str, Tuple[str, ...]]:
    """The cause of a ping without a reply."""
    kinds = [it.kind for it in oddities(packet) if it.kind not in MILD]
    found = [*(f"with {it}" for it in kinds), *["in fragments"] * in_fragments]
    return (f"a ping {found[0]} gets no reply", (NO_REPLY,)) if found else (NO_REPLY, ())
