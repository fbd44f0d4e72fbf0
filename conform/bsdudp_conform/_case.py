"""A case: what happens to a stack, step by step."""
from __future__ import annotations

import itertools
from dataclasses import dataclass
from functools import cached_property
from typing import Dict, FrozenSet, List, Optional, Tuple, Union

from ._addresses import text_of
from ._packets import USER_PORT
from ._read import Header, read
from .kit import hex_of

SLOW_MS = 1000


@dataclass(frozen=True)
class Receive:
    """A packet arrives from the wire."""

    packet: bytes

    @property
    def line(self) -> str:
        return f"rx {hex_of(self.packet)}"

    @cached_property
    def header(self) -> Optional[Header]:
        return read(self.packet)


@dataclass(frozen=True)
class Wait:
    """Time passes, in milliseconds."""

    ms: int

    @property
    def line(self) -> str:
        return f"wait {self.ms}"


@dataclass(frozen=True)
class Open:
    """A further socket is bound to a port. Socket 0 is there from the start, on port 7."""

    socket: int
    port: int

    @property
    def line(self) -> str:
        return f"socket {self.socket} {self.port}"


@dataclass(frozen=True)
class Connect:
    """A socket is connected to a peer."""

    socket: int
    address: int
    port: int

    @property
    def line(self) -> str:
        return f"connect {self.socket} {text_of(self.address)} {self.port}"


@dataclass(frozen=True)
class Send:
    """A socket sends a datagram. For a connected one the address is its peer's."""

    socket: int
    address: int
    port: int
    data: bytes

    @property
    def line(self) -> str:
        return f"send {self.socket} {text_of(self.address)} {self.port} {hex_of(self.data)}"


@dataclass(frozen=True)
class Hold:
    """From now on, a socket is read only by the step ReadHeld."""

    socket: int

    @property
    def line(self) -> str:
        return f"hold {self.socket}"


@dataclass(frozen=True)
class ReadHeld:
    """Up to this many of the datagrams that wait in a held socket are read."""

    socket: int
    count: int

    @property
    def line(self) -> str:
        return f"read {self.socket} {self.count}"


Step = Union[Receive, Wait, Open, Connect, Send, Hold, ReadHeld]

# What an adapter may have in addition to `rx` and `wait`, in its line `has`.
ABILITIES: Dict[str, str] = {
    "out": "what leaves on the wire is seen",
    "send": "`send`: a socket sends",
    "mtu": "`mtu`: the longest packet that the link takes",
    "sockets": "`socket`: further sockets, also two on a port",
    "connect": "`connect`: connected sockets",
    "ping": "it answers echo requests",
    "hold": "`hold` and `read`: reads can be held back",
    "offload": "the link checks the sums, and the stack doesn't",
    "reassembly": "it puts fragments together, and the adapter is the host around it",
    "gateway": "it translates addresses, and is no host of its own",
    "echo": "what users get is known by an echo alone",
}


@dataclass(frozen=True)
class Case:
    """A numbered case of a rule. `mtu` is the link's. `parts` are the cases of a run, with their numbers of steps."""

    rule: str
    number: int
    title: str
    steps: Tuple[Step, ...]
    mtu: int = 1500
    parts: Tuple[Tuple[str, int], ...] = ()

    @property
    def name(self) -> str:
        """The name by which a case is selected: `frag.key:14`."""
        return f"{self.rule}:{self.number}"

    def part(self, step: Optional[int]) -> Optional[str]:
        """The case of a run to which a step belongs."""
        if step is None or sum(count for _, count in self.parts) != len(self.steps):
            return None
        ends = itertools.accumulate(count for _, count in self.parts)
        return next((name for (name, _), end in zip(self.parts, ends) if step < end), None)

    @cached_property
    def needs(self) -> FrozenSet[str]:
        """The abilities that an adapter needs for it."""
        kinds = {Open: "sockets", Connect: "connect", Send: "send", Hold: "hold"}
        found = {kinds[type(step)] for step in self.steps if type(step) in kinds}
        if self.mtu != 1500:
            found.add("mtu")
        if self.rule.startswith("icmp.echo"):
            found |= {"ping", "out"}
        return frozenset(found | ({"out"} if "send" in found else set()))

    @cached_property
    def fragment_keys(self) -> FrozenSet[Tuple[int, int, int]]:
        """Source, destination and identification of its fragments: other stacks may not look at the protocol."""
        headers = [step.header for step in self.steps if isinstance(step, Receive)]
        return frozenset(it.key[:3] for it in headers if it is not None and not it.whole)

    @cached_property
    def slow(self) -> bool:
        """Whether it waits for a second or more."""
        return any(isinstance(step, Wait) and step.ms >= SLOW_MS for step in self.steps)

    @cached_property
    def size(self) -> Tuple[int, int]:
        """Steps, and bytes in all: the least is the shortest sequence."""
        return len(self.steps), sum(len(step.line) for step in self.steps)

    def lines(self) -> List[str]:
        """What the adapter reads."""
        head = [f"case {self.name}"] + ([f"mtu {self.mtu}"] if self.mtu != 1500 else [])
        return [*head, *(step.line for step in self.steps), "end"]

    def packets(self) -> List[Tuple[float, bytes]]:
        """The packets that come, with their times in seconds."""
        found, now = [], 0
        for step in self.steps:
            if isinstance(step, Wait):
                now += step.ms
            elif isinstance(step, Receive):
                found.append((now / 1000, step.packet))
                now += 1
        return found


@dataclass(frozen=True)
class Got:
    """A datagram came to a socket. No source: the adapter can't know it."""

    step: int
    source: Optional[int]
    port: int
    data: bytes
    socket: int = 0

    @property
    def line(self) -> str:
        end = f" {self.socket}" if self.socket else ""
        sender = "*" if self.source is None else text_of(self.source)
        return f"got {self.step} {sender} {self.port} {hex_of(self.data)}{end}"


@dataclass(frozen=True)
class Out:
    """A packet left on the wire."""

    step: int
    packet: bytes

    @property
    def line(self) -> str:
        return f"out {self.step} {hex_of(self.packet)}"


@dataclass(frozen=True)
class Refused:
    """The stack refused a step, for example a send that is too long for it, or a call reported an ICMP error."""

    step: int

    @property
    def line(self) -> str:
        return f"refused {self.step}"


Event = Union[Got, Out, Refused]


@dataclass(frozen=True)
class Answer:
    """An adapter's report for a case. `fault` says why the report is incomplete: the adapter died, hung, flooded, or
    printed an invalid line. `notes` are only for a reader."""

    events: Tuple[Event, ...] = ()
    notes: Tuple[str, ...] = ()
    fault: Optional[str] = None

    @property
    def got(self) -> List[Got]:
        return [event for event in self.events if isinstance(event, Got)]

    @property
    def out(self) -> List[Out]:
        return [event for event in self.events if isinstance(event, Out)]

    def refused(self, step: int) -> bool:
        return step in self._refused

    @property
    def has_refused(self) -> bool:
        return bool(self._refused)

    @cached_property
    def _refused(self) -> FrozenSet[int]:
        return frozenset(event.step for event in self.events if isinstance(event, Refused))


def user_sockets() -> Dict[int, int]:
    """The sockets of a case before its first step, by number, with their ports."""
    return {0: USER_PORT}
