"""A wire between stacks that loses, repeats and reorders packets; a seed determines the choices."""
from __future__ import annotations

import weakref
from typing import Callable, Dict, List, NamedTuple, Optional, Sequence, Set, SupportsIndex, Tuple, TypeVar

from ._addresses import in_range, number_of
from ._capture import Capture
from ._flight import Flight, InFlight
from ._host import Host
from ._losses import LAST_SEED, Sent
from ._packet import Packet
from ._pcg import Chance, Pcg32
from ._sender import Delay, Loss, Sender
from ._socket import Socket
from ._stack import Stack
from ._uncopied import Uncopied

Value = TypeVar("Value")

LIMITED_BROADCAST = 0xFFFF_FFFF
TICK = 500  # in milliseconds
LAST_MICROSECOND = 499_999
DESTINATION = slice(16, 20)  # of an IPv4 header


class Carried(NamedTuple):
    """The counters of a wire: the value of `Wire.carried`.

    >>> bsdudp.Wire([bsdudp.Stack("10.0.0.1"), bsdudp.Stack("10.0.0.2")]).carried
    Carried(sent=0, lost=0, repeated=0, swapped=0, delivered=0, nobody=0)"""

    sent: int
    """Packets that stacks sent."""
    lost: int
    repeated: int
    swapped: int
    delivered: int
    """Packets delivered to a stack: a broadcast counts once for each stack."""
    nobody: int
    """Packets that were due, with a destination that no stack on the wire has."""


class UnderWay(NamedTuple):
    """A packet in flight: an item of `Wire.under_way`.

    >>> a, b = bsdudp.Stack("10.0.0.1"), bsdudp.Stack("10.0.0.2")
    >>> wire = bsdudp.Wire([a, b], delay=(3, 3))
    >>> a.socket().sendto(b"hi", ("10.0.0.2", 7))
    2
    >>> none_yet = wire.carry()
    >>> wire.under_way[0].wait, wire.under_way[0].packet
    (2, <Packet 10.0.0.1 > 10.0.0.2 udp 1024 > 7, id 1, 30 bytes>)"""

    sender: Stack
    wait: int
    """The number of carries before the one in which it is delivered: 0 if it is due in the next one."""
    packet: Packet


class Wire(Uncopied):
    """A network segment that joins stacks. A packet is delivered to the stack whose address is its destination, and a
    broadcast to all stacks except its sender.

    loss     the probability that a packet is lost, 0 to 1; or a function of a `Sent` that returns whether it is, such
             as `Nth` or `Bursts`
    repeat   the probability that it is delivered twice: 0 to 1
    reorder  the probability that a packet that is due is swapped with the one after it: 0 to 1
    delay    the smallest and the greatest number of carries for which a packet is in flight; `advance` carries once in a
             millisecond
    seed     determines the choices: the same seed gives the same choices
    pcap     a new file to which each delivered packet is written at the end of its carry; None: no capture

    `loss`, `repeat`, `reorder`, `delay`, `pcap` and `on_loss` can be set at any time, the first four also for one stack
    (see `sender`). Each choice takes one 32-bit number of `Pcg32`, in this order. When a packet is put on the wire:
    whether it is lost, unless a function decides that; if not, whether it is repeated; the delay of each copy. When a
    carry begins: for each packet that is due, except the last, whether it is swapped with the one after it.

    >>> a, b = bsdudp.Stack("10.0.0.1"), bsdudp.Stack("10.0.0.2")
    >>> to = b.socket()
    >>> to.bind(("", 7))
    >>> a.socket().sendto(b"hi", ("10.0.0.2", 7))
    2
    >>> wire = bsdudp.Wire([a, b], loss=0)
    >>> wire.run()
    True
    >>> to.recv(), wire.carried.delivered
    (b'hi', 1)"""

    __slots__ = (
        "_stacks", "_place", "_broadcasts", "_senders", "_random", "_carry", "_now", "_carries", "_flight", "_may_send",
        "_may_hold", "_may_read", "_counts", "_capture", "_written", "_on_loss",
    )  # fmt: skip

    def __init__(
        self,
        stacks: Sequence[Stack],
        loss: Loss = 0,
        repeat: Chance = 0,
        reorder: Chance = 0,
        delay: Delay = (0, 0),
        seed: SupportsIndex = 1,
        pcap: Optional[str] = None,
    ) -> None:
        if isinstance(stacks, Stack):
            raise TypeError("the stacks must be one argument: Wire([a, b])")
        self._join(tuple(stacks))
        self.loss, self.repeat, self.reorder, self.delay = loss, repeat, reorder, delay
        self._random = Pcg32(in_range("seed", seed, 0, LAST_SEED))
        self._carry = 0  # the number of carries so far
        self._now = 0  # in milliseconds
        self._carries = 0  # since the clock moved last
        self._written = 0  # the time of the last packet in the capture, in microseconds
        self._counts = dict.fromkeys(Carried._fields, 0)
        self._flight = Flight()
        self._on_loss: Optional[Callable[[Sent], object]] = None
        self.pcap = pcap

    def _join(self, stacks: Tuple[Stack, ...]) -> None:
        if not stacks:
            raise ValueError("a wire must join at least one stack")
        for stack in stacks:
            if isinstance(stack, Host):
                raise TypeError("a wire must join Stacks, not a Host: carry its frames by transmit and receive")
            if not isinstance(stack, Stack):
                raise TypeError(f"a wire must join Stacks, not {type(stack).__name__}")
        self._stacks = stacks
        self._place: Dict[bytes, int] = {}
        for at, stack in enumerate(stacks):
            if self._place.setdefault(number_of(stack.addr).to_bytes(4, "big"), at) != at:
                raise ValueError(f"addresses on a wire must differ: two stacks have the address {stack.addr}")
        every = {number_of(stack.bcast) for stack in stacks} | {LIMITED_BROADCAST}
        self._broadcasts = {number.to_bytes(4, "big") for number in every}
        self._senders = [Sender(stack) for stack in stacks]
        # The places of the stacks that may have packets in their output queues.
        self._may_send: Set[int] = set(range(len(stacks)))
        # The places of those that may hold unfinished datagrams: a tick changes only these.
        self._may_hold: Set[int] = set(range(len(stacks)))
        # The places of those whose sockets may have a datagram.
        self._may_read: Set[int] = set(range(len(stacks)))
        for at, stack in enumerate(stacks):
            stack._wires = [it for it in stack._wires if it[0]() is not None] + [(weakref.ref(self), at)]

    def copy(self) -> "Wire":
        """Returns a second wire in the same state, with a copy of each stack (see `Stack.copy`) in `stacks`, in the
        same order. The same choices follow on both. The copy has no capture and no `on_loss`. A function that is a
        `loss` is copied by `copy.copy`, so an `Nth` and a `Bursts` go on in both from here."""
        twin = Wire.__new__(Wire)
        twin._join(tuple(stack.copy() for stack in self._stacks))
        rules: Dict[int, Loss] = {}
        for mine, its in zip(self._senders, twin._senders):
            mine._copy_to(its, rules)
        twin._random, twin._flight = self._random.copy(), self._flight.copy()
        twin._carry, twin._now, twin._carries = self._carry, self._now, self._carries
        twin._counts = dict(self._counts)
        twin._written, twin._capture, twin._on_loss = 0, None, None
        return twin

    @property
    def stacks(self) -> Tuple[Stack, ...]:
        """The stacks that it joins."""
        return self._stacks

    @property
    def carried(self) -> Carried:
        """A snapshot of its counters."""
        return Carried(**self._counts)

    @property
    def now(self) -> int:
        """Its time in milliseconds: `advance` and `tick` move it, and `carry` does not."""
        return self._now

    def sender(self, stack: Stack) -> Sender:
        """Returns the settings for the packets that a stack sends. ValueError if the stack is not on this wire."""
        if not isinstance(stack, Stack):
            raise TypeError(f"stack must be a Stack, not {type(stack).__name__}")
        at = self._place.get(number_of(stack.addr).to_bytes(4, "big"))
        if at is None or self._stacks[at] is not stack:
            raise ValueError(f"{stack!r} is not on this wire")
        return self._senders[at]

    def _same(self, name: str, values: List[Value]) -> Value:
        if any(value != values[0] for value in values):
            raise ValueError(f"{name} is not the same for all stacks: use sender(stack).{name}")
        return values[0]

    @property
    def loss(self) -> Loss:
        """For all stacks, as the other three. Reading it raises a ValueError if their values differ."""
        return self._same("loss", [it.loss for it in self._senders])

    @loss.setter
    def loss(self, value: Loss) -> None:
        for it in self._senders:
            it.loss = value

    @property
    def repeat(self) -> Chance:
        """The probability that a packet is delivered twice."""
        return self._same("repeat", [it.repeat for it in self._senders])

    @repeat.setter
    def repeat(self, value: Chance) -> None:
        for it in self._senders:
            it.repeat = value

    @property
    def reorder(self) -> Chance:
        """The probability that a packet that is due is swapped with the one after it."""
        return self._same("reorder", [it.reorder for it in self._senders])

    @reorder.setter
    def reorder(self, value: Chance) -> None:
        for it in self._senders:
            it.reorder = value

    @property
    def delay(self) -> Delay:
        """The smallest and the greatest number of carries for which a packet is in flight."""
        return self._same("delay", [it.delay for it in self._senders])

    @delay.setter
    def delay(self, value: Delay) -> None:
        for it in self._senders:
            it.delay = value

    @property
    def pcap(self) -> Optional[str]:
        """The file to which delivered packets are written. Setting it begins a new file; None ends the capture."""
        return self._capture.path if self._capture else None

    @pcap.setter
    def pcap(self, path: Optional[str]) -> None:
        self._capture = None if path is None else Capture(path)

    @property
    def on_loss(self) -> Optional[Callable[[Sent], object]]:
        """A function that is called with each packet that the wire loses by `loss`; None: no function."""
        return self._on_loss

    @on_loss.setter
    def on_loss(self, function: Optional[Callable[[Sent], object]]) -> None:
        if function is not None and not callable(function):
            raise TypeError(f"on_loss must be a function or None, not {type(function).__name__}")
        self._on_loss = function

    @property
    def in_flight(self) -> int:
        """The number of packets in flight."""
        return len(self._flight)

    @property
    def under_way(self) -> List[UnderWay]:
        """The packets in flight, in the order in which they were sent. Their places in this list are the arguments of
        `drop`, `duplicate` and `swap`."""
        return [UnderWay(self._stacks[it.sender], it.due - self._carry, it.packet) for it in self._flight.all()]

    def _at(self, packets: List[InFlight], place: SupportsIndex) -> int:
        if not packets:
            raise ValueError("no packet is in flight: carry() puts sent packets on the wire")
        return in_range("a place", place, 0, len(packets) - 1)

    def drop(self, place: SupportsIndex) -> None:
        """Removes a packet in flight by hand; `carried` does not count it. ValueError if there is no such packet, as
        for the other two."""
        packets = self._flight.all()
        del packets[self._at(packets, place)]
        self._flight.set_all(packets)

    def duplicate(self, place: SupportsIndex) -> None:
        """Adds a copy of a packet in flight after all others, by hand."""
        packets = self._flight.all()
        self._flight.set_all([*packets, packets[self._at(packets, place)]])

    def swap(self, place: SupportsIndex, other: SupportsIndex) -> None:
        """Exchanges two packets in flight by hand. Each keeps its delay."""
        packets = self._flight.all()
        one, two = self._at(packets, place), self._at(packets, other)
        packets[one], packets[two] = packets[two], packets[one]
        self._flight.set_all(packets)

    def _is_lost(self, sender: Sender, packet: Packet) -> bool:
        rule = sender._rule
        if rule is None and self._on_loss is None:
            return self._random.happens(sender._lost)
        sent = Sent(self._counts["sent"], sender.stack, packet, self._now)
        lost = self._random.happens(sender._lost) if rule is None else bool(rule(sent))
        if lost and self._on_loss is not None:
            self._on_loss(sent)
        return lost

    def _put(self, at: int, packet: Packet) -> None:
        """Puts a packet on the wire."""
        sender = self._senders[at]
        self._counts["sent"] += 1
        if self._is_lost(sender, packet):
            self._counts["lost"] += 1
            return
        twice = self._random.happens(sender._repeated)
        self._counts["repeated"] += twice
        least, spread = sender._waits
        for _ in range(1 + twice):
            self._flight.add(self._carry + least + self._random.below(spread), at, packet)

    def _collect(self) -> None:
        """Puts what waits in output queues on the wire, in the order of the stacks."""
        for at in sorted(self._may_send):
            self._may_send.discard(at)  # first: another thread may send after the last packet was taken
            try:
                for packet in self._stacks[at].packets():
                    self._put(at, packet)
            except BaseException:
                self._may_send.add(at)
                raise

    def _take_due(self) -> List[InFlight]:
        due = self._flight.take(self._carry)
        for at in range(len(due) - 1):
            if self._random.happens(self._senders[due[at].sender]._swapped):
                due[at], due[at + 1] = due[at + 1], due[at]
                self._counts["swapped"] += 1
        return due

    def _receivers(self, it: InFlight) -> Sequence[int]:
        to = it.packet[DESTINATION]
        if to in self._broadcasts:
            return [at for at in range(len(self._stacks)) if at != it.sender]
        at = self._place.get(to)
        return () if at is None or at == it.sender else (at,)

    def carry(self) -> int:
        """Takes the packets of all output queues, and delivers the packets that are due. Returns the number of packets
        delivered to a stack. It takes as long as there are packets, however many stacks the wire joins."""
        self._collect()
        handed = 0
        for it in self._take_due():
            if self._capture is not None:
                self._written = max(self._written, self._time())
                self._capture.add(self._written, it.packet)
            receivers = self._receivers(it)
            for at in receivers:
                self._stacks[at].rx(it.packet)
            handed += len(receivers)
            self._counts["nobody"] += not receivers
        if self._capture is not None:
            self._capture.flush()
        self._counts["delivered"] += handed
        self._carry += 1
        self._carries += 1
        return handed

    def ready(self) -> List[Socket]:
        """Returns the sockets of its stacks that have a datagram in their receive queue, in the order of the stacks and
        of their descriptors. It asks only stacks that got a datagram or sent something since they had none, so with
        1,000 stacks it saves asking each socket after a carry.

        >>> a, b = bsdudp.Stack("10.0.0.1"), bsdudp.Stack("10.0.0.2")
        >>> wire, to = bsdudp.Wire([a, b]), b.socket()
        >>> to.bind(("", 7))
        >>> a.socket().sendto(b"hi", ("10.0.0.2", 7))
        2
        >>> wire.carry()
        1
        >>> [socket.recv() for socket in wire.ready()], wire.ready()
        ([b'hi'], [])"""
        found: List[Socket] = []
        for at in sorted(self._may_read):
            self._may_read.discard(at)  # first: another thread may send after the stack was asked
            stack = self._stacks[at]
            sockets = stack.readable() if stack._live else []
            if sockets:
                self._may_read.add(at)
                found += sockets
        return found

    def run(self, until_quiet: bool = True, carries: SupportsIndex = 10_000) -> bool:
        """Calls `carry` until no packet is in flight and all output queues are empty, at most `carries` times; with
        `until_quiet=False` exactly `carries` times. Returns whether no packet is left."""
        for _ in range(in_range("carries", carries, 0, 1 << 31)):
            if until_quiet and self._is_quiet():
                break
            self.carry()
        return self._is_quiet()

    def advance(self, ms: SupportsIndex, each: Optional[Callable[[], object]] = None) -> None:
        """Lets `ms` milliseconds pass. In each of them there is one carry, so `delay` is in milliseconds here, and at
        each multiple of 500 a tick of all stacks.

        each  a function that is called after each carry that delivered a packet. What it sends is put on the wire in
              the next millisecond. `now` is the time."""
        end = self._now + in_range("ms", ms, 0, 1 << 31)
        while self._now < end:
            if self.carry() and each is not None:
                each()
            self._move_to(min(end, self._now + 1 if self._may_send else self._next_event(end)))

    def _next_event(self, end: int) -> int:
        """Returns the time of the next carry that delivers packets or, if that is sooner, of `end`. Of a carry, one is
        over already."""
        due = self._flight.next_due()
        return end if due is None else self._now + 1 + due - self._carry

    def _move_to(self, now: int) -> None:
        """Moves the clock, with the carries between that have nothing to do."""
        self._carry += now - self._now - 1
        ticks = now // TICK - self._now // TICK
        self._now, self._carries = now, 0
        self._tick(ticks)

    def tick(self, n: SupportsIndex = 1) -> None:
        """Advances the clock of each stack by `n` ticks of half a second. Packets in flight stay in flight: a delay is
        counted in carries."""
        ticks = in_range("n", n, 0, 1_000_000)
        self._now += ticks * TICK
        self._carries = 0
        self._tick(ticks)

    def _tick(self, ticks: int) -> None:
        if not ticks:
            return
        for at in sorted(self._may_hold):
            self._stacks[at].tick(ticks)
            if not self._stacks[at]._ask("unfinished_len"):
                self._may_hold.discard(at)

    def _time(self) -> int:
        """Returns the time of a packet that is delivered now, in microseconds."""
        return self._now * 1000 + min(self._carries, LAST_MICROSECOND)

    def _is_quiet(self) -> bool:
        return not self._flight and not self._has_output()

    def _has_output(self) -> bool:
        for at in list(self._may_send):
            self._may_send.discard(at)
            waits = True
            try:
                waits = self._stacks[at].output_len > 0
            finally:
                if waits:
                    self._may_send.add(at)
            if waits:
                return True
        return False

    def __repr__(self) -> str:
        return f"<Wire of {len(self._stacks)} stacks, {self.in_flight} packets under way, {self.carried}>"
