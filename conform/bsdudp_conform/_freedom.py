"""The freedom that the RFCs leave to a stack, as settings of the reference machine.

A setting's `keeps` are values that keep MUSTs and SHOULDs, `strays` those that keep only the MUSTs, and `breaks` those
that break a MUST: they're never permitted, and are here to explain the behaviour of known stacks. `finer` are further
permitted values that only matter for that."""
from __future__ import annotations

from dataclasses import dataclass, field
from typing import Callable, Dict, List, Mapping, Tuple, Union

Value = Union[str, int, Tuple[str, int]]
Values = Tuple[Value, ...]


@dataclass(frozen=True)
class Setting:
    """One choice: what it's about, its values, and each value in words."""

    title: str
    keeps: Values
    strays: Values = ()
    breaks: Values = ()
    finer: Values = ()
    words: Mapping[Value, str] = field(default_factory=dict)

    @property
    def default(self) -> Value:
        return self.keeps[0]

    @property
    def permitted(self) -> Values:
        return self.keeps + self.strays

    @property
    def all(self) -> Values:
        return self.keeps + self.strays + self.breaks + self.finer

    def told(self, value: Value) -> str:
        """A value in words."""
        if value not in self.words and isinstance(value, tuple):
            return waiting(*value)
        return self.words.get(value, str(value))


TAKE_DROP: Dict[Value, str] = {"take": "taken", "drop": "dropped"}
# The numbers of unfinished datagrams in floods, and of those that are finished one after the other.
FLOODS, TOGETHER = (4, 10, 16, 40, 64, 256, 1024, 4000), (4, 10, 40)
# The least bounds that these cases distinguish: a bound between two of them behaves like the lower one.
BOUNDS = sorted({3, *TOGETHER, *(count + 1 for count in FLOODS[:-1])})
BOUND_WORDS: Dict[Value, str] = {
    low: str(low) if low == high else f"{low:,} to {high:,}"
    for low, high in zip(BOUNDS, [*(it - 1 for it in BOUNDS[1:]), FLOODS[-1]])
}
ALL: Value = ("all", 0)
FULL = {"refuse": "then newcomers are refused", "oldest": "then the oldest is dropped", "flush": "then all are dropped"}
KEPT: Dict[Value, str] = {ALL: f"all, up to {FLOODS[-1]:,}"}
KEPT.update({(how, n): f"{BOUND_WORDS[n]}; {words}" for how, words in FULL.items() for n in BOUNDS})

WAITING: Dict[Value, str] = {
    ALL: "all are kept",
    ("bsd", 0): "41,600 bytes, with 16 for each address, and 256 in bsdudp's default pool: as 4.4BSD",
}


def waiting(how: str, bound: int) -> str:
    """A queue's bound in words."""
    return f"up to {bound}; then {'newcomers are' if how == 'refuse' else 'the oldest is'} dropped"


SETTINGS: Dict[str, Setting] = {
    "overlap": Setting(
        "overlaps",
        ("bsd", "last", "first", "drop new", "drop all but repeats", "drop all but exact repeats"),
        ("drop all",),
        words={
            "bsd": "the piece that begins first keeps its bytes, as 4.4BSD",
            "last": "the bytes that came last, as RFC 791's example",
            "first": "the bytes that came first",
            "drop new": "the newcomer is dropped, as lwIP",
            "drop all but repeats": "the datagram is dropped, but for a repeated piece, as Linux",
            "drop all but exact repeats": "the datagram is dropped, but for an exact repeat, as in RFC 8200",
            "drop all": "the datagram is dropped",
        },
    ),
    "odd": Setting(
        "fragments with more to come and no multiple of 8",
        ("refuse", "round down", "take"),
        words={
            "refuse": "refused",
            "round down": "cut to a multiple of 8, as Linux",
            "take": "taken as they are",
        },
    ),
    "empty": Setting(
        "fragments without data",
        ("refuse", "take", "drop all", "hold the place"),
        words={
            "refuse": "refused",
            "take": "kept among the others",
            "drop all": "their datagram is dropped, as Linux",
            "hold the place": "kept as if they overlapped, as lwIP",
        },
    ),
    "ends": Setting(
        "last fragments that disagree",
        ("highest", "latest", "drop all"),
        words={
            "highest": "the piece with the highest offset decides, as 4.4BSD",
            "latest": "the last fragment that came",
            "drop all": "the datagram is dropped, as Linux",
        },
    ),
    "whole": Setting(
        "a whole datagram with the identification of an unfinished one",
        ("leave", "flush"),
        words={"leave": "the unfinished one stays", "flush": "the unfinished one is dropped"},
    ),
    "expire": Setting(
        "unfinished datagrams are kept",
        (60, 119),
        (5, 15, 30, 50, 254),
        words={
            5: "4 to 10 s",
            15: "10 to 20 s",
            30: "20 to 40 s",
            50: "40 to 58 s",
            60: "58 to 125 s",
            119: "58 to 125 s",
            254: "125 to 300 s",
        },
    ),
    "largest": Setting(
        "the longest datagram",
        (65515,),
        (556,),
        (41592,),
    ),
    "kept": Setting(
        "unfinished datagrams at once",
        (ALL, ("refuse", 3), ("oldest", 3), ("flush", 3)),
        finer=tuple(key for key in KEPT if isinstance(key, tuple) and key[1] > 3),
        words=KEPT,
    ),
    "no checksum": Setting("UDP without a checksum", ("take",), ("drop",), words=TAKE_DROP),
    "surplus": Setting(
        "bytes after the UDP length", ("trim",), ("drop",), words={"trim": "cut off", "drop": "the datagram is dropped"}
    ),
    "reserved": Setting("the reserved flag", ("take", "drop"), words=TAKE_DROP),
    "bad options": Setting("malformed options", ("take", "drop"), words=TAKE_DROP),
    "own source": Setting("its own address as source", ("take", "drop"), words=TAKE_DROP),
    "other source": Setting("class E and the network's own address as source", ("take", "drop"), words=TAKE_DROP),
    "zero broadcast": Setting(
        "the old broadcast forms, with 0",
        ("drop", "take", "take 10.0.0.0"),
        words={**TAKE_DROP, "take 10.0.0.0": "0.0.0.0 dropped, the network's own address taken"},
    ),
    "loop destination": Setting(
        "127/8 as destination, from the wire",
        ("drop",),
        ("take", "take 127.0.0.1"),
        words={**TAKE_DROP, "take 127.0.0.1": "127.0.0.1 taken"},
    ),
    "ecn": Setting(
        "ECN marks that differ among fragments",
        ("take", "drop CE", "drop mixed"),
        words={
            "take": "not looked at",
            "drop CE": "CE with Not-ECT is dropped",
            "drop mixed": "Not-ECT with others is dropped",
        },
    ),
    "waiting": Setting(
        "datagrams that wait for a reader",
        (ALL, ("refuse", 1), ("oldest", 1)),
        finer=(("bsd", 0),),
        words=WAITING,
    ),
    "waiting without data": Setting(
        "datagrams without data that wait for a reader",
        (ALL, ("refuse", 1), ("oldest", 1)),
        finer=(("bsd", 0),),
        words=WAITING,
    ),
    "errors": Setting(
        "an ICMP error about a send of a connected socket",
        ("none", "port", "hard", "unreachable", "all"),
        words={
            "none": "no call reports it",
            "port": "a call reports Port Unreachable",
            "hard": "a call reports Port Unreachable, Protocol Unreachable and Parameter Problem, as Linux",
            "unreachable": "a call reports Unreachable of each code",
            "all": "a call reports each",
        },
    ),
    "several": Setting(
        "a datagram that several sockets could take",
        ("best, youngest", "best, oldest", "best, all", "all"),
        words={
            "best, youngest": "the socket that names most, and of several the one opened last",
            "best, oldest": "the socket that names most, and of several the one opened first",
            "best, all": "each of the sockets that name most",
            "all": "each of them",
        },
    ),
    "several, broadcast": Setting(
        "a broadcast that several sockets could take",
        ("all", "best, youngest", "best, oldest", "best, all"),
        words={
            "all": "each of them",
            "best, youngest": "the one opened last",
            "best, oldest": "the one opened first",
            "best, all": "each that names most",
        },
    ),
    "connected broadcast": Setting("a peer's broadcast, at a connected socket", ("drop", "take"), words=TAKE_DROP),
    "options": Setting("options that are well formed", ("take",), (), ("drop",), words=TAKE_DROP),
    "bad source": Setting("sources of broadcast, multicast, 127/8 and 0/8", ("drop",), (), ("take",), words=TAKE_DROP),
    "bad source and loop": Setting(
        "source and destination in 127/8, from the wire", ("drop",), (), ("take",), words=TAKE_DROP
    ),
}

Settings = Dict[str, Value]


class Path:
    """The values that one run of the machine takes: those given, otherwise each setting's own default."""

    def __init__(self, given: Mapping[str, Value]) -> None:
        self.taken: Settings = dict(given)
        self.asked: List[str] = []

    def choose(self, name: str) -> Value:
        """The value of a setting. The machine asks only where another value could change what it does."""
        if name not in self.taken:
            self.taken[name] = SETTINGS[name].default
            self.asked.append(name)
        return self.taken[name]


# The rules in docs/behaviour.md, and what explains other stacks.
BSD: Settings = {
    "overlap": "bsd",
    "odd": "refuse",
    "empty": "refuse",
    "ends": "highest",
    "whole": "leave",
    "expire": 30,
    "largest": 41592,
    "kept": ("flush", 255),
    "no checksum": "take",
    "surplus": "trim",
    "reserved": "take",
    "bad options": "drop",
    "own source": "take",
    "other source": "take",
    "zero broadcast": "drop",
    "loop destination": "take 127.0.0.1",
    "ecn": "take",
    "waiting": ("bsd", 0),
    "waiting without data": ("bsd", 0),
    "errors": "none",
    "several": "best, youngest",
    "several, broadcast": "all",
    "connected broadcast": "drop",
    "options": "drop",
    "bad source": "take",
    "bad source and loop": "take",
}

Play = Callable[[Path], object]
# The most runs of one case. After this many equal results, all machines count as alike.
MOST_RUNS = 600


def runs(play: Play, strict: bool, given: Mapping[str, Value] = {}) -> "List[Tuple[Settings, object]]":
    """All runs of a machine that differ in a setting that it reads, until two results differ or there are too many.
    strict: only values that keep the SHOULDs too. The last result differs from the first, or all are alike."""
    found: List[Tuple[Settings, object]] = []
    todo: List[Settings] = [dict(given)]
    while todo:
        fixed = todo.pop()
        path = Path(fixed)
        answer = play(path)
        found.append((path.taken, answer))
        if answer != found[0][1] or len(found) > MOST_RUNS:
            break
        for place, name in enumerate(path.asked):
            before = {earlier: path.taken[earlier] for earlier in path.asked[:place]}
            setting = SETTINGS[name]
            for value in setting.keeps if strict else setting.permitted:
                if value != setting.default:
                    todo.append({**fixed, **before, name: value})
    return found
