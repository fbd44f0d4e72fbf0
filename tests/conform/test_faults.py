"""Faults of reassembly and of sockets, each planted in small_stack.py: the judge must report it under its own rule, and
must report nothing about the stack without a fault."""
import functools
import pathlib
import sys

import pytest

from bsdudp_conform import cases
from bsdudp_conform._judge import judge
from tests.conform.conftest import PATHS

pytestmark = pytest.mark.slow
STACK = pathlib.Path(__file__).with_name("small_stack.py")
RULES = ("frag.hole", "frag.overlap", "frag.time", "frag.key", "udp.ports", "udp.source", "socket.")
PEER = "it.peer in (None, sender)]"
FOUND = f"found = [it for it in self.sockets if it.port == port and {PEER}"
EXPIRED = """for key in [key for key, it in self.unfinished.items() if self.now - it.born >= LIFE_MS]:
            del self.unfinished[key]"""
WITH_THE_NEXT = """old = [key for key, it in self.unfinished.items() if self.now - it.born >= LIFE_MS]
        for key in list(self.unfinished)[: len(old) + 1] if old else []:
            del self.unfinished[key]"""
JOINED = """            if it.begin != at:
                return None
            at = it.end
        return None if self.pieces[-1].more else b"".join(it.data for it in self.pieces)"""
FILLED = """            at = it.end
        if self.pieces[-1].more or self.count < at:
            return None
        ends = [0, *(it.end for it in self.pieces)]
        return b"".join(bytes(it.begin - end) + it.data for it, end in zip(self.pieces, ends))"""
COVERED = "            del self.pieces[place]\n        self.pieces.insert"
DATA = "        data: bytes | None = packet"
RECEIVERS = "        for it in self.receivers("
ADDRESS = "            address = "
KNOWN = """        it = self.unfinished.setdefault(key, Unfinished(self.now))
        self.known = it.known = getattr(it, "known", None) or [(one, one.peer) for one in self.sockets]
"""

KEY = "tuple[int, int, int, int]"
ONCE = """old = [key for key, it in self.unfinished.items() if self.now - it.born >= LIFE_MS]
        for key in [] if hasattr(self, "expired") else old:
            self.expired = True
            del self.unfinished[key]"""
BUCKET = """        for old in [it for it in self.unfinished if it != key and it[2] % 16 == key[2] % 16]:
            del self.unfinished[old]
"""
OPENED = "        self.sockets.append(Socket(socket, port))\n"
GIVEN = "            self.got(*sender, socket)\n"
KEPT = """        if not any(it.port == port for it in self.sockets):
            sender = ".".join(map(str, source.to_bytes(4, "big"))), sport, data[8:length]
            self.__dict__.setdefault("early", {}).setdefault(port, []).append(sender)
"""
PEER_OF, FOUR_BYTES = "self.sockets[socket].peer", 'int.from_bytes(parts, "big")'
PEER_SET = f"{PEER_OF} = ({FOUR_BYTES}, port)"

# A fault, pairs of old and new text in small_stack.py, and the rule that must report it.
FAULTS = [
    (
        "a fragment's front is cut, and its bytes aren't advanced",
        [("new.cut_front(over)", "new.begin, new.data = new.begin + over, new.data[:-over]")],
        "frag.overlap",
    ),
    (
        "the front of the fragment after it is cut, and its bytes aren't advanced",
        [("after.cut_front(over)", "after.begin, after.data = after.begin + over, after.data[:-over]")],
        "frag.overlap",
    ),
    (
        "of several fragments that a new one covers the first alone is freed",
        [
            (COVERED, COVERED.replace("\n", "\n            break\n", 1)),
            ("if it.begin != at:", "if it.begin > at:"),
            ("at = it.end", "at = max(at, it.end)"),
        ],
        "frag.overlap",
    ),
    (
        "a datagram is whole once as many bytes came as the last fragment's end says",
        [
            ("        self.born = now", "        self.born, self.count = now, 0"),
            ("        place = sum(", "        self.count += len(new.data)\n        place = sum("),
            (JOINED, FILLED),
        ],
        "frag.hole",
    ),
    (
        "when one unfinished datagram expires, the one begun after it goes too",
        [(EXPIRED, WITH_THE_NEXT)],
        "frag.time.keep",
    ),
    (
        "the ports of a datagram in fragments are those of the last first fragment",
        [
            (DATA, f"        if place % 0x2000 == 0:\n            self.ports = packet[size:].ljust(4)[:4]\n{DATA}"),
            ("self.datagram(source, destination, data, ", "self.datagram(source, destination, self.ports + data[4:], "),
            ("if check and folded", "if check and not cut and folded"),
        ],
        "udp.source",
    ),
    (
        "the source port is swapped",
        [("self.got(address, sport,", "self.got(address, sport % 256 << 8 | sport >> 8,")],
        "udp.source",
    ),
    (
        "the source address of a datagram in fragments is that of the last whole datagram",
        [
            (RECEIVERS, f'        self.last = getattr(self, "last", source) if cut else source\n{RECEIVERS}'),
            ("source.to_bytes", "self.last.to_bytes"),
        ],
        "udp.source",
    ),
    (
        "an old peer that was heard is heard after another connect",
        [
            ("        self.peer: tuple", "        self.heard: set[tuple[int, int]] = set()\n        self.peer: tuple"),
            (PEER, "(it.peer in (None, sender) or sender in it.heard)]"),
            (ADDRESS, f"            it.heard |= {{(source, sport)}} if it.peer else set()\n{ADDRESS}"),
        ],
        "socket.connected",
    ),
    (
        "a peer's port isn't compared for a datagram in fragments",
        [(PEER, "(it.peer in (None, sender) or cut and it.peer[0] == sender[0])]")],
        "socket.connected",
    ),
    (
        "a peer's port is compared by its last byte",
        [(PEER, "(it.peer is None or it.peer[0] == sender[0] and it.peer[1] % 256 == sender[1] % 256)]")],
        "socket.connected",
    ),
    (
        "a peer's address is compared by its last byte",
        [(PEER, "(it.peer is None or it.peer[0] % 256 == sender[0] % 256 and it.peer[1] == sender[1])]")],
        "socket.connected",
    ),
    (
        "a broadcast's copies have the first 100 bytes alone",
        [("data[8:length], it.number)", "data[8 : 108 if it.number and destination != HOST else length], it.number)")],
        "socket.several",
    ),
    (
        "a peer isn't compared for a broadcast",
        [(PEER, "(it.peer in (None, sender) or destination != HOST)]")],
        "socket.connected",
    ),
    (
        "sockets and peers are those of the time when the first of the fragments came",
        [
            ("        it = self.unfinished.setdefault(key, Unfinished(self.now))\n", KNOWN),
            (FOUND, "found = [it for it, peer in self.known if it.port == port and peer in (None, sender)]"),
            (DATA, f"        self.known = [(it, it.peer) for it in self.sockets]\n{DATA}"),
        ],
        "socket.",
    ),
    (
        "source and identification are compared by their sum",
        [("((source, destination, id, protocol),", "((source + id, destination, 0, protocol),")],
        "frag.key",
    ),
    (
        "protocol and identification are compared by their exclusive or",
        [("((source, destination, id, protocol),", "((source, destination, id ^ protocol, 0),")],
        "frag.key",
    ),
    (
        "of several datagrams that expire at once the first alone is freed",
        [("if self.now - it.born >= LIFE_MS]:", "if self.now - it.born >= LIFE_MS][:1]:")],
        "frag.time.drop",
    ),
    (
        "an identification that comes again keeps the time of its first datagram",
        [
            ("        self.now = 0\n", f"        self.now = 0\n        self.births: dict[{KEY}, int] = {{}}\n"),
            ("Unfinished(self.now))", "Unfinished(self.births.setdefault(key, self.now)))"),
        ],
        "frag.time.keep",
    ),
    ("nothing expires any more after the first time", [(EXPIRED, ONCE)], "frag.time.drop"),
    (
        "of two unfinished datagrams in one of 16 buckets the first is dropped",
        [("        it = self.unfinished.setdefault(key", f"{BUCKET}        it = self.unfinished.setdefault(key")],
        "frag.key",
    ),
    (
        "a datagram to a port without a socket is kept for the one that is bound to it",
        [
            (OPENED, f"{OPENED}        for sender in self.__dict__.get('early', {{}}).pop(port, []):\n{GIVEN}"),
            (RECEIVERS, f"{KEPT}{RECEIVERS}"),
        ],
        "socket.ports",
    ),
    (
        "a further socket gets no datagram without data",
        [(ADDRESS, f"            if it.number and length == 8:\n                continue\n{ADDRESS}")],
        "socket.ports",
    ),
    (
        "a connected socket gets no datagram without data",
        [(ADDRESS, f"            if it.peer and length == 8:\n                continue\n{ADDRESS}")],
        "socket.connected",
    ),
    (
        "another connect changes the peer's address, and leaves its port",
        [(PEER_SET, f"old = {PEER_OF}\n        {PEER_OF} = ({FOUR_BYTES}, old[1] if old else port)")],
        "socket.connected",
    ),
]


@functools.lru_cache(maxsize=None)
def chosen():
    return [it for it in cases.make(1, 0) if it.rule.startswith(RULES)]


def broken(edits, scratch):
    """Returns the rules that the stack breaks with these edits, and the number of deviations."""
    text = STACK.read_text(encoding="utf-8")
    for old, new in edits:
        assert text.count(old) == 1, f"{old!r} stands in small_stack.py {text.count(old)} times"
        text = text.replace(old, new)
    (scratch / "stack.py").write_text(text, encoding="utf-8")
    judged = judge([sys.executable, str(scratch / "stack.py")], chosen(), progress=False)
    rules = [it.breach.rule for it in judged.deviations]
    return {rule: rules.count(rule) for rule in rules}


@pytest.fixture(autouse=True)
def for_adapters(monkeypatch):
    monkeypatch.setenv("PYTHONPATH", PATHS)


def test_the_stack_without_a_fault_breaks_nothing(tmp_path):
    assert not broken([], tmp_path)


@pytest.mark.parametrize("edits, rule", [it[1:] for it in FAULTS], ids=[it[0] for it in FAULTS])
def test_a_fault_is_named_by_its_rule(edits, rule, tmp_path):
    found = broken(edits, tmp_path)
    assert found and max(found, key=found.get).startswith(rule), f"it breaks {found or 'nothing'}"
