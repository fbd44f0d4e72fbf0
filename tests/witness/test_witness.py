"""bsdudp compared with code that descends from BSD, built from Debian's sources: chains with the mbuf calls of
libusrsctp, packets with libslirp. docs/proved.md lists the parts that are compared."""
from __future__ import annotations

import collections
import pathlib
import random
import subprocess

import pytest

from tests.conftest import left_out
from tests.packets import MORE, RESERVED, ip, udp
from tests.witness import chains, datagrams
from tests.witness.player import Player

HERE = pathlib.Path(__file__).resolve().parent
TOP = HERE.parent.parent
CHAINS = pytest.mark.needs("cc -m32", "apt-get", "dpkg-source")
PACKETS = pytest.mark.needs("cc", "apt-get", "dpkg-source", "pkg-config", "glib")


@pytest.fixture
def witness(once, pytestconfig):
    """witness(KIND, PACKAGE) returns the program that `build` makes of the package's source."""

    def built(kind, package):
        def make(where):
            words = [TOP / "tools/debian-source", where, package]
            done = subprocess.run(words, capture_output=True, text=True, check=False)
            if done.returncode:
                (where / "lacks").write_text(done.stderr, encoding="utf-8")
                return
            subprocess.run([HERE / "build", kind, done.stdout.strip(), where / "witness"], check=True)

        where = once(package, make)
        if (where / "lacks").exists():
            left_out(pytestconfig, (where / "lacks").read_text(encoding="utf-8").strip())
        return where / "witness"

    return built


@pytest.fixture
def mbufs(witness):
    return witness("mbufs", "libusrsctp")


@pytest.fixture
def slirp(witness):
    return witness("slirp", "libslirp")


# ---- chains --------------------------------------------------------------------------------------------------------


@CHAINS
def test_chains(bsdudp, mbufs):
    counts: collections.Counter[str] = collections.Counter()
    for seed in range(20):
        rng = random.Random(seed)
        sizes = zip(("--mbufs", "--clusters"), rng.choice(chains.POOLS))
        with Player(bsdudp, "chain", *(it for pair in sizes for it in pair)) as ours, Player(mbufs) as theirs:
            for _ in range(20):
                chains.compare(ours, theirs, rng, counts)
    assert counts["strings"] > 50000 and counts["shared in the witness alone"] < 20, counts
    assert all(counts[f"{name}: ok"] > 500 for name in chains.NAMES), counts


def octets(count):
    return "61" * count


# The calls whose layouts differ: lines, and the mbufs of chain 0 after them, here and by libusrsctp. A `prepend`, which
# uses the space before the data, shows their start. `show` doesn't show that M_PKTHDR stays set inside a chain.
LAYOUTS = {
    "m_adj leaves no mbuf without bytes at the back": ([f"user 0 {octets(150)}", "adj 0 -60"], "P90 P0", "P90"),
    "m_adj leaves m_data of an emptied mbuf": (
        [f"wire 0 {octets(20)}", "adj 0 20", f"prepend 0 {octets(8)}"], "P8", "P8 P0",
    ),
    "m_prepend uses the space in a cluster": (
        [f"user 0 {octets(300)}", f"prepend 0 {octets(8)}"], "P8 C300x1", "C308x1",
    ),
    "m_pullup copies an only mbuf": ([f"user 0 {octets(80)}", "pullup 0 10"], "P80", "P40 P40"),
    "m_pullup copies bytes up to the last of the mbuf": (
        [f"user 0 {octets(76)}", f"wire 1 {octets(60)}", "cat 0 1", "pullup 0 76", f"prepend 0 {octets(8)}"],
        "P84 P60", "P8 P76 P60",
    ),
    "m_pullup moves 40 bytes into a plain mbuf": (
        [f"wire 0 {octets(10)}", f"wire 1 {octets(100)}", "cat 0 1", "pullup 0 20"], "P20 P90", "P50 P60",
    ),
    "m_pullup stops at the mbuf with the last byte": (
        [f"wire 0 {octets(208)}", "adj 0 188", f"wire 1 {octets(100)}", "cat 0 1", "pullup 0 20"],
        "P40 P80", "P20 P100",
    ),
    "m_split refers to a cluster that ends at the cut": (
        [f"wire 1 {octets(2100)}", "split 0 1 2048"], "P0 P52", "C0x2 P52",
    ),
    "m_split puts an empty header mbuf's data at its end": (
        [f"wire 1 {octets(207)}", "split 0 1 100", f"prepend 0 {octets(8)}"], "P8 P0 P107", "P8 P107",
    ),
    "m_split puts a rest at the end": (
        [f"wire 2 {octets(150)}", "copym 1 2 100 50", "split 0 1 20", f"prepend 0 {octets(8)}"], "P8 P30", "P38",
    ),
}  # fmt: skip


@CHAINS
@pytest.mark.parametrize("name", LAYOUTS)
def test_layouts_that_differ(name, bsdudp, mbufs):
    lines, our, their = LAYOUTS[name]
    with Player(bsdudp, "chain") as ours, Player(mbufs) as theirs:
        for player, layout in (ours, our), (theirs, their):
            *replies, shown = player.ask(*lines, "show 0")
            assert replies == ["ok"] * len(lines)
            assert shown.split(" ", 2)[2] == layout


# ---- packets -------------------------------------------------------------------------------------------------------

KINDS = {"fragments": (60, 300), "odd_fragments": (30, 150), "wholes": (30, 1000)}


@PACKETS
@pytest.mark.parametrize("kind", KINDS)
def test_delivery(kind, bsdudp, slirp):
    seeds, least = KINDS[kind]
    count = 0
    for seed in range(seeds):
        pairs = getattr(datagrams, kind)(random.Random(seed))
        with Player(bsdudp, "run", *datagrams.ROOM) as ours, Player(slirp) as theirs:
            count += datagrams.delivered(ours, theirs, pairs)
    assert count > least


@PACKETS
def test_sends(bsdudp, slirp):
    count = 0
    for seed in range(20):
        rng = random.Random(seed)
        mtu = rng.choice([*datagrams.MTUS, rng.randint(68, 4352)])
        with Player(bsdudp, "run", "--mtu", mtu, *datagrams.ROOM) as ours, Player(slirp, mtu) as theirs:
            count += datagrams.sent(ours, theirs, rng, mtu)
    assert count > 2000


HI = udp(b"hi")
TWO = udp(b"a" * 16)
LONG = udp(b"a" * 65512)
WHOLE_OF_TWO = f"from 10.0.0.2 5000 {TWO[8:].hex()}"
# The differences in behaviour.md: packets, and the delivery after the last one, here and by the witness.
DIFFERENCES = {
    "options are dropped": ([ip(HI, options=bytes(4))], "ok", "from 10.0.0.2 5000 6869"),
    "a UDP length below 8": ([ip(HI[:4] + bytes([0, 7, 0, 0]) + HI[8:])], "ok", "from 10.0.0.2 5000 -"),
    "more to come and no multiple of 8": ([ip(TWO[:13], place=MORE), ip(TWO[8:], place=1)], "ok", WHOLE_OF_TWO),
    "a fragment without data": ([ip(TWO, place=MORE), ip(b"", place=3)], "ok", WHOLE_OF_TWO),
    "more than 65,515 bytes": (
        [ip(LONG[:65504], place=MORE), ip(LONG[65504:], place=8188)], "ok", f"from 10.0.0.2 5000 {LONG[8:].hex()}",
    ),
    "a whole packet with the reserved flag": (
        [ip(TWO[:8], place=MORE), ip(HI, place=RESERVED), ip(TWO[8:], place=1)], WHOLE_OF_TWO, "ok",
    ),
}  # fmt: skip


@PACKETS
@pytest.mark.parametrize("name", DIFFERENCES)
def test_packets_that_differ(name, bsdudp, slirp):
    packets, our, their = DIFFERENCES[name]
    with Player(bsdudp, "run") as ours, Player(slirp) as theirs:
        ours.ask("socket", "bind 3 0.0.0.0 7")
        for packet in packets:
            *_, said = ours.ask(datagrams.rx(packet), "recvfrom 3 100")
            (other,) = theirs.ask(datagrams.rx(packet))
        assert (said.replace("error 35 EWOULDBLOCK", "ok"), other) == (our, their)
