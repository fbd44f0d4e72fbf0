"""The attributes and the pools of docs/ns3.md are those of the sources. tests/ns3 tests whether each node receives the
same with the default pool as with ns-3's own stack."""
import re

from tests.cases import TOP

PAGE = (TOP / "docs/ns3.md").read_text(encoding="utf-8")
SOURCE = (TOP / "simulators/ns3/model/bsdudp-stack.cc").read_text(encoding="utf-8")
ATTRIBUTE = re.compile(
    r'AddAttribute\(\s*"(\w+)",.*?(\w+)Value\((?:MilliSeconds\(|Ipv4Address\()?"?([\d.]+)"?\)+,.*?Make\w+Checker(?:<\w+>)?\(([^()]*)',
    re.DOTALL,
)


def attributes():
    """By their names: the default as the page writes it, and the least and the greatest value."""
    found = {}
    for name, kind, default, limits in ATTRIBUTE.findall(SOURCE):
        found[name] = (default + " ms" * (kind == "Time"), [int(it) for it in re.findall(r"\d+", limits)])
    return found


def rows(head):
    """The rows of the page's table whose first column has this head."""
    table = re.search(rf"(?m)^\| {re.escape(head)} \|.*\n\|[-|]*\n((?:\|.*\n)+)", PAGE)
    assert table, f"docs/ns3.md has no table of {head}"
    return [[cell.strip() for cell in line.strip("|").split("|")] for line in table[1].splitlines()]


def test_the_attributes_have_their_defaults():
    wanted = {f"`{name}`": default for name, (default, _) in attributes().items()}
    assert {name: default for name, default, _ in rows("Attribute")} == wanted


def test_the_attributes_have_their_ranges():
    words = {name.strip("`"): meaning for name, _, meaning in rows("Attribute")}
    for name in ("Mbufs", "Clusters"):
        least, most = attributes()[name][1]
        assert f"{least} to {most:,}" in words[name]


def test_the_pools_are_the_default_and_the_largest():
    mbufs, clusters = (attributes()[name] for name in ("Mbufs", "Clusters"))
    pools = [pool for pool, *_ in rows("`Mbufs`, `Clusters`")]
    assert f"{int(mbufs[0]):,}, {int(clusters[0]):,} (the default)" in pools
    assert f"{mbufs[1][1]:,}, {clusters[1][1]:,} (the largest)" in pools
