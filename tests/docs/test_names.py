"""The names on pages: each name of code exists, each item of a crate or a type is defined there, and so is each
definition that a page names. How many definitions share a name, and how wide lines of code are."""
import functools
import re
from typing import Iterator

import pytest

from tests.docs.pages import OF_THE_PAST, TOP, Fault, documents, in_code, lines, none_of, read, sources_of, table
from tools import crates

FOLDERS = [".ci", "bench", "capi", "conform", "crates", "dist", "examples", "page", "portable", "python", "simulators"]
FOLDERS += ["tests", "tools"]
# Files whose text isn't searched for names of code. Pages would find their own names.
NO_CODE = (".md", ".png", ".edit", ".pcap", ".pyc")
# Names that pages take from elsewhere: Linux, an RTOS, Python's sockets.
NAMES_OF_OTHERS = {
    "rp_filter",
    *(f"k_{it}" for it in ("msgq_put", "msgq_get", "mutex_lock", "event_post", "event_wait", "event_clear")),
    *("get_inheritable", "set_inheritable", "recvmsg_into", "sendmsg_afalg"),
}
# Names in the form of a crate's items: targets of find_package(bsdudp), and calls of ns-3.
ITEMS_OF_OTHERS = {f"bsdudp::{it}" for it in ("bsdudp", "static", "shared")}
ITEMS_OF_OTHERS |= {"Config::Connect", "Config::SetDefault", "Packet::Print"}
# These pages also name functions of volume 2, or rejected designs.
OF_OTHERS = {*OF_THE_PAST, *(f"docs/{it}.md" for it in ("DECISIONS", "behaviour", "book"))}
IMPORT = re.compile(r"\s*(?:ghost |pub )?(?:use|open) ")
DEFINED = re.compile(r"(?:(?:abbrev|unfoldable) pub|pub (?:record|data)|pub)\s+([^\s:(){}]+)\s")
STATE_WORD = re.compile(r"^(?:(?:abbrev|unfoldable) )?pub (\w+) : ([^=]*?)\n\1 ", re.M)
CLAUSE = re.compile(r" *(?:requires|ensures) (\w+) \{ ([A-Z]\w+)\b")
# How many labels a crate has that aren't in the table of words.md.
OTHER_LABELS = {"chain_ops": 1, "sock_calls": 5}
NAMES_TWICE = 60
WIDEST = 120


# ---- names in pages ------------------------------------------------------------------------------------------------


@functools.lru_cache(maxsize=None)
def words_of_code() -> frozenset[bytes]:
    """Returns each word in the code, in the scripts, and in the names of files."""
    letters = b"_0123456789abcdefghijklmnopqrstuvwxyzABCDEFGHIJKLMNOPQRSTUVWXYZ"
    between = bytes(it if it in letters else ord(" ") for it in range(256))
    words: set[bytes] = set()
    for path in [TOP / "crates.txt", *(it for folder in FOLDERS for it in sorted((TOP / folder).rglob("*")))]:
        inside = path.relative_to(TOP).parts
        if {"out", "__pycache__"} & set(inside) or not path.is_file() or path.name == "test_names.py":
            continue
        words.update(" ".join([*inside, path.stem.removeprefix("test_")]).encode().translate(between).split())
        if path.suffix not in NO_CODE:
            words.update(path.read_bytes().translate(between).split())
    return frozenset(words)


@pytest.mark.parametrize("path", [it for it in documents() if it not in OF_OTHERS])
def test_names_of_code(path):
    """Every name with an underscore, and each name before its `::`, is in the code."""
    known, faults = words_of_code(), []
    for place, line in lines(path):
        for code in in_code(line):
            names = code.split("::") if re.fullmatch(r"(?:\w+::)*[a-z]+(?:_[a-z0-9]+)+", code) else []
            unknown = [it for it in names if it.encode() not in known and it not in NAMES_OF_OTHERS]
            faults += [Fault(place, f"the code has no '{it}'") for it in unknown]
    none_of(faults)


@functools.lru_cache(maxsize=None)
def homes() -> dict[str, list[str]]:
    """Returns the crate for each crate's name, and the crates that define each type."""
    found = {name: [name] for name in crates.uses()}
    for name in crates.uses():
        for it in re.findall(r"\b(?:struct|enum|trait) (\w+)", source(name)):
            found.setdefault(it, []).append(name)
    return found


@functools.lru_cache(maxsize=None)
def source(crate: str) -> str:
    return "\n".join(map(read, sources_of(crate)))


@functools.lru_cache(maxsize=None)
def is_defined(crate: str, item: str) -> bool:
    """Returns whether a crate defines or exports an item, a variant, a field or a module with this name."""
    one = rf"\b(?:fn|struct|enum|trait|const|type|mod|static) {item}\b|\bpub use [^;]*\b{item}\b"
    one += rf"|(?m:^ +{item}\b)" if item[0].isupper() else rf"|(?m:^ +(?:pub(?:\(\w+\))? )?{item}:)"
    return re.search(one, source(crate)) is not None


@pytest.mark.parametrize("path", documents())
def test_items_of_crates(path):
    """Each `CRATE::ITEM` or `TYPE::ITEM` on a page, for a crate here or a type of one, is defined there."""
    faults = []
    for place, line in lines(path):
        for found in re.finditer(r"`&?(\w+)(?:::\w+)*::(\w+)(?:\([^`]*)?`", line):
            first, last = found.groups()
            if f"{first}::{last}" in ITEMS_OF_OTHERS or first not in homes():
                continue
            if not any(is_defined(it, last) for it in homes()[first]):
                faults.append(Fault(place, f"there is no {found[0].strip('`')}"))
    none_of(faults)


# ---- definitions and calls that pages name -------------------------------------------------------------------------


def has_definition(crate: str, module: str, name: str) -> bool:
    """Returns whether a file MODULE.antt in a crate's specs/ defines a name."""
    pattern = re.compile(rf"(?m)^ *(?:(?:abbrev|unfoldable) pub|pub (?:record|data)|pub) {re.escape(name)}(?![\w-])")
    return any(pattern.search(it.read_text("utf-8")) for it in TOP.glob(f"crates/{crate}/specs/**/{module}.antt"))


def named_definitions(text: str, crate: str = "") -> list[tuple[str, str, str]]:
    """Returns each `MODULE.NAME` in a text, and each further `NAME` after it, with the crate, named before as
    `CRATE:`."""
    found, module = [], ""
    for code, other in re.findall(r"`([^`]+)`|(\w+): ", text):
        crate = other or crate
        first, dot, name = code.split(" ")[0].partition(".")
        module = first if dot else module
        if code and crate and module and (dot or re.fullmatch(r"\w+", first)):
            found.append((crate, module, name if dot else first))
    return found


def definitions_of_pages() -> Iterator[tuple[str, tuple[str, str, str]]]:
    """Yields the definitions that pages for readers of the book name, each with its place."""
    for place, line in lines("docs/book.md"):
        if line.startswith("| ") and line.count("|") == 4:
            yield from ((place, it) for it in named_definitions(line.split("|")[3]))
    for place, line in lines("docs/model.md"):
        for it in re.findall(r"\[(`[^\]]+)\](?!\()", line):
            yield from ((place, one) for one in named_definitions(it, "flat_model"))


def test_definitions_of_pages():
    found = list(definitions_of_pages())
    assert len(found) > 150, "the tables and brackets aren't where the test looks for them"
    none_of(Fault(place, f"there is no {'.'.join(it[1:])} in {it[0]}") for place, it in found if not has_definition(*it))


def test_calls_of_the_book():
    """Each name of a call in the second column of docs/book.md is a function, a type or a variant in the code."""
    code = "\n".join(map(read, sources_of("*")))
    none_of(
        Fault(place, f"the code has no {name}")
        for place, line in lines("docs/book.md")
        if line.startswith("| ") and line.count("|") == 4
        for it in in_code(line.split("|")[2])
        for name in [it.split("::")[-1]]
        if re.fullmatch(r"\w+", name) and not re.search(rf"\b(fn|struct|enum|trait|type|const) {name}\b|\b{name}\b,?$", code, re.M)
    )


# ---- names and lines of the code -----------------------------------------------------------------------------------


def test_definitions_share_few_names():
    """At most NAMES_TWICE names are defined in two or more modules of specs/."""
    where: dict[str, list[str]] = {}
    for path in sorted((TOP / "crates").glob("*/specs/**/*.antt")):
        if "declared" not in path.parts:
            text = path.read_text(encoding="utf-8").splitlines()
            for name in {it[1] for line in text if (it := DEFINED.match(line)) and it[1] != "mod"}:
                where.setdefault(name, []).append(str(path.relative_to(TOP)))
    twice = {name: paths for name, paths in sorted(where.items()) if len(paths) > 1}
    if len(twice) > NAMES_TWICE:
        none_of(
            Fault(f"{paths[1]}:1", f"{paths[0]} defines `{name}`, too: {len(twice)} names do, and {NAMES_TWICE} may")
            for name, paths in twice.items()
        )


@pytest.mark.parametrize("name", crates.uses())
def test_a_fact_has_one_label(name):
    """A clause that states a fact of the table in words.md has one of its labels. OTHER_LABELS only shrinks."""
    rows = table("docs/maintain/words.md", "Labels of clauses", "Fact", "Label")[1]
    labels = {fact: in_code(row.cells[1]) for row in rows for fact in in_code(row.cells[0])}
    faults = [
        Fault(f"{path}:{number}", f"the label of `{it[2]}` isn't '{it[1]}'", " or ".join(labels[it[2]]), it[1])
        for path in sources_of(name)
        for number, line in enumerate(read(path).split("\n"), 1)
        if (it := CLAUSE.match(line)) and it[1] not in labels.get(it[2], [it[1]])
    ]
    if len(faults) != OTHER_LABELS.get(name, 0):
        none_of([*faults, Fault(__file__, f"{name} has {len(faults)} other labels, not OTHER_LABELS")])


def test_each_word_for_a_state_is_explained():
    """What a clause sees of the state has a row in words.md, so that a reader can look it up and nobody adds a synonym.
    The crates flat_* define the state itself."""
    rows = table("docs/maintain/words.md", "The state as a clause sees it", "Words", "Meaning")[1]
    explained = {code.split()[0] for row in rows for code in in_code(row.cells[0])}
    defined: dict[str, str] = {}
    for path in sorted((TOP / "crates").glob("[!f]*/specs/**/*.antt")):
        for name, kind in STATE_WORD.findall(path.read_text(encoding="utf-8")):
            if kind.split()[-1] in ("State", "NetView", "SendView"):
                defined[name] = f"{path.relative_to(TOP)}:1"
    faults = [Fault(place, f"`{it}` is a state, without a row") for it, place in defined.items() if it not in explained]
    none_of(faults + [Fault("docs/maintain/words.md:1", f"no state is `{it}`") for it in explained - set(defined)])


def wide_lines(folder: str, kind: str) -> list[Fault]:
    """Returns lines that are too wide, except imports, which rt fmt doesn't break."""
    return [
        Fault(f"{path.relative_to(TOP)}:{number}", f"the line has {len(line)} characters, and {WIDEST} is the most")
        for path in sorted((TOP / "crates").glob(f"*/{folder}/**/{kind}"))
        for number, line in enumerate(path.read_text(encoding="utf-8").splitlines(), 1)
        if len(line) > WIDEST and not IMPORT.match(line)
    ]


def test_widths_of_code():
    none_of(wide_lines("src", "*.rt") + wide_lines("specs", "*.antt"))


def test_widths_of_proofs():
    """In proofs, rt fmt joins some broken lines: fewer than one in a thousand may be too wide."""
    wide = wide_lines("proofs", "*.antt")
    paths = (TOP / "crates").glob("*/proofs/**/*.antt")
    if len(wide) * 1000 > sum(len(path.read_text(encoding="utf-8").splitlines()) for path in paths):
        none_of(wide)
