"""What pages say about the crates: their names and the crates that each uses, the toolchain's libraries, files with raw
pointers, calls that other crates make, and mutants that the prover rejects."""
import functools
import re

import pytest

from tests.definitions import joined
from tests.docs.pages import TOP, Fault, in_code, lines, none_of, part, read, sources_of, table
from tools import crates, edits

ARCHITECTURE = "docs/maintain/architecture.md"


# ---- names ---------------------------------------------------------------------------------------------------------


def lists() -> dict[str, list[str]]:
    """Returns the crates, in the order of each file that lists all of them."""
    return {
        "crates.txt": list(crates.uses()),
        "crates/README.md": re.findall(r"\[(\w+)\]\(\1/README\.md\)", read("crates/README.md")),
    }


@pytest.mark.parametrize("path", ["crates.txt", "crates/README.md"])
def test_each_crate_has_a_line(path):
    """Each crate is listed once, after the crates that it uses."""
    used, names = crates.uses(), lists()[path]
    there = sorted(it.parent.name for it in TOP.glob("crates/*/src"))
    faults = [Fault(f"{path}:1", "this crate is missing", it) for it in there if it not in names]
    odd = dict.fromkeys(it for it in names if names.count(it) > 1 or it not in there)
    faults += [Fault(f"{path}:1", f"the crate {it} is listed twice, or there is no such crate") for it in odd]
    below = [(it, low) for it in names for low in used.get(it, []) if low in names[names.index(it) :]]
    none_of([*faults, *(Fault(f"{path}:1", f"{it} uses {low}, so it has to follow it") for it, low in below)])


def test_libraries_that_are_trusted():
    """docs/proved.md names exactly the toolchain's libraries that a crate uses."""
    path, used = "docs/proved.md", crates.uses()
    wanted = {it for uses in used.values() for it in uses if it not in used}
    _, rows = table(path, "Trusted", "What", "Who relies on it")
    told = {it for it in in_code(rows[0].cells[0]) if re.fullmatch(r"[a-z_0-9]+", it)} - {"std"}
    faults = [Fault(f"{path}:1", "under 'Trusted' a library is missing", it) for it in sorted(wanted - told)]
    none_of(faults + [Fault(f"{path}:1", f"under 'Trusted': no crate uses {it}") for it in sorted(told - wanted)])


# ---- their code ----------------------------------------------------------------------------------------------------


def test_raw_pointers():
    """docs/proved.md names each file that has raw pointers."""
    faults = []
    for path in sources_of("*"):
        if re.search(r"\*(?:mut|const) |\bunsafe \{", re.sub(r"//[^\n]*", "", read(path))):
            if f"`{path}`" not in read("docs/proved.md"):
                faults.append(Fault("docs/proved.md:1", "a file with raw pointers isn't named", path))
    none_of(faults)


@functools.lru_cache(maxsize=None)
def sources() -> dict[str, str]:
    """Returns the code of each crate."""
    return {name: "\n".join(map(read, sources_of(name))) for name in crates.uses()}


def test_calls_on_the_way_of_a_packet():
    """The architecture names calls that their crates have, and that another crate of the stack makes."""
    faults, stack, before = [], sources(), read(ARCHITECTURE).partition("## The path of a packet")[0]
    text = read(ARCHITECTURE).partition("## The path of a packet")[2].partition("\n## ")[0]
    callers = [name for name in stack if not re.search(r"_tests$|^bench_|^callers$", name)]
    for it in re.finditer(rf"\b({'|'.join(stack)})::(\w+)((?:, \w+(?=[:\s,`]))*)", text):
        place = f"{ARCHITECTURE}:{before.count(chr(10)) + text.count(chr(10), 0, it.start()) + 1}"
        for name in [it[2], *re.findall(r"\w+", it[3])]:
            if not name.islower() or name in stack:
                continue
            if not re.search(rf"pub fn {name}\b", stack[it[1]]):
                faults.append(Fault(place, f"{it[1]} has no call {name}"))
            elif not any(re.search(rf"\b{name}\(", stack[who]) for who in callers if who != it[1]):
                faults.append(Fault(place, f"no crate of the stack calls {it[1]}::{name}"))
    none_of(faults)


def test_functions_in_the_picture_of_a_packet():
    """A line of the picture begins with a function of the crate that it names, of the line above it that has less
    indentation, or of net_stack."""
    faults, section, above = [], "", []
    for place, line in lines(ARCHITECTURE):
        section = line if line.startswith("## ") else section
        it = re.match(r"    [ |\\]{0,20}(\w+(?:::\w+)*)", line)
        if section != "## The path of a packet" or not it:
            continue
        above = [(column, crate) for column, crate in above if column < it.start(1)]
        first, *_, name = it[1].split("::") if "::" in it[1] else ("", it[1])
        crate = first if first in sources() else above[-1][1] if above else "net_stack"
        above.append((it.start(1), crate))
        if not re.search(rf"\bfn {name}\b", sources()[crate]):
            faults.append(Fault(place, f"{crate} has no function {name}"))
    none_of(faults)


# ---- mutants -------------------------------------------------------------------------------------------------------


def refused_by_security() -> list[str]:
    """Returns the mutants that an entry in docs/security.md names."""
    entries = re.split(r"\n(?=- )", part("docs/security.md", "## Class by class\n", "\n## "))
    return [name for it in entries for name in in_code(it.partition("Refused:")[2])]


def always_tried() -> list[str]:
    """Returns the mutants in the table of mistakes that the gate always tries."""
    heads = ["Mistake", "Mutants", "Seen in"]
    _, rows = table("docs/maintain/testing.md", "Mistakes that the gate always tries", *heads)
    return [name for row in rows for name in in_code(row.cells[1])]


@pytest.mark.parametrize(
    "page, named", [("docs/security.md", refused_by_security), ("docs/maintain/testing.md", always_tried)]
)
def test_bodies_that_are_refused(page, named):
    """Each mutant that this page names as tried by the gate is in must-fail/."""
    names = named()
    assert names, f"{page}:1: the page names no mutant"
    none_of(
        Fault(f"{page}:1", f"no must-fail/ has {name}.edit")
        for name in names
        if not list(TOP.glob(f"crates/*/must-fail/{name}.edit"))
    )


@pytest.mark.parametrize("crate", sorted(it.name for it in TOP.glob("crates/*")))
def test_mutants_apply(crate):
    """Each mutant of a crate still applies: its file contains each text that it replaces exactly once."""
    none_of(Fault(place.removeprefix(f"{TOP}/"), why) for place, why in edits.faults(TOP / "crates" / crate))


# Tables of mutants, and the beginning of what is said of each: its line, and why.
ONE, TWO = ("file: src/lib.rt\nold: one\nnew: two", "file: src/lib.rt\nold: 1\nnew: 3\nold: 1\nnew: 4")
TABLES = {
    "no empty line before a name": (f"a\n{ONE}\nb\n{ONE}\n", ["5: a doesn't apply: a line must begin with"]),
    "a text that isn't there": (f"a\n{ONE}\n\n\nb\n{TWO}\n", ["11: b doesn't apply: src/lib.rt must have"]),
    "a name that stands twice": (f"a\n{ONE}\n\na\n{ONE}\n", ["6: a mutant must have a separate name of"]),
    "no fault": (f"a\n{ONE}\n\nb\n{ONE}\n", []),
}  # fmt: skip


@pytest.mark.parametrize("what", TABLES)
def test_a_fault_of_a_mutant_has_its_line(what, tmp_path):
    text, wanted = TABLES[what]
    (tmp_path / "src").mkdir()
    (tmp_path / "src/lib.rt").write_text("one 1\n", encoding="utf-8")
    (tmp_path / edits.TABLE).write_text(text, encoding="utf-8")
    found = [f"{place}: {why}".removeprefix(f"{tmp_path / edits.TABLE}:") for place, why in edits.faults(tmp_path)]
    assert len(found) == len(wanted) and all(map(str.startswith, found, wanted)), found


def test_each_crate_has_a_mutant():
    """The gate tries a mutant of each crate, except those that DECISIONS.md names."""
    without = {name for name in crates.uses() if not edits.edits_of(TOP / "crates" / name, edits.FOLDER)}
    programs = {path.parts[-3] for path in TOP.glob("crates/*/src/main.rt")}
    tests = {"flat_tests", "protocols_tests", "bench_packets", "bench_stack"}
    in_tables = {name for name in crates.uses() if name.startswith("play_")}
    in_tables |= {"flat_plain", "segment", "capture", "page", "libbsdudp"}
    assert without == programs | tests | in_tables


def test_wrong_definitions_apply_to_the_joined_crate(tmp_path):
    """tests/definitions can join flat_model and flat_wire in one crate, and each wrong definition applies there."""
    joined.make(TOP / "crates", tmp_path)
    there = edits.edits_of(TOP / "crates" / joined.NAME, edits.DEFINITIONS)
    assert there
    for text in there.values():
        assert set(edits.applied(edits.pairs_in(text), tmp_path)) <= {f"specs/Machine/{name}.antt" for name in ("State", "Send")}
