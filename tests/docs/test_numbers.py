"""The numbers on pages that a program can count or that two tables share."""
import re

import pytest

from tests.docs.pages import TOP, Fault, cell_of, documents, lines, none_of, number, read, sources_of, table
from tools import crates, edits
from tools.listed import SPECS

PERFORMANCE = "docs/performance.md"
LENGTHS = ["2 bytes", "1,472", "9,000"]
ALONE = ("A datagram from one stack to another", ["Datagram", *LENGTHS])
BESIDE = ("Compared with lwIP", ["", *LENGTHS, "seven fragments"])


# ---- counted numbers -----------------------------------------------------------------------------------------------


def functions() -> int:
    """Returns the number of functions with a body in the sources, without derived ones and those of tests."""
    head = re.compile(r'(?m)^( *)(?:pub(?:\(\w+\))? )?(?:const )?(?:unsafe )?(?:extern "C" )?fn \w+')
    count = 0
    for path in sources_of("*"):
        folders = path.split("/")
        root = TOP.joinpath(*folders[:3], "lib.rt")
        tests = re.findall(r"#\[cfg\(test\)\]\n *mod (\w+);", root.read_text("utf-8")) if root.exists() else []
        if folders[3].removesuffix(".rt") in tests or "tests" in path.removesuffix(".rt").split("/"):
            continue
        text = read(path)
        for it in head.finditer(text):
            # A function of a trait without a body ends with a semicolon.
            end = re.compile(rf"(?m)(;|\{{\}}| \{{|^{it[1]}\{{)$").search(text, it.end())
            count += end is not None and end[1] != ";"
    return count


def mutants(*places: str) -> int:
    return sum(len(edits.edits_of(crate, place)) for crate in TOP.glob("crates/*/") for place in places)


# The clauses of exports that are a step of the machine, and of those that are a function of its state.
STEPS = "AnswersCall|IsOpened|AnswersSend|IsReceived|AnswersArrival|AnswersFate|AnswersTransmit|HasTicked"
COUNTS = "ReportsCounter|ReportsUsage"


def exports() -> dict[str, int]:
    """Returns the number of exports of the C library's core of each kind, except boot, end and mark: steps of the
    machine, queries of its state, and calls of the link."""
    found = {"step": 0, "query": 0, "link": 0}
    for path in sources_of("libbsdudp"):
        for name, head in re.findall(r'extern "C" fn bsdudp_core_(\w+)(.*?)\n\{', read(path), re.S):
            if name.startswith("ether_"):
                found["link"] += 1
            elif name not in ("boot", "end", "mark"):
                is_step = re.search(rf"\b({STEPS}|{COUNTS})\b", head)
                assert is_step or "AnswersQuestion" in head, f"{path}: which kind of call is bsdudp_core_{name}?"
                found["step" if is_step else "query"] += 1
    return found


def deepest() -> int:
    """Returns the largest number of bytes on the call stack in a call of the C library, except boot, end and rehost."""
    rows = table("docs/memory.md", "Call stack", "Call", "x86-64", "Cortex-M3, painted", "Cortex-M3, bound")[1]
    large = r"_(boot|boot_in|end|rehost)\b|other"
    return max(number(row.cells[1]) for row in rows if not re.search(large, row.cells[0]))


def lines_of_definitions() -> int:
    return sum(len(path.read_text(encoding="utf-8").splitlines()) for path in SPECS.rglob("*.antt"))


def lines_of_code(*places: str) -> int:
    """Returns the lines of C, C++ or JavaScript in these files, without comments and empty lines."""
    texts = [path.read_text(encoding="utf-8") for place in places for path in TOP.glob(place)]
    return sum(bool(line.strip()) for it in texts for line in re.sub(r"(?s)/\*.*?\*/|//[^\n]*", "", it).split("\n"))


def lines_of_python(*places: str) -> int:
    """Returns the lines of Python in these files, without comments and empty lines."""
    texts = [path.read_text(encoding="utf-8") for place in places for path in TOP.glob(place)]
    return sum(re.match(r"\s*(#|$)", line) is None for it in texts for line in it.split("\n"))


REWRITING = [f"tools/{it}.py" for it in ("llvm", "retarget", "widths", "narrow")] + ["portable/core"]


def deviations(stack: str, level: str = "") -> int:
    """Returns the number of the judge's cases in which a stack deviates, or deviates at this level."""
    found = re.findall(r"(?m)^([A-Z]+) (\S+)$", read(f"conform/known/{stack}.txt"))
    return len({case for its, case in found if level in ("", its)})


def cases() -> int:
    """Returns the number of the judge's cases, as the sum of all rows."""
    stacks = ["bsdudp", "on an Ethernet", "Linux 6.18", "lwIP 2.1.3", "gVisor", "libslirp 4.7.0", "passt", "ns-3 3.37"]
    rows = table("docs/results.md", "Eight stacks", "Rules (cases)", *stacks, "DPDK 22.11")[1]
    return sum(number(re.search(r"\(([\d,]+)\)$", row.cells[0])[1]) for row in rows[:-1])


def imported(path: str, found: list[str]) -> list[str]:
    """Adds a file of definitions, and those of this repository that it imports, except the stack's own state."""
    if path not in found and TOP.joinpath(path).is_file() and not path.startswith("crates/net_stack/specs/Stack"):
        found.append(path)
        for crate, names in re.findall(r"(?m)^(?:pub )?use Rattle\.(\w+)\.specs\.((?:[A-Z]\w*\.)*[A-Z]\w*)", read(path)):
            imported(f"crates/{crate}/specs/{names.replace('.', '/')}.antt", found)
    return found


def test_what_to_read():
    """proved.md lists each file that says what a run of calls is, with its lines."""
    rows = table("docs/proved.md", "What to read", "Files", "Definitions")[1]
    pairs = [it for row in rows for it in re.findall(r"`([\w/]+\.antt)` (\d+)", row.cells[0])]
    said = {name if name.startswith("crates/") else f"crates/flat_model/specs/{name}": int(n) for name, n in pairs}
    found = imported("crates/flat_model/specs/Runs/Run.antt", ["crates/net_stack/specs/Runs.antt"])
    assert said == {path: len(read(path).splitlines()) for path in found}


# The text of a page, and the right number. After `about` it may be a twentieth too large or too small, so that a change
# of a few lines needs no change of a page.
COUNTED = [
    ("README.md", "functions in N crates are proved", lambda: len(crates.uses())),
    ("README.md", "about N functions", functions),
    ("README.md", "about N mutants", lambda: mutants("must-fail", edits.TABLE)),
    ("README.md", "rejects the N likeliest", lambda: mutants("must-fail")),
    ("README.md", "about N lines of definitions", lines_of_definitions),
    ("README.md", "about N lines of C", lambda: lines_of_code("capi/src/*.c")),
    ("README.md", "from the RFCs](docs/results.md#eight-stacks), of N cases", cases),
    ("README.md", "cases | N, on an Ethernet", lambda: deviations("bsdudp")),
    ("README.md", "on an Ethernet N; no wrong byte", lambda: deviations("bsdudp-ethernet")),
    ("README.md", "| N, 161 of them wrong bytes", lambda: deviations("lwip")),
    ("README.md", "305, N of them wrong bytes", lambda: deviations("lwip", "NEVER")),
    ("README.md", "161 of them wrong bytes | N |", lambda: deviations("linux")),
    ("README.md", "| N, 11 of them wrong bytes", lambda: deviations("gvisor")),
    ("README.md", "62, N of them wrong bytes", lambda: deviations("gvisor", "NEVER")),
    ("README.md", "11 of them wrong bytes | N |", lambda: deviations("libslirp")),
    ("SECURITY.md", "about N lines of C", lambda: lines_of_code("capi/src/*.c")),
    ("docs/maintain/testing.md", "The gate tries N mutants", lambda: mutants("must-fail")),
    ("docs/results.md", "| all (N) |", cases),
    ("docs/proved.md", "`bsdudp_core_rx`, `bsdudp_core_sendto` and N more", lambda: exports()["step"] - 2),
    ("docs/proved.md", "`bsdudp_core_peek` and N more queries", lambda: exports()["query"] - 1),
    ("docs/proved.md", "`bsdudp_core_ether_receive` and N more", lambda: exports()["link"] - 1),
    ("docs/proved.md", "about N lines of C in `capi/src`", lambda: lines_of_code("capi/src/*.c")),
    ("docs/proved.md", "about N lines of Python that rewrite the module", lambda: lines_of_python(*REWRITING)),
    ("docs/proved.md", "about N lines of C, `portable/c/plain.c`", lambda: lines_of_code("portable/c/plain.c")),
    (
        "docs/proved.md",
        "`tools/llvm.py`, `tools/webassembly.py` and `portable/build` (about N lines)",
        lambda: lines_of_python("tools/llvm.py", "tools/webassembly.py", "portable/build"),
    ),
    ("docs/proved.md", "`portable/heap.c` (about N lines)", lambda: lines_of_code("portable/heap.c")),
    ("docs/proved.md", "about N lines of JavaScript in `page`", lambda: lines_of_code("page/*.js")),
    ("docs/proved.md", "about N lines of Python in `python/bsdudp`", lambda: lines_of_python("python/bsdudp/*.py")),
    (
        "docs/proved.md",
        "about N lines of Python in `conform/bsdudp_conform`",
        lambda: lines_of_python("conform/bsdudp_conform/**/*.py"),
    ),
    ("docs/proved.md", "about N lines of C in `portable/c`", lambda: lines_of_code("portable/c/**/*.[ch]")),
    (
        "docs/proved.md",
        "about N lines of C++ in `simulators/ns3`",
        lambda: lines_of_code(*(f"simulators/ns3/{it}/*.{end}" for it in ("model", "helper") for end in ("cc", "h"))),
    ),
    ("docs/security.md", "take at most N bytes each", deepest),
]


@pytest.mark.parametrize("path, words, count", COUNTED, ids=[f"{path} {words}" for path, words, _ in COUNTED])
def test_number(path, words, count):
    is_round, text = "about N" in words, read(path)
    pattern = r"([\d,]+)".join(re.escape(part).replace(r"\ ", r"\s+") for part in words.split("N", 1))
    found = re.search(pattern.replace("about", "[Aa]bout", 1), text)
    if not found:
        none_of([Fault(f"{path}:1", f"the page has no text '{words}'")])
    said, right = number(found[1]), count()
    if abs(said - right) * 20 > (right if is_round else 0):
        line = text.count("\n", 0, found.start()) + 1
        none_of([Fault(f"{path}:{line}", f"the number in '{' '.join(found[0].split())}'", f"{right:,}", f"{said:,}")])


def test_lengths_of_files():
    """Each 'one file of N lines, `PATH`' on a page in docs/ is right."""
    faults = []
    for path in documents():
        for place, line in lines(path) if path.startswith("docs/") else ():
            for told, name in re.findall(r"one file of (\d+) lines, `([^`]+)`", line):
                length = len(read(name).splitlines()) if (TOP / name).is_file() else 0
                if int(told) != length:
                    faults.append(Fault(place, f"the lines of {name}", str(length), told))
    none_of(faults)


# ---- the tables of docs/performance.md -----------------------------------------------------------------------------


def test_costs_that_stand_twice():
    """A datagram costs the same in the table with lwIP and in the table without it, to a hundredth."""
    place = table(PERFORMANCE, BESIDE[0], *BESIDE[1])[0]
    faults = []
    for at, size in enumerate(LENGTHS, 1):
        one = cell_of(PERFORMANCE, *ALONE, "from one stack to another", at)
        other = cell_of(PERFORMANCE, *BESIDE, "ours", at)
        if abs(one - other) * 100 > one:
            about = f"the instructions of a datagram of {size}, which another table has, too"
            faults.append(Fault(place, about, f"{one:,}", f"{other:,}"))
    none_of(faults)
