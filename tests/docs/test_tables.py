"""bench/tables: it knows each table of figures in docs/performance.md and each of its rows, each row that it takes is one
of a benchmark, and the sentences that it writes have the numbers of the tables."""
import importlib.machinery
import importlib.util
import re
import sys
from types import ModuleType

from tests.docs.pages import TOP, Fault, none_of
from tools.listed import read

PAGE = "docs/performance.md"
# The heads of tables that bench/tables doesn't write: what is compared, and memory of lwIP.
OTHERS = {
    "Compared with lwIP": ["| Work |", "| Build |"],
    "Echoes on a board": ["| Memory | ours | lwIP | lwIP by its sockets |", "| What it has |"],
    "Echoes on a TUN device": ["| Host |"],
    "The checksum": ["| Body | What it is |"],
    "": ["| Question |"],
}
# A script puts the names of these heads and rows together.
PARTS = {"board": r"portable/core |, with two more copies|, by its sockets", "tun": ", ratios"}


def tables() -> ModuleType:
    """Returns bench/tables as a module."""
    loader = importlib.machinery.SourceFileLoader("bench_tables", str(TOP / "bench/tables"))
    module = importlib.util.module_from_spec(importlib.util.spec_from_loader("bench_tables", loader))
    sys.modules["bench_tables"] = module
    loader.exec_module(module)
    return module


class Asked(dict):
    """The rows of a made-up run: it has each row, with these cells, and keeps the names that were looked up."""

    def __init__(self, *cells: str) -> None:
        super().__init__()
        self.cells, self.names = cells, set()

    def __getitem__(self, name: str) -> list[str]:
        self.names.add(name)
        return list(self.cells)


def heads() -> list[tuple[str, str, str]]:
    """Returns the section and the head of each table of the page, with its place."""
    found, section, last = [], "", ""
    for number, line in enumerate(read(PAGE).split("\n"), 1):
        section = line.removeprefix("## ") if line.startswith("## ") else section
        if line.startswith("|") and not last.startswith("|"):
            found.append((section, line, f"{PAGE}:{number}"))
        last = line
    return found


def test_each_table_of_instructions_is_written():
    """A table is one that bench/tables writes, or one of OTHERS."""
    written = [(it.heading, it.head) for it in tables().TABLES.values() if it.page == PAGE]
    faults = []
    for section, head, place in heads():
        known = [it for heading, it in written if heading == section] + OTHERS.get(section, [])
        if not any(head.startswith(it) for it in known):
            faults.append(Fault(place, "bench/tables doesn't know this table, and the test doesn't name it as another"))
    none_of(faults)


def test_each_row_is_written():
    """With a made-up run, each row of each table gets its numbers."""
    module = tables()
    faults = []
    for it in module.TABLES.values():
        page = read(it.page)
        start, end = module.place_of(page, it)
        for line in page[start:end].split("\n")[3:]:
            if module.new_line(line, it, Asked(*["54,321"] * 12)) == line:
                faults.append(Fault(it.page, f"no number of a run is written into the row {line}"))
    none_of(faults)


def test_sentences_have_the_numbers_of_the_tables():
    """Without a run nothing changes: each sentence about a table has its numbers, and so has the chart."""
    module = tables()
    pages = {it: read(it) for it in module.PAGES}
    new = module.with_run(pages, {})
    none_of(
        Fault(f"{path}:{number}", "a number that follows from a table", line, old)
        for path, text in pages.items()
        for number, (old, line) in enumerate(zip(text.split("\n"), new[path].split("\n"), strict=True), 1)
        if old != line
    )


def test_each_sentence_is_there():
    """Each sentence is on its page, also one whose numbers are only in a run."""
    module = tables()
    for page, sentences in module.SENTENCES.items():
        for words in sentences:
            assert module.with_numbers(read(page), words, []) == read(page)


def test_fewer_than_each_build_of_lwip():
    """What README and the page say of 2 and 1,472 bytes and of seven fragments, and the page of 9,000 bytes."""
    module = tables()
    rows = module.costs(read(PAGE), module.TABLES["peers"])
    fewer = [all(rows["ours"][at] < them[at] for name, them in rows.items() if name != "ours") for at in range(4)]
    assert fewer == [True, True, False, True], "write the sentences about lwIP again: the first that has 'fewer'"


def test_each_row_is_of_a_benchmark():
    """Each row that bench/tables takes from a run is named in its subject's sources, and so is its head."""
    module, faults = tables(), []
    for it in module.TABLES.values():
        rows, page = Asked(*["54,321"] * 12), read(it.page)
        start, end = module.place_of(page, it)
        for line in page[start:end].split("\n")[3:]:
            module.new_line(line, it, rows)
        shared = [TOP / it for it in ("bench/lib.sh", "bench/timer.h", "portable/core")]
        files = [*sorted((TOP / "bench" / it.subject).iterdir()), *shared]
        text = module.plain("".join(path.read_text("utf-8") for path in files if path.is_file()).replace("\\`", ""))
        parts = re.compile(PARTS.get(it.subject, "$"))
        for name in sorted(rows.names):
            for part in (part for piece in name.split(": ", 1) for part in parts.split(piece)):
                if part not in text:
                    faults.append(Fault("bench/tables", f"bench/{it.subject} has no row {name}"))
    none_of(faults)


RUN = """== packets

| instructions | 2 bytes |
|---|---:|
| rx, recvfrom | 1038 |
| dropped: no such port | 226 |
times: the best of 3000 rounds

| a packet, ns | 2 bytes |
|---|---:|
| rx, recvfrom | 1007.5 |

| times to those of the first row | 2 bytes |
|---|---:|
| rx, recvfrom | 1.00 |
== growth

| Open sockets | 1 | 64 | |
|---|---:|---:|---|
| a datagram to the oldest | 915 | 1981 | 16.9 for each more |
| a datagram to the newest | 915 | 981 | flat |
== board

| Cortex-M3 | library |
|---|---:|
| lwIP 2.1.3, `-Os` | - | 7656 |

| Cortex-M3, frames | library |
|---|---:|
| lwIP 2.1.3, `-Os` | - | 10984 |
== tun
times: medians of 150 rounds

| echoes a second | 2 bytes |
|---|---:|
| Linux | 200000 |

| echoes a second, ratios | 2 bytes |
|---|---:|
| Linux | 0.75 |
"""


def test_a_run_is_read():
    """The form in which bench/run.sh prints tables."""
    found = tables().counted(RUN)
    assert found["packets"] == {
        "instructions: rx, recvfrom": ["1,038"],
        "instructions: dropped: no such port": ["226"],
        "rounds": ["3000"],
        "a packet, ns: rx, recvfrom": ["1007.5"],
        "times to those of the first row: rx, recvfrom": ["1.00"],
    }
    assert found["growth"] == {
        "Open sockets: a datagram to the oldest": ["915", "1,981", "16.9 for each more"],
        "Open sockets: a datagram to the newest": ["915", "981", "flat"],
    }
    assert found["board"] == {
        "Cortex-M3: lwIP 2.1.3, -Os": ["-", "7,656"],
        "Cortex-M3, frames: lwIP 2.1.3, -Os": ["-", "10,984"],
    }
    assert found["tun"] == {
        "rounds": ["150"],
        "echoes a second: Linux": ["200,000"],
        "echoes a second, ratios: Linux": ["0.75"],
    }


def test_times_have_their_version():
    """A run with times gets the present version beside them, and one without leaves the old one there."""
    module = tables()
    pages = {it: read(it) for it in module.PAGES}
    pages[PAGE] = re.sub(r"bsdudp(\s)\d+\.\d+\.\d+", r"bsdudp\g<1>0.0.1", pages[PAGE])
    names = [*map(module.plain, module.costs(read(PAGE), module.TABLES["peers"]))]
    counts = {f"instructions: {it}": ["1"] * 4 for it in names}
    times = {f"times to those of the first row: {it}": ["1.00"] * 4 for it in names}
    before, without, after = (
        module.with_run(pages, {"peers": rows})[PAGE].count("bsdudp 0.0.1") for rows in ({}, counts, counts | times)
    )
    assert 0 < before == without == after + 1


def test_times_of_few_rounds_are_not_written():
    found = tables().counted(RUN.replace("3000 rounds", "599 rounds"))
    assert list(found["packets"]) == ["instructions: rx, recvfrom", "instructions: dropped: no such port"]
