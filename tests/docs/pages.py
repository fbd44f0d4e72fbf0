"""Reads the pages of this repository for tests: their lines, code, tables and commands, and reports faults in them."""
from __future__ import annotations

import functools
import os
import pathlib
import re
from typing import Iterable, Iterator, NamedTuple, NoReturn, Sequence

import pytest

from tools.listed import cells_of, read

TOP = pathlib.Path(__file__).resolve().parent.parent.parent
SHOWN = 30


def number(text: str) -> int:
    """Returns a number of a page, such as 1,500."""
    return int(text.replace(",", ""))


class Fault(NamedTuple):
    """The place of a fault, what is wrong, and optionally the expected text and the present one."""

    place: str
    about: str
    wanted: str = ""
    came: str = ""

    def __str__(self) -> str:
        both = f"\n    wanted: {self.wanted}\n    came:   {self.came or '(nothing)'}" if self.wanted else ""
        return f"{self.place}: {self.about}{both}"


def none_of(faults: Iterable[Fault]) -> None:
    """Fails the test with these faults, if there are any."""
    found = list(map(str, faults))
    if len(found) > SHOWN:
        found[SHOWN:] = [f".. and {len(found) - SHOWN} more"]
    if found:
        pytest.fail("\n".join(found), pytrace=False)


def lines(path: str) -> Iterator[tuple[str, str]]:
    """Yields each line of a file, with its place."""
    for number, line in enumerate(read(path).split("\n"), 1):
        yield f"{path}:{number}", line


def in_code(text: str) -> list[str]:
    """Returns the code in a text, between backticks."""
    return re.findall(r"`([^`]+)`", text)


# ---- commands ------------------------------------------------------------------------------------------------------

# Code that begins with one of these programs is a command. So are scripts of this repository and ./NAME.
PROGRAMS = set(
    "bsdudp bsdplay bsdudp-conform rt make git python3 /usr/bin/python3 pytest pip mypy node cc c++ gcc g++ cmake "
    "arm-none-eabi-gcc qemu-system-arm pkg-config apt apt-get dpkg dpkg-deb install cd cp mkdir cat echo printf paste "
    "grep awk sed sort man export unshare ip ping nc tcpdump tshark editcap text2pcap bash sh env sudo vim code".split()
)
LINE = re.compile(r"\s{2,}\S.*$|\s+#\s.*$")


class Command(NamedTuple):
    """A command on a page, and its place."""

    place: str
    text: str


def is_script(word: str) -> bool:
    """Returns whether a word is the path of a script in this repository."""
    return "/" in word and (TOP / word).is_file() and os.access(TOP / word, os.X_OK)


def is_command(text: str) -> bool:
    """Returns whether code is a command. Programs other than this repository's scripts need arguments."""
    words = re.sub(r"^([A-Z_]+=\S*\s+)+", "", text).split()
    if not words:
        return False
    if words[0] == "for":
        return re.match(r"for \w+ in ", text) is not None
    if words[1:2] == ["="]:  # Python
        return False
    return is_script(words[0]) or words[0].startswith("./") or (words[0] in PROGRAMS and len(words) > 1)


def commands(path: str, most: int | None = None) -> Iterator[Command]:
    """Yields the commands in blocks of code and in the text of a page, or of its first `most` lines, in order, without
    comments and second columns. Joins a command in several lines."""
    fence, paragraph, begin, more = None, "", 0, ""
    text = read(path).split("\n")
    for number, line in enumerate([*text[:most], ""], 1):
        if opened := re.match(r"```(\w*)", line):
            fence = opened[1] if fence is None else None
        is_code = fence is not None or line.startswith("    ")
        if not is_code and line and not opened:
            paragraph, begin = f"{paragraph}{line}\n", begin or number
            continue
        for code in re.finditer(r"`([^`]+)`", paragraph):
            if is_command(it := " ".join(code[1].split())):
                yield Command(f"{path}:{begin + paragraph.count(chr(10), 0, code.start())}", it)
        paragraph, begin = "", 0
        if is_code and not opened and fence in (None, "", "sh"):
            it = f"{more} {LINE.sub('', line.strip())}".strip()
            more = it.removesuffix("\\").strip() if it.endswith(("\\", "|")) and is_command(it) else ""
            if not more and is_command(it):
                yield Command(f"{path}:{number}", it)


# ---- tables --------------------------------------------------------------------------------------------------------


class Row(NamedTuple):
    """A row of a table, and its place."""

    place: str
    cells: list[str]


class Entry(NamedTuple):
    """The key of a row, and its place."""

    place: str
    key: str


def unread(place: str, about: str) -> NoReturn:
    """Fails a test because a table or a piece of code isn't found at the expected place."""
    pytest.fail(f"{place}: {about}. If it has moved, change the test, too", pytrace=False)


def table(path: str, section: str, *heads: str) -> tuple[str, list[Row]]:
    """Returns the place of the table with these heads in the section whose heading begins with `section`, and its
    rows."""
    heading, top, rows, place = "", 0, [], ""
    for number, line in enumerate(read(path).split("\n"), 1):
        if line.startswith("## "):
            heading, top = line.removeprefix("## "), 0
        elif heading.startswith(section) and line.startswith("|"):
            if cells_of(line) == list(heads):
                top, place = number, f"{path}:{number}"
            elif top and number > top + 1:
                rows.append(Row(f"{path}:{number}", cells_of(line)))
        else:
            top = 0
    if not rows:
        unread(f"{path}:1", f"the section '{section}' has no table with the heads {' | '.join(heads)}")
    for row in rows:
        if len(row.cells) != len(heads):
            unread(row.place, f"the row has {len(row.cells)} cells, but its table has {len(heads)} columns")
    return place, rows


def cell_of(path: str, section: str, heads: Iterable[str], first: str, column: int) -> int:
    """Returns the number in a column of the row with this first cell."""
    for row in table(path, section, *heads)[1]:
        if row.cells[0] == first:
            return number(row.cells[column])
    unread(f"{path}:1", f"the table of the section '{section}' has no row '{first}'")


def pieces(path: str, pattern: str, text: str | None = None) -> list:
    """Returns all that the pattern finds in a file of code, or in a part of it. Fails if it finds nothing."""
    found = re.findall(pattern, read(path) if text is None else text)
    return found or unread(f"{path}:1", f"nothing there fits {pattern}")


def part(path: str, begin: str, end: str) -> str:
    """Returns the part of a file between two texts."""
    _, there, rest = read(path).partition(begin)
    if not there or end not in rest:
        unread(f"{path}:1", f"there is no text between '{begin}' and '{end}'")
    return rest.partition(end)[0]


def in_order(place: str, what: str, entries: Sequence[Entry], wanted: Sequence[str], source: str) -> list[Fault]:
    """Returns the differences between a table's entries and those of the code, in this order."""
    keys = [entry.key for entry in entries]
    faults = [Fault(place, f"{what} of {source} is missing", it) for it in wanted if it not in keys]
    faults += [
        Fault(entry.place, f"{source} has no such {what.removeprefix('the ')}: '{entry.key}'")
        for entry in entries
        if entry.key not in wanted
    ]
    if not faults and keys != list(wanted):
        at = next(n for n in range(len(keys)) if n >= len(wanted) or keys[n] != wanted[n])
        after = wanted[at] if at < len(wanted) else "no more rows"
        faults.append(Fault(entries[at].place, f"the order isn't that of {source}", after, keys[at]))
    return faults


# ---- the pages -----------------------------------------------------------------------------------------------------

# Pages about the past.
OF_THE_PAST = ("CHANGELOG.md", "docs/maintain/gate-times.md")
FOLDERS = ("", "bench/", "capi/", "conform/", "crates/", "crates/*/", "docs/", "docs/maintain/", "examples/", "page/", "portable/")
FOLDERS += ("python/", "simulators/", "simulators/*/", "tests/", "tools/*/")


@functools.lru_cache(maxsize=None)
def documents() -> tuple[str, ...]:
    """Returns the paths of this repository's pages."""
    return tuple(str(path.relative_to(TOP)) for folder in FOLDERS for path in sorted(TOP.glob(f"{folder}*.md")))


def sources_of(crate: str) -> list[str]:
    """Returns the paths of a crate's sources."""
    return [str(path.relative_to(TOP)) for path in sorted(TOP.glob(f"crates/{crate}/src/**/*.rt"))]
