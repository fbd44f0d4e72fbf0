"""Cases: the input of a program, and its expected output."""
from __future__ import annotations

import itertools
import pathlib
import subprocess
from typing import Iterable, Iterator, NamedTuple, Sequence

import pytest

from tests.goldens import Golden

TOP = pathlib.Path(__file__).resolve().parent.parent
SHOWN = 200
Row = "tuple[str, str]"


class Case(NamedTuple):
    """A run of bsdudp. `place` is the file or table with the replies, which begin at its line `first`."""

    name: str
    words: Sequence[str]
    script: bytes
    replies: bytes
    status: int = 0
    said: bytes = b""
    place: str = ""
    first: int = 1


def each(cases: Iterable[Case | Golden]) -> pytest.MarkDecorator:
    """Parametrizes a test by these cases, which have names."""
    made = list(cases)
    return pytest.mark.parametrize("case", made, ids=[it.name for it in made])


def dialog(name: str, words: Sequence[str], rows: Sequence[tuple[str, str]]) -> Case:
    """Returns a case of lines, each with its reply."""
    script, replies = ("".join(f"{it}\n" for it in column).encode() for column in zip(*rows))
    return Case(name, words, script, replies)


def counted(**counters: int) -> tuple[str, str]:
    """Returns `stat` and its reply. An underscore here is a dot in the counter's name."""
    return "stat", " ".join(["stat", *(f"{name.replace('_', '.')}={n}" for name, n in counters.items())])


def of_folder(folder: str, command: str) -> Iterator[Case]:
    """Yields the scripts NAME.txt in a folder, with their options in NAME.txt.args and their replies in
    NAME.txt.stdout."""
    for path in sorted((TOP / folder).glob("*.txt")):
        args = path.with_name(f"{path.name}.args")
        words = args.read_text(encoding="utf-8").splitlines() if args.exists() else []
        replies = path.with_name(f"{path.name}.stdout")
        place = str(path.relative_to(TOP))
        assert replies.exists(), f"{place}: there are no replies {replies.name} beside it"
        yield Case(f"{command}/{path.stem}", [command, *words], path.read_bytes(), replies.read_bytes(), place=place)


def of_dialogs(name: str, command: str) -> Iterator[Case]:
    """Yields the dialogs in a table of crates/bsdudp/scripts. Each has a line with its name and options, then lines of
    a script, each with ` => ` and its reply, and then an empty line."""
    place, first = f"crates/bsdudp/scripts/{name}.dialogs", 2
    for part in (TOP / place).read_bytes().removesuffix(b"\n").split(b"\n\n"):
        head, *lines = part.split(b"\n")
        it, *words = head.decode().split()
        assert lines and all(row.count(b" => ") == 1 for row in lines), f"{place}: {it}: a line has no reply, or two"
        script, replies = (b"".join(it + b"\n" for it in rows) for rows in zip(*(row.split(b" => ") for row in lines)))
        yield Case(f"{command}/{it}", [command, *words], script, replies, place=place, first=first)
        first += len(lines) + 2


def short(text: bytes) -> str:
    """Returns a text, shortened for a message."""
    shown = text.decode(errors="backslashreplace")
    return shown if len(shown) <= SHOWN else f"{shown[:SHOWN]}.. ({len(shown)} characters)"


def other_line(wanted: bytes, came: bytes) -> tuple[int, str]:
    """Returns the number of the first line that differs, from 0 on, and both versions of it for a message."""
    rows = itertools.zip_longest(wanted.split(b"\n"), came.split(b"\n"), fillvalue=None)
    at, both = next((n, it) for n, it in enumerate(rows) if it[0] != it[1])
    one, other = ("(nothing)" if it is None else short(it) for it in both)
    return at, f"\n    wanted: {one}\n    came:   {other}"


def difference(case: Case, status: int, replies: bytes, said: bytes | None) -> str | None:
    """Returns how the output differs from the case, or None. The first different line is printed with its request."""
    where = f"bsdudp {' '.join(case.words)}" + (f" < {case.place}" if case.place.endswith(".txt") else "")
    if replies != case.replies:
        asked = case.script.split(b"\n")
        at, both = other_line(case.replies, replies)
        line = short(asked[at]) if at < len(asked) else ""
        return f"{case.place or case.name}:{at + case.first}: {line}{both}\n    ({where}; status {status})"
    if status != case.status:
        return f"{case.name}: {where}: status {status}, and not {case.status}; it says {short(said or b'')!r}"
    if said is not None and said != case.said:
        return f"{case.name}: {where}: it says {short(said)!r}, and not {short(case.said)!r}"
    return None


def run(program: pathlib.Path, case: Case) -> str | None:
    """Plays a case with a built program."""
    done = subprocess.run([program, *case.words], input=case.script, capture_output=True, check=False)
    return difference(case, done.returncode, done.stdout, done.stderr)
