"""Mutants: files NAME.edit in a crate's must-fail/, and all others in its tables `mutants`, `wrong-texts` and
`wrong-definitions`, where each has its name on a line of its own, then its edit, then an empty line. An edit has lines
`file: PATH`, each followed by pairs of `old: TEXT` and `new: TEXT`. The old text must be in the file exactly once.
Later pairs apply to the result of earlier ones."""
from __future__ import annotations

import pathlib
import re
import shutil
import subprocess
from typing import Iterator, NamedTuple

TOP = pathlib.Path(__file__).resolve().parent.parent
FOLDER = "must-fail"
TABLE, TEXTS, DEFINITIONS = TABLES = ("mutants", "wrong-texts", "wrong-definitions")
NAME = re.compile(r"[A-Za-z0-9_-][A-Za-z0-9_.-]*")
# What `rt` says of a mutant that no contract rejected: a proof cites a name that isn't there, the prover met a limit of
# its own, or the mutant can't be read. `rt ci` counts the first two as passed.
BY_NAME = "only because a proof file names what the edit took away"
BY_LIMIT = "only by a limit of the prover"
BAD = "BAD EDIT: "


class Refused(Exception):
    """Why a text isn't an edit, or doesn't apply, and its line there, from 0."""

    def __init__(self, why: str, line: int = 0) -> None:
        super().__init__(why)
        self.line = line


class Pair(NamedTuple):
    """A text in a file of the crate, its replacement, and its line in the edit, from 0."""

    file: str
    old: str
    new: str
    line: int


def parts_of(path: pathlib.Path) -> Iterator[tuple[int, str, str]]:
    """Yields each edit in a table: the line of its name, from 0, its name and its text. None if there is no table."""
    whole = path.read_text(encoding="utf-8") if path.is_file() else ""
    for it in re.finditer(r"(?:.+\n?)+", whole):
        name, _, text = it[0].rstrip("\n").partition("\n")
        yield whole.count("\n", 0, it.start()), name, text


def table_of(path: pathlib.Path) -> dict[str, str]:
    """Returns the text of each edit in a table, by its name: none if there is no table. Raises Refused if a part of the
    table has no name, or one that another part has."""
    edits: dict[str, str] = {}
    for line, name, text in parts_of(path):
        if not NAME.fullmatch(name) or name in edits:
            raise Refused(f"a mutant must have a separate name of letters, digits, - and _: {name}", line)
        edits[name] = text
    return edits


def edits_of(crate: pathlib.Path, place: str) -> dict[str, str]:
    """Returns the text of each edit in the folder of a crate, or in one of its tables, by its name."""
    if place in TABLES:
        return table_of(crate / place)
    return {it.stem: it.read_text(encoding="utf-8") for it in sorted((crate / place).glob("*.edit"))}


def everywhere(place: str) -> list[tuple[pathlib.Path, str, str]]:
    """Returns each edit in this folder or table of all crates: its crate, its name and its text."""
    crates = sorted(TOP.glob("crates/*/"))
    return [(crate, name, text) for crate in crates for name, text in edits_of(crate, place).items()]


def pairs_in(text: str) -> list[Pair]:
    """Returns the pairs of an edit's text, in order. Raises Refused with the reason if it isn't one."""
    pairs: list[Pair] = []
    path = old = None
    first = 0
    for at, line in enumerate(text.split("\n")):
        if line.startswith("file: "):
            path = line.removeprefix("file: ").strip()
        elif line.startswith("old: "):
            old, first = line.removeprefix("old: "), at
        elif line.startswith("new:"):
            if path is None or old is None:
                raise Refused("'file:' and 'old:' must precede 'new:'", at)
            pairs.append(Pair(path, old, line.removeprefix("new:").removeprefix(" "), first))
            old = None
        elif line.strip():
            raise Refused(f"a line must begin with 'file: ', 'old: ' or 'new:': {line}", at)
    if old is not None:
        raise Refused(f"no 'new:' follows: {old}", first)
    if not pairs:
        raise Refused("it must have a pair of 'old:' and 'new:'")
    return pairs


def applied(pairs: list[Pair], crate: pathlib.Path, texts: dict[str, str] | None = None) -> dict[str, str]:
    """Returns the texts with each pair replaced. A file that isn't in `texts` is read from the crate's folder. Raises
    Refused if a file is missing, or if an old text isn't in it exactly once."""
    made = dict(texts or {})
    for path, old, new, line in pairs:
        if path not in made:
            if not path.startswith(("src/", "specs/", "proofs/")) or not (crate / path).is_file():
                raise Refused(f"there is no file {path}", line)
            made[path] = (crate / path).read_text(encoding="utf-8")
        found = made[path].count(old) if old else 0
        if found != 1:
            raise Refused(f"{path} must have this text once, not {found} times: {old}", line)
        made[path] = made[path].replace(old, new)
    return made


def copy_files(to: pathlib.Path, *paths: str) -> None:
    """Copies the present files of the repository that git knows or would add, all of them or those below these
    paths."""
    words = ["git", "ls-files", "-z", "--cached", "--others", "--exclude-standard", *paths]
    found = subprocess.run(words, cwd=TOP, capture_output=True, check=True).stdout.decode().split("\0")
    for path in filter(None, found):
        if (TOP / path).is_file():
            (to / path).parent.mkdir(parents=True, exist_ok=True)
            shutil.copy2(TOP / path, to / path)


def faults(crate: pathlib.Path) -> Iterator[tuple[str, str]]:
    """Yields the files with edits in a crate's folder that don't apply, each with the line and the reason."""
    edits: list[tuple[pathlib.Path, int, str, str]] = []
    for path in sorted(crate.glob(f"{FOLDER}/**/*")):
        if path.parent.parent != crate or path.suffix != ".edit" or not NAME.fullmatch(path.stem):
            yield f"{path}:1", "this folder has only files NAME.edit"
            continue
        edits.append((path, 1, path.stem, path.read_text(encoding="utf-8")))
    for table in TABLES:
        try:
            table_of(crate / table)
            edits += [(crate / table, line + 2, name, text) for line, name, text in parts_of(crate / table)]
        except Refused as why:
            yield f"{crate / table}:{why.line + 1}", str(why)
    known: dict[str, pathlib.Path] = {}
    for path, first, name, text in edits:
        other = known.setdefault(name, path)
        if other != path:
            yield f"{path}:{first}", f"{other.relative_to(crate)} has the same name: {name}"
        try:
            applied(pairs_in(text), crate)
        except Refused as why:
            yield f"{path}:{first + why.line}", f"{name} doesn't apply: {why}"
