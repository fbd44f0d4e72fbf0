"""crates.txt: the crates, and the libraries that each uses."""
from __future__ import annotations

import pathlib
from typing import NamedTuple

TOP = pathlib.Path(__file__).resolve().parent.parent

class Crate(NamedTuple):
    """The libraries that a crate uses, of the repository and of the toolchain, and whether it's a static library."""

    uses: list[str]
    is_static: bool


def read() -> dict[str, Crate]:
    """Yields each crate in crates.txt, in order."""
    found = {}
    for line in (TOP / "crates.txt").read_text(encoding="utf-8").splitlines():
        head, colon, names = line.partition("#")[0].partition(":")
        if colon:
            name, *kinds = head.split()
            found[name] = Crate(names.split(), "staticlib" in kinds)
    return found


def uses() -> dict[str, list[str]]:
    """Returns each crate in the order of crates.txt, with the libraries that it uses."""
    return {name: crate.uses for name, crate in read().items()}


def below(name: str, used: dict[str, list[str]]) -> list[str]:
    """Returns the repository's crates below a crate, sorted, without the crate itself."""
    found: set[str] = set()
    left = list(used[name])
    while left:
        it = left.pop()
        if it in used and it not in found:
            found.add(it)
            left += used[it]
    return sorted(found)
