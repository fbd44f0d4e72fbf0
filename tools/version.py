"""The version of this repository, which is the newest in CHANGELOG.md, and its release date."""
from __future__ import annotations

import datetime
import pathlib
import re

from tools.command_line import Stop

TOP = pathlib.Path(__file__).resolve().parent.parent
# The heading of a version: its number, and its release date or that it isn't released.
HEADING = re.compile(r"## (\d+\.\d+\.\d+), (?:(\d{4}-\d\d-\d\d)|unreleased)")


def heading() -> re.Match[str]:
    """Returns the heading of the newest version, which is the first one. Raises Stop if CHANGELOG.md names none."""
    lines = (TOP / "CHANGELOG.md").read_text(encoding="utf-8").split("\n")
    at, first = next(((at, it) for at, it in enumerate(lines, 1) if it.startswith("## ")), (1, ""))
    found = HEADING.fullmatch(first)
    if not found:
        raise Stop(f"CHANGELOG.md:{at}: no `## 1.2.3, unreleased` or `## 1.2.3, 2026-01-31`: {first}")
    return found


def newest() -> str:
    """Returns the newest version, for example `0.2.0`."""
    return heading()[1]


def released() -> datetime.date | None:
    """Returns the release date of the newest version, or None."""
    day = heading()[2]
    try:
        return day and datetime.date.fromisoformat(day) or None
    except ValueError as fault:
        raise Stop(f"CHANGELOG.md: {day} isn't a date") from fault
