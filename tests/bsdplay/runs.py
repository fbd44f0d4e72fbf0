"""Runs bsdplay with a script on standard input."""
from __future__ import annotations

import json
import pathlib
import re
import subprocess
from typing import Any, Sequence

import pytest


def run(
    program: pathlib.Path, *words: object, script: str | bytes = b"", **more: Any
) -> subprocess.CompletedProcess[bytes]:
    """Runs the program with these arguments, and the script on standard input."""
    given = script.encode() if isinstance(script, str) else script
    return subprocess.run(
        [program, *map(str, words)], input=given, capture_output=True, check=False, timeout=300, **more
    )


def of_lines(lines: Sequence[str]) -> str:
    """Returns a script of these lines."""
    return "".join(f"{it}\n" for it in lines)


def printed(program: pathlib.Path, lines: Sequence[str], *words: str) -> list[str]:
    """Returns the lines that the program prints for a script of these lines."""
    return run(program, *words, script=of_lines(lines)).stdout.decode().splitlines()


def objects(program: pathlib.Path, lines: Sequence[str], *words: object) -> list[dict[str, Any]]:
    """Returns the objects that the program prints with --json for a script of these lines."""
    ended = run(program, "--json", *words, "-", script=of_lines(lines))
    if ended.returncode not in (0, 1) or ended.stderr:
        pytest.fail(f"bsdplay: status {ended.returncode}: {ended.stderr.decode(errors='replace')}", pytrace=False)
    return [json.loads(it) for it in ended.stdout.decode("ascii").splitlines()]


def listed(words: str) -> list[int]:
    """Returns the record numbers in a list such as `1, 3 to 5 and 7`."""
    ranges = re.findall(r"(\d+)(?: to (\d+))?", words)
    return [it for first, last in ranges for it in range(int(first), int(last or first) + 1)]


def same(asked: object, came: object, wanted: object) -> None:
    """Fails the test if the result differs from the expected one."""
    if came != wanted:
        pytest.fail(f"{asked}\n    wanted: {wanted}\n    came:   {came}", pytrace=False)
