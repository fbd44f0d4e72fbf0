"""Fixtures that compile and run C programs with the C library for a processor."""
from __future__ import annotations

import importlib.machinery
import importlib.util
import os
import pathlib
import pickle
from types import ModuleType
from typing import Callable, Sequence

import pytest

from portable.tests import replies
from tests.capi.conftest import runs  # noqa: F401 (a fixture)
from tests.cases import TOP
from tests.made import core_for, module, portable_c  # noqa: F401 (fixtures)
from tools import llvm

CC = os.environ.get("CC", "cc")
C99 = ["-std=c99", "-Wall", "-Wextra", "-Werror", "-pedantic", "-Wno-unused-parameter", f"-I{TOP / 'portable/tests'}"]
STRICT = [*C99, f"-I{TOP / 'capi/include'}"]
SANITIZED = ["-fsanitize=address,undefined", "-fno-sanitize-recover=all"]
# A program that plays scripts with the library.
DRIVER = [TOP / "portable/tests/run.c", TOP / "portable/tests/host.c"]
BOARD = TOP / "portable/board"


@pytest.fixture(scope="session")
def core_script() -> ModuleType:
    """The script portable/core."""
    loader = importlib.machinery.SourceFileLoader("core", str(TOP / "portable/core"))
    module = importlib.util.module_from_spec(importlib.util.spec_from_loader("core", loader))
    loader.exec_module(module)
    return module


@pytest.fixture(scope="session")
def answered(once) -> Callable[[int, pathlib.Path], tuple]:
    """answered(COUNT, PROGRAM) returns all scripts in examples/ and COUNT random ones, with their replies. They are
    computed once for all processes."""

    def of(count: int, program: pathlib.Path) -> tuple:
        def make(folder: pathlib.Path) -> None:
            (folder / "scripts").write_bytes(pickle.dumps(replies.chosen(count, program)))

        return pickle.loads((once(f"scripts-{count}", make) / "scripts").read_bytes())

    return of


@pytest.fixture(scope="session")
def board_for(core_for, once) -> Callable[..., pathlib.Path]:  # noqa: F811
    """board_for(OPTIONS OF portable/core ..) returns the folder of the board's programs. Linking fails unless 64 KB of
    memory are enough."""

    def of(*options: str) -> pathlib.Path:
        library = core_for("cortex-m3", *options)
        return once(f"board{''.join(options)}", lambda folder: llvm.run(BOARD / "build", library, folder))

    return of


@pytest.fixture(scope="session")
def board(board_for) -> pathlib.Path:
    """The same for `portable/core` without options."""
    return board_for()


@pytest.fixture
def plays(answered, bsdudp) -> Callable[[Sequence[object], int], None]:
    """plays(COMMAND, COUNT) plays all examples and COUNT random scripts with a driver. The replies must equal the
    examples' golden files, and those of the built bsdudp."""

    def play(driver: Sequence[object], count: int) -> None:
        scripts, wanted = answered(count, bsdudp)
        got, _ = replies.heard([*map(str, driver)], scripts)
        assert not replies.differences(scripts, got, wanted)[:5]

    return play
