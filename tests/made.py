"""What is made from both proved static libraries once, for all tests and for dist/build, and kept in page/out and
portable/out: the LLVM modules, the page, the portable C, and the C library for each processor. These are fixtures: the
conftest.py of a folder imports those that its tests use."""
from __future__ import annotations

import os
import pathlib
import subprocess
from typing import Callable

import pytest

from tests.cases import TOP
from tests.conftest import left_out
from tools.built import is_new

OUT = TOP / "portable/out"
# The files of the crates' modules.
KEPT = {"libbsdudp": OUT, "page": TOP / "page/out"}


def made(*words: object) -> None:
    """Runs a script that makes something. A status other than 0 fails the test with the script's output."""
    done = subprocess.run([*map(str, words)], cwd=TOP, capture_output=True, text=True, check=False)
    if done.returncode:
        pytest.fail(f"{words[0]}: {(done.stdout + done.stderr).strip()[-2000:]}", pytrace=False)


def is_proved(crate: str) -> bool:
    """Returns whether a static library is proved from these sources. `rt ci` keeps no file of it."""
    return bool(os.environ.get("BSDUDP_BUILT")) or is_new(TOP / f"crates/{crate}/out/lib{crate}.a", crate)


@pytest.fixture(scope="session")
def module(once, request) -> Callable[[str], pathlib.Path]:
    """module(CRATE) returns the LLVM module of a static library. The WebAssembly module is in the same folder."""

    def of(crate: str) -> pathlib.Path:
        if not is_proved(crate) and not request.config.getoption("--build"):
            left_out(request.config, f"{crate} isn't proved: cd crates/{crate} && rt lib, up to an hour", "--strict-programs")
        if crate == "libbsdudp":  # capi/build takes what stands in portable/out; they aren't made side by side
            request.getfixturevalue("core")
        once(f"module-{crate}", lambda _: made("portable/module", crate, KEPT[crate]))
        return KEPT[crate] / f"{crate}.bc"

    return of


@pytest.fixture(scope="session")
def page(once, module) -> pathlib.Path:
    """The page, with page.wasm in the same folder."""
    module("page")
    once("page", lambda _: made("page/build"))
    return TOP / "page/out/bsdudp.html"


@pytest.fixture(scope="session")
def portable_c(once, module) -> pathlib.Path:
    """The portable C, with its header in the same folder."""
    module("libbsdudp")
    once("portable-c", lambda _: made("portable/build", OUT))
    return OUT / "bsdudp_portable.c"


@pytest.fixture(scope="session")
def core_for(once, module) -> Callable[..., pathlib.Path]:
    """core_for(TARGET, OPTIONS OF portable/core ..) returns a folder with the C library for a processor. Without
    options it's kept in portable/out/core for dist/build."""

    def of(target: str, *options: str) -> pathlib.Path:
        module("libbsdudp")
        name = f"core-{target}{''.join(options)}"
        kept = None if options else OUT / "core" / target
        folder = once(name, lambda scratch: made("portable/core", *options, target, kept or scratch))
        return kept or folder

    return of
