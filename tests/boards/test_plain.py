"""portable/c/plain.c, which replaces functions of the core on processors without vector instructions, compared with
plain definitions: its sum for processors with a carry flag, and its sum for RISC-V, which has none."""
import pytest

from tests.boards.conftest import CC, SANITIZED
from tests.cases import TOP


@pytest.mark.needs("cc", "asan")
@pytest.mark.parametrize("flags", [[], ["-D__riscv"]], ids=["carry", "no_carry"])
def test_stand_ins(compiled, runs, flags):
    sources = [TOP / "portable/tests/plain.c", TOP / "portable/c/plain.c"]
    runs(compiled("plain", CC, "-std=gnu99", "-Wall", "-Wextra", "-Werror", "-O1", *flags, *SANITIZED, *sources))
