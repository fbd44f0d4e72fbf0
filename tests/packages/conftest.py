"""Fixtures that make the contents of packages."""
import pytest

from tests import needed
from tests.boards.test_core import TARGETS
from tests.made import core_for, module, page, portable_c  # noqa: F401 (fixtures)

# The contents of packages that can be made here: the fixture that makes each, and the tools that it needs.
PARTS = {"page": ["rt", "wasm-opt"], "core_for": ["rt", "wasm-opt", "cc"], "portable_c": ["rt", "wasm-opt", "wasm2c"]}


# The names by which dist/build and dist/deb leave them out.
NAMES = {"page": "page", "core_for": "boards", "portable_c": "portable"}


def left_out(*names):
    """Returns the options that leave out those of these parts that can't be made here."""
    lacking = [NAMES[it] for it, tools in PARTS.items() if any(map(needed.lacks, tools))]
    lacking += ["ns3"] * bool(needed.lacks("ns-3 3.37") or needed.lacks("cmake"))
    return [it for name in names if name in lacking for it in ("--without", name)]


@pytest.fixture(scope="session")
def all_made(bsdudp, bsdplay, core, request):
    """Makes all contents that can be made here."""
    for name, tools in PARTS.items():
        if not any(map(needed.lacks, tools)):
            it = request.getfixturevalue(name)
            if name == "core_for":
                for target in TARGETS:
                    it(target)
