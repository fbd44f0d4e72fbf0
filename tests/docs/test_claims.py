"""What pages claim of the proofs, as far as a test can read it: the limit of the laws of a wire, and calls that may
always report missing memory."""
import re

import pytest

from tests.docs.pages import Fault, none_of, read, sources_of
from tools import crates

LAW = r"law of a\s+wire|`(?:any_)?\w+_on_an?_(?:wire|segment|ether_segment|ethernet)`"
LIMIT = r"65,53[56]|\blimit\b"
# A public function that may return an error for missing memory. One that doesn't read `_alloc` always succeeds.
ALLOCATES = r"\n *pub fn \w+[^{;]*?\balloc: Global\b[^{;]*?-> Result<[^{;]*?(?:AllocError|BootFault|JoinFault|RunFault)>"
SECTION = "## What a mutant could still pass"


@pytest.mark.parametrize("page", ["docs/proved.md", "docs/security.md"])
def test_each_claim_of_the_law_of_a_wire_has_its_limit(page):
    """Each row, item or paragraph that names the law, or a function that states it, names the limit of sends."""
    parts = [it for it in re.split(r"\n(?=[|\n-])", read(page)) if re.search(LAW, it)]
    assert parts, f"{page}:1: the page doesn't name the law"
    none_of(Fault(f"{page}:1", "no limit of sends", it.strip()[:80]) for it in parts if not re.search(LIMIT, it))


def test_each_crate_that_may_always_lack_memory_says_so():
    """No clause says that there is memory, so the README of a crate names the mutant that always reports the error."""
    lacks = []
    for crate in crates.uses():
        code = "".join("\n" + read(it) for it in sources_of(crate) if not it.endswith("main.rt"))
        said = read(f"crates/{crate}/README.md").partition(SECTION)[2]
        if re.search(ALLOCATES, code) and not re.search(r"[Mm]emory|AllocError", said):
            lacks.append(Fault(f"crates/{crate}/README.md:1", f"'{SECTION[3:]}' doesn't name missing memory"))
    none_of(lacks)
