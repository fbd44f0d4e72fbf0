"""The version: each place that names it has the newest one in CHANGELOG.md. CITATION.cff has its release date, and
README.md that date or that it isn't released."""
import re

import pytest

from tests.docs.pages import Fault, none_of, read
from tools import version

NUMBER = r"(\d+\.\d+\.\d+)"
PLACES = {
    "README.md": rf"This is version\s+{NUMBER}",
    "CITATION.cff": rf"^version: {NUMBER}$",
    "capi/include/bsdudp.h": rf'^#define BSDUDP_VERSION "{NUMBER}"$',
    "crates/bsdplay/src/main.rt": rf'\.version\("{NUMBER}"\)',
    "crates/bsdplay/src/typed.rt": rf'b"bsdplay {NUMBER} plays',
    "conform/pyproject.toml": rf'^version = "{NUMBER}"$',
    "dist/tag.txt": rf"^bsdudp {NUMBER}$",
    "docs/c.md": r"find_package\(bsdudp (\d+\.\d+) ",
    "python/bsdudp/__init__.py": rf'^__version__ = "{NUMBER}"$',
    "python/pyproject.toml": rf'^version = "{NUMBER}"$',
    "tools/editors/vscode/package.json": rf'^  "version": "{NUMBER}",$',
}


@pytest.mark.parametrize("path", PLACES)
def test_version(path):
    newest, text = version.newest(), read(path)
    found = list(re.finditer(PLACES[path], text, re.M))
    if not found:
        none_of([Fault(f"{path}:1", "the version isn't named as in", PLACES[path])])
    none_of(
        Fault(f"{path}:{text.count(chr(10), 0, it.start(1)) + 1}", "CHANGELOG.md has another version", newest, it[1])
        for it in found
        if it[1] not in (newest, newest.rpartition(".")[0])
    )


def test_day_of_citation():
    cited = re.search(r"(?m)^date-released: (.*)$", read("CITATION.cff"))
    came, wanted = (cited[1] if cited else "unreleased"), str(version.released() or "unreleased")
    if came != wanted:
        none_of([Fault("CITATION.cff:1", "CHANGELOG.md has another day of release", wanted, came)])


def test_day_of_readme():
    says = f"released on {version.released()}" if version.released() else "unreleased"
    if not re.search(rf"This is version {NUMBER}, {says}\b", " ".join(read("README.md").split())):
        none_of([Fault("README.md:1", "it doesn't say behind its version what CHANGELOG.md says", says)])
