"""Each link on a page leads to a file that exists, and to a heading in it. Each path in this repository that a page
names exists."""
import functools
import os
import re

import pytest

from tests.docs.pages import OF_THE_PAST, TOP, Fault, documents, in_code, lines, none_of, read

LINK = re.compile(r"\]\(([^)#:\s]*)(?:#([^)\s]*))?\)")
FOLDERS = "bench|capi|conform|crates|dist|docs|examples|page|portable|python|simulators|tests|tools|.ci"
PATH = re.compile(rf"(?:^| )((?:{FOLDERS})/[\w./-]+)(?= |$)")
# A word in capitals is a placeholder, and built files are in a folder out/.
NO_PATH = re.compile(r"[A-Z]{4}|/out/")


@functools.lru_cache(maxsize=None)
def anchors(path: str) -> frozenset[str]:
    """Returns the anchors of a page's headings in Markdown. The second of two equal ones ends with -1."""
    found, fenced = [], False
    for line in read(path).split("\n"):
        fenced ^= line.startswith("```")
        heading = re.match(r"#+ (.*)", line)
        if heading and not fenced:
            text = re.sub(r"\[([^\]]*)\]\([^)]*\)", r"\1", heading[1]).strip().lower()
            found.append(re.sub(r"[^\w\- ]", "", text).replace(" ", "-"))
    return frozenset(f"{it}-{n}" if (n := found[:at].count(it)) else it for at, it in enumerate(found))


@pytest.mark.parametrize("path", documents())
def test_links(path):
    """Each link leads to a file, and the anchor after # to a heading there."""
    faults = []
    for place, line in lines(path):
        for to, anchor in LINK.findall(re.sub(r"`[^`]*`", "", line)):
            there = os.path.normpath(os.path.join(os.path.dirname(path), to)) if to else path
            if not (TOP / there).exists():
                faults.append(Fault(place, f"the link leads to {there}, which isn't there"))
            elif anchor and there.endswith(".md") and anchor not in anchors(there):
                faults.append(Fault(place, f"the link leads to #{anchor}, but {there} has no such heading"))
    none_of(faults)


@pytest.mark.parametrize("path", [it for it in documents() if it not in OF_THE_PAST])
def test_paths(path):
    """Each path in this repository that a page names exists."""
    none_of(
        Fault(place, f"there is no {name}")
        for place, line in lines(path)
        for code in in_code(line)
        for name in PATH.findall(code)
        if not NO_PATH.search(name) and not (TOP / name).exists()
    )
