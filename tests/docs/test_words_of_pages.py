"""No page has more words than its limit, in text and tables: what a new feature adds, it takes from the same page.
Code blocks don't count."""
import re

import pytest

from tests.docs.pages import TOP, documents

LIMITS = {
    "README.md": 700,
    "CONTRIBUTING.md": 1500,
    "docs/DECISIONS.md": 3230,
    "docs/abi.md": 355,
    "docs/behaviour.md": 3486,
    "docs/book.md": 1664,
    "docs/c.md": 1642,
    "docs/captures.md": 1945,
    "docs/device.md": 1784,
    "docs/judge.md": 1560,
    "docs/lab.md": 485,
    "docs/memory.md": 1662,
    "docs/model.md": 2129,
    "docs/ns3.md": 1770,
    "docs/page.md": 1136,
    "docs/performance.md": 1415,
    "docs/proved.md": 2400,
    "docs/python.md": 1785,
    "docs/results.md": 2243,
    "docs/scripts.md": 4150,
    "docs/security.md": 1421,
    "docs/teaching.md": 1514,
    "docs/tour.md": 1447,
    "docs/maintain/answers.md": 760,
    "docs/maintain/architecture.md": 680,
    "docs/maintain/gate-times.md": 860,
    "docs/maintain/recipes.md": 2780,
    "docs/maintain/testing.md": 3520,
    "docs/maintain/words.md": 880,
}
# The most words of all pages for users, and of all for maintainers.
OF_USERS, OF_MAINTAINERS = 36_000, 12_700
# The most words of a crate's README: no lists of calls and definitions, which the sources document.
OF_A_CRATE = 700
# README has its first screen on few lines.
LINES_OF_README = 90


def words(path):
    """Returns the number of words of a page, without code blocks."""
    text = re.sub(r"(?ms)^```.*?^```$", "", (TOP / path).read_text(encoding="utf-8"))
    return len(re.sub(r"(?m)^(    |\|[-:| ]+\|$).*", "", text).split())


@pytest.mark.parametrize("path", LIMITS)
def test_a_page_has_few_words(path):
    count = words(path)
    assert count <= LIMITS[path], f"{path}: {count} words, at most {LIMITS[path]}: take out what other pages say, too"
    assert count > LIMITS[path] * 3 // 4, f"{path}: only {count} words: lower its limit, {LIMITS[path]}"


def test_all_pages_have_few_words():
    of_maintainers = {it for it in LIMITS if it.startswith(("docs/maintain/", "docs/DECISIONS"))}
    of_users = {it for it in LIMITS if it.startswith("docs/")} - of_maintainers
    assert sum(map(words, of_users)) <= OF_USERS and sum(map(words, of_maintainers)) <= OF_MAINTAINERS


def test_each_page_has_a_limit():
    pages = {it for it in documents() if re.fullmatch(r"(README|CONTRIBUTING|docs/.*)\.md", it)}
    assert pages == set(LIMITS)


@pytest.mark.parametrize("crate", sorted(it.parent.name for it in TOP.glob("crates/*/README.md")))
def test_the_readme_of_a_crate_has_few_words(crate):
    count = words(f"crates/{crate}/README.md")
    assert count <= OF_A_CRATE, f"crates/{crate}/README.md: {count} words, at most {OF_A_CRATE}"


def test_readme_is_short():
    assert len((TOP / "README.md").read_text(encoding="utf-8").splitlines()) <= LINES_OF_README
