"""No sentence of a page has more than 40 words: users' and maintainers' pages and each README. Tables, headings and
blocks of code don't count, and a piece of code in a sentence is one word."""
import re
from typing import Iterator

import pytest

from tests.docs.pages import Fault, documents, none_of, read

MOST = 40
PAGES = [it for it in documents() if it != "CHANGELOG.md"]
ENDS = re.compile(r"""(?<=[^.][.!?])["')*]*\s+(?=["'(*\[`]*\w)""")


def paragraphs(text: str) -> Iterator[tuple[int, str]]:
    """Yields each paragraph and each item of a list, with the number of its first line."""
    begin, held, fence = 0, [], False
    for number, line in enumerate([*text.split("\n"), ""], 1):
        mark = line.startswith("```")
        other = fence or mark or not line or line.startswith(("    ", "|", "#", "!["))
        item = re.match(r"> ?| *(?:[-*]|\d+\.) ", line)
        if held and (other or item and not line.startswith(">")):
            yield begin, " ".join(held)
            held = []
        fence ^= mark
        if not other:
            begin = begin if held else number
            held.append(line[item.end() if item else 0 :].strip())


def sentences(text: str) -> Iterator[tuple[int, str]]:
    """Yields each sentence of a page's text, with the line of its paragraph. Code is one word; links are their texts."""
    for number, it in paragraphs(text):
        it = re.sub(r"\[([^\]]*)\]\([^)]*\)", r"\1", it)
        it = re.sub(r"`[^`]+`", lambda code: re.sub(r"\s", "_", code[0]), it)
        for sentence in ENDS.split(it):
            yield number, sentence


def long_sentences(path: str) -> list[Fault]:
    """Returns the sentences of a page that are too long."""
    found = ((number, it, len(it.split())) for number, it in sentences(read(path)))
    return [Fault(f"{path}:{number}", f"{count} words: {it}") for number, it, count in found if count > MOST]


@pytest.mark.parametrize("path", PAGES)
def test_sentences_are_short(path):
    none_of(long_sentences(path))


def test_a_long_sentence_is_found():
    """Lines, a link and code of several words don't hide it. A full stop, a list and a table end it."""
    long = "\n".join(["one [two three](x y z.md) `four five six`", *["and one"] * 18, "or more."])
    assert [len(it.split()) for _, it in sentences(long)] == [42]
    for end in (".\nand ", "\n- and ", "\n| and "):
        assert all(len(it.split()) <= MOST for _, it in sentences(long.replace("\nand ", end, 9)))
