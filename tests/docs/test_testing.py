"""docs/maintain/testing.md: each word in the tables selects some tests, and each file of tests has a word."""
import re

from tests.docs.pages import TOP, Fault, in_code, none_of, read, table

PAGE = "docs/maintain/testing.md"


def words():
    """Returns the words in the tables, each with the place of its row."""
    sections = read(PAGE).split("\n## ")[1:]
    names = [it.partition("\n")[0] for it in sections if "\n| What is tested | Word |" in it]
    rows = [row for it in names for row in table(PAGE, it, "What is tested", "Word")[1]]
    return {word: row.place for row in rows for word in in_code(row.cells[1])}


def test_words_select_tests():
    """Selects as `pytest -k` does: by the names of folders, files and functions, and of tables of dialogs."""
    names = [str(it.relative_to(TOP)) for it in (TOP / "tests").rglob("test_*.py")]
    text = "".join((TOP / it).read_text(encoding="utf-8") for it in names)
    functions = re.findall(r"(?m)^def (test_\w+)", text)
    known = names + functions + [it.name for it in (TOP / "crates/bsdudp/scripts").glob("*.dialogs")]
    none_of(
        Fault(place, f"`pytest -k {it}` selects no test")
        for it, place in words().items()
        if not any(it in one for one in known)
    )


def test_each_file_has_a_word():
    """Each file of tests is selected by a word on the page."""
    known = words()
    none_of(
        Fault(f"{path}:1", f"{PAGE} has no row whose word selects this file")
        for path in sorted(str(it.relative_to(TOP)) for it in (TOP / "tests").rglob("test_*.py"))
        if not path.endswith("test_testing.py") and not any(it in path for it in known)
    )
