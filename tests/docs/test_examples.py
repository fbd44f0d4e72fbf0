"""What pages say about examples/: a row for each script, and the output that docs/tour.md shows. README's program is a
file, and its output of `why` is in a golden file."""
import re
import textwrap

import pytest

from tests import goldens
from tests.docs.pages import TOP, Fault, lines, none_of, read

TOUR = "docs/tour.md"


def test_each_example_has_a_line():
    """examples/README.md has a row for each script, and each row its script. Exercises aren't scripts to play."""
    folder = TOP / "examples"
    scripts = {str(it.relative_to(folder)) for it in folder.rglob("*.txt") if it.parent.name != "exercises"}
    rows = re.findall(r"(?m)^\| `([^`]+\.txt)` \|", read("examples/README.md"))
    assert sorted(scripts) == sorted(rows)


def test_readmes_program_is_a_file():
    """The file has README's program after a comment."""
    begins = "import bsdudp"
    (shown,) = re.findall(rf"(?m)^    {begins}\n(?:    .*\n)+", read("README.md"))
    there = read("python/examples/first.py").partition(f"\n{begins}\n")[2]
    assert there == textwrap.dedent(shown).removeprefix(f"{begins}\n")


def test_readmes_output_of_why_is_in_a_golden_file():
    """Each line that README shows of `make why` is printed for its capture, in this order."""
    shown = re.search(r"(?m)^    2  .*\n(?:    .*\n)+", read("README.md"))[0]
    (golden,) = (it for it in goldens.of_transcript(goldens.OPTIONS) if it.words == ["why", "examples/play/faults.pcap"])
    there = iter(goldens.text_lines(golden.text))
    lacking = [it for it in textwrap.dedent(shown).splitlines() if it not in there]
    assert not lacking


def quoted():
    """Yields each script that the tour plays, with the lines of output that it shows before it plays another one."""
    script, rows = "", []
    for place, line in lines(TOUR):
        command = re.match(r"    (?:bsdplay|bsdudp chain <) (examples/\S+)", line)
        if command or line.startswith("## "):
            if rows:
                yield script, rows
            script, rows = command[1] if command else "", []
        elif script and line.startswith("    ") and not line.startswith("        sed "):
            rows.append((place, line[4:]))
    if rows:
        yield script, rows


def printed(script):
    """Returns what a script prints: the golden output of a play script, or the lines and replies of a chain script."""
    if "/chain/" in script:
        return map(" => ".join, zip(read(script).splitlines(), read(f"{script}.stdout").splitlines()))
    return goldens.text_lines(next(it.text for it in goldens.of_transcript(goldens.SCRIPTS) if it.words == [script]))


def pattern(text):
    """Returns a pattern for a line in the tour. In a chain script, `..` matches any text. After two spaces comes the
    reply."""
    asked, reply, *_ = [*re.split(r"\s{2,}", text), ""]
    return re.compile(".*".join(re.escape(it) for it in f"{asked} => {reply}".split("..")))


@pytest.mark.parametrize("script, rows", [pytest.param(*it, id=it[0]) for it in quoted()])
def test_tour(script, rows):
    """The script prints these lines, in this order."""
    there = iter(printed(script))
    none_of(
        Fault(place, f"{script} doesn't print this line, or in another order: {row}")
        for place, row in rows
        if not any(pattern(row).fullmatch(it) if "/chain/" in script else row == it for it in there)
    )


def test_tour_is_tried():
    """The tour's quotes are found: about fourteen scripts."""
    assert len(list(quoted())) >= 12
