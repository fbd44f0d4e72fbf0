"""The manual pages, which scripts write: groff formats them without a warning."""
import re
import subprocess
import sys

import pytest

from tests.docs.pages import TOP, part

PAGES = ["bsdudp.1", "bsdplay.1", "bsdudp-conform.1", "bsdudp.3"]


@pytest.fixture(scope="session")
def manual(once):
    """A folder with the manual pages."""

    def make(folder):
        subprocess.run([sys.executable, TOP / "dist/man", folder], check=True)
        made = subprocess.run([sys.executable, TOP / "dist/man3"], capture_output=True, check=True)
        (folder / "bsdudp.3").write_bytes(made.stdout)

    return once("manual", make)


@pytest.mark.parametrize("page", PAGES)
def test_manual_page(page, manual):
    """It can be made, and has the sections of a manual page."""
    text = (manual / page).read_text(encoding="utf-8")
    assert text.startswith(".TH") and ".SH NAME" in text, f"{page}: {text[:200]}"


@pytest.mark.parametrize("program", ["bsdudp", "bsdplay"])
def test_synopsis(program, manual):
    """It has each form of the command line that docs/scripts.md has, word for word."""
    said = part("docs/scripts.md", f"## The command line of {program}\n", "\n| ").replace("\n        [", " [")
    forms = re.findall(rf"(?m)^    {program} (.*)", said)
    assert forms and synopsis(manual, program) == forms


def synopsis(manual, program):
    """Returns the forms of the command line that a manual page has."""
    text = (manual / f"{program}.1").read_text(encoding="utf-8").replace("\\-", "-").replace("\\ ", " ")
    return re.findall(rf"(?m)^\.SY {program}\n(.*)\n\.YS$", text)


@pytest.mark.parametrize("table, form", [("OPTIONS", "--"), ("WHY_OPTIONS", "why ")])
def test_options_of_bsdplay(table, form, manual):
    """The manual page's synopsis and a table of a page have each option of the program's help, and no others; the
    completion reads the help."""
    of_help = set(re.findall(r'long: "([a-z-]+)"', part("crates/bsdplay/src/options.rt", f" {table}: [", "\n];")))
    forms = " ".join(it for it in synopsis(manual, "bsdplay") if it.startswith("why ") == (form == "why "))
    assert set(re.findall(r"--([a-z-]+)", forms)) == of_help | ({"quiet"} if form == "--" else set())
    pages = {"why ": ["captures"], "--": ["scripts", "captures", "teaching"]}[form]
    told = "".join((TOP / f"docs/{it}.md").read_text(encoding="utf-8") for it in pages)
    assert not {it for it in of_help if f"`--{it}" not in told}


@pytest.mark.needs("groff")
@pytest.mark.parametrize("page", PAGES)
def test_groff(page, manual):
    words = ["groff", "-man", "-ww", "-z", manual / page]
    done = subprocess.run(words, capture_output=True, text=True, check=False)
    said = (done.stdout + done.stderr).replace(f"{manual}/", "")
    assert done.returncode == 0 and not said, f"status {done.returncode}: {said}"
