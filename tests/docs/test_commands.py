"""The commands that README.md, CONTRIBUTING.md and the first lines of each page in docs/ ask their readers to type:
each has a test (commands.py), or a reason why it has none. Commands that need a built program are run in
tests/commands."""
import re
import subprocess
import sys

import pytest

from tests.docs import commands, pages
from tests.docs.pages import TOP, Fault, documents, is_script, none_of, read

HOW = (
    "no test tries this command. Add it to SESSIONS of tests/docs/commands.py, which tests/commands runs, or to ROWS "
    "with the test that does"
)
# Not in pytest --help: an option of xdist, and another spelling.
NOT_IN_HELP = {"-n", "--junitxml"}


def test_each_command_is_tried():
    none_of(Fault(it.place, f"`{it.text}`: {HOW}") for it in commands.of_pages() if not commands.has_way(it.text))


def test_each_row_is_of_a_page():
    """Each row has a command on a page. The commands of SESSIONS are on the page that they name."""
    texts = {it.text for path in documents() for it in pages.commands(path)}
    faults = [
        Fault("tests/docs/commands.py:1", f"{session.page} has no command like this of '{name}'", it)
        for name, session in commands.SESSIONS.items()
        for it in session.commands
        if it not in {one.text for one in pages.commands(session.page)}
    ]
    rows = [*commands.ROWS, *commands.UNTRIED, *commands.NAMES]
    none_of(
        faults
        + [
            Fault("tests/docs/commands.py:1", f"no page has the command `{row}`: delete its row")
            for row in rows
            if not any(commands.is_of(it, row) for it in texts)
        ]
    )


def files_of(subject):
    """Returns the files of a subject of the tests."""
    paths = [TOP / ".ci" / subject, *(TOP / "tests").rglob(f"test_{subject}.py")]
    paths += [*(TOP / "tests" / subject).rglob("*"), *(TOP / subject / "tests").rglob("*")]
    return [it for it in paths if it.is_file() and it.suffix != ".pyc"]


def test_each_row_names_its_test():
    """The test of a command contains it, or the part that its row names."""
    faults = []
    for command, (subject, part) in commands.ROWS.items():
        files = files_of(subject)
        if not files:
            faults.append(Fault("tests/docs/commands.py:1", f"`{command}`: there are no tests of {subject}"))
        elif not any(part in it.read_text(encoding="utf-8", errors="replace") for it in files):
            names = ", ".join(str(it.relative_to(TOP)) for it in files[:4])
            came = f"nothing in {names}"
            faults.append(Fault("tests/docs/commands.py:1", f"`{command}`: not tried there", part, came))
    none_of(faults)


def test_packages_are_those_of_the_gate():
    """Each Debian package that a page installs is one that .ci/setup installs, or part of each Debian system."""
    known = set(re.findall(r"[a-z0-9+.-]+", read(".ci/setup"))) | {"python3"}
    none_of(
        Fault(it.place, f"`{it.text}`: .ci/setup doesn't install {package}")
        for it in commands.of_documents()
        for package in commands.packages_of(it.text)
        if package not in known
    )


def test_pytest_finds_its_tests():
    """Each file and folder of tests that a page passes to pytest exists, and each option is one of pytest's or ours."""
    faults = []
    words = [sys.executable, "-m", "pytest", "--help"]
    about = subprocess.run(words, cwd=TOP, capture_output=True, text=True, check=True)
    for it in commands.of_documents():
        words = it.text.partition("pytest")[2].split() if commands.is_of_pytest(it.text) else []
        missing = [word for word in words if word.startswith("tests") and not (TOP / word).exists()]
        faults += [Fault(it.place, f"`{it.text}`: there is no {word}") for word in missing]
        options = {word.partition("=")[0] for word in words if re.match("--?[a-z]", word)} - NOT_IN_HELP
        faults += [
            Fault(it.place, f"`{it.text}`: pytest has no option {word}")
            for word in sorted(options)
            if not re.search(rf"(?m)^ +{word}\b|, {word}\b", about.stdout)
        ]
    none_of(faults)


@pytest.mark.needs("make")
def test_make_knows():
    """Each target and variable that a page names is in the Makefile, and what the target calls exists."""
    makefile, faults = read("Makefile"), []
    for it in commands.of_documents():
        if not commands.is_of_make(it.text):
            continue
        words = it.text.split()[1:]
        for name in (word.partition("=")[0] for word in words if "=" in word):
            if f"$({name})" not in makefile and f"$(if $({name})" not in makefile:
                faults.append(Fault(it.place, f"`{it.text}`: the Makefile has no variable {name}"))
        done = subprocess.run(["make", "-n", *words], cwd=TOP, capture_output=True, text=True, check=False)
        called = re.findall(r"(?m)^((?:\.ci|[a-z]+)/[\w.-]+)(?= |$)", done.stdout)
        if done.returncode:
            faults.append(Fault(it.place, f"`{it.text}`: {done.stderr.strip()}"))
        faults += [Fault(it.place, f"`{it.text}`: there is no {path}") for path in called if not is_script(path)]
    none_of(faults)


def test_scripts_know_their_options():
    """Each option that a page passes to a script of this repository is in its --help."""
    faults, helps = [], {}
    for it in commands.of_documents():
        script, *words = it.text.split()
        options = [word for word in words if re.match(r"--?\w", word)]
        if is_script(script) and options:
            if script not in helps:
                done = subprocess.run([TOP / script, "--help"], capture_output=True, text=True, check=False)
                helps[script] = done.stdout
            unknown = set(options) - set(re.findall(r"(?<![\w-])--?\w[\w-]*", helps[script]))
            faults += [Fault(it.place, f"`{it.text}`: {script} has no option {one}") for one in sorted(unknown)]
    none_of(faults)
