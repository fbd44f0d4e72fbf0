"""Runs commands from pages as a reader types them: those of SESSIONS in tests/docs/commands.py, in an empty folder,
with the built programs on the path. They must print the output that the page shows. Commands of `rt` need a proof or
minutes, so only their words are checked."""
import itertools
import pathlib
import re
import shutil
import subprocess

import pytest

from tests.docs.commands import SESSIONS, is_of_rt, of_documents
from tests.docs.pages import TOP, Fault, none_of, read

SECONDS = 600


def played(session, scratch, programs):
    """Runs the commands in an empty folder of a reader's home. Returns their statuses and their output."""
    home, path = scratch / "home", scratch / "path"
    for folder in (home, path):
        folder.mkdir()
    for name, program in programs.items():
        (path / name).symlink_to(program)
    for name, it in session.given.items():
        file = home / name
        file.parent.mkdir(parents=True, exist_ok=True)
        if "\n" in it:
            file.write_text(it, encoding="utf-8")
        elif (TOP / it).is_dir():
            file.symlink_to(TOP / it)
        else:
            shutil.copy(programs.get(it, TOP / it), file)
    script = "".join(f"{it}\necho $? >> {scratch}/statuses\n" for it in session.commands)
    for text, other in session.instead.items():
        script = script.replace(text, other)
    environment = {"PATH": f"{path}:/usr/bin:/bin", "HOME": str(home), "PYTHONDONTWRITEBYTECODE": "1"}
    words = ["bash", "-c", f"set -o pipefail\n{script}"]
    streams = {"stdin": subprocess.DEVNULL, "stdout": subprocess.PIPE, "stderr": subprocess.STDOUT}
    done = subprocess.run(words, cwd=home, env=environment, text=True, check=False, timeout=SECONDS, **streams)
    statuses = map(int, (scratch / "statuses").read_text(encoding="utf-8").split())
    return dict(zip(session.commands, statuses)), done.stdout


def shown(session):
    """Returns the output that the page shows: the block after a text, or the comments after a line of a block."""
    rest = read(session.page).partition(session.shown)[2]
    assert session.shown and rest, f"{session.page}:1: it has no text '{session.shown}'"
    if session.shown.startswith("#"):
        block = "\n".join(re.findall(r"(?m)^    # (.*)$", rest.split("\n\n")[0]))
    else:
        block = re.search(r"(?m)(?:^    .*\n|^\n(?=    ))+", rest)[0]
    return [it for it in block.replace(";\n", "; ").split("\n") if it.strip()]


def plain(line):
    """Returns a line without the spacing in which pages and programs differ."""
    return " ".join(line.replace("=>", " ").split())


def missing(wanted, printed):
    """Returns the first of these lines that wasn't printed after the one before it."""
    rest = iter([plain(it) for it in printed])
    return next((it for it in wanted if not any(line.endswith(plain(it)) for line in rest)), None)


@pytest.mark.parametrize("name", [
    pytest.param(it, marks=[pytest.mark.needs(*SESSIONS[it].needs), *[pytest.mark.slow] * bool(SESSIONS[it].needs)])
    for it in SESSIONS
])
def test_session(name, tmp_path, bsdudp, bsdplay):
    session = SESSIONS[name]
    statuses, printed = played(session, tmp_path, {"bsdudp": bsdudp, "bsdplay": bsdplay})
    for command in session.commands:
        wanted, came = session.statuses.get(command, 0), statuses.get(command)
        assert came == wanted, f"{session.page}: `{command}`: status {came}, and not {wanted}: {printed[-2000:]}"
    for lines in ([shown(session)] if session.shown else []) + [session.prints]:
        line = missing(lines, printed.splitlines())
        assert line is None, f"{session.page}: '{line}' isn't printed, or not in the page's order: {printed[-3000:]}"


@pytest.mark.needs("rt")
def test_rt_knows_its_words():
    """`rt --help` names each command and each option of `rt` that a page names."""
    about = ""
    rattle = pathlib.Path(shutil.which("rt")).resolve().with_name("rattle")
    for words in (["rt"], [rattle, "check"]):  # rt gives rattle its flags
        said = subprocess.run([*words, "--help"], capture_output=True, text=True, check=False)
        about += said.stdout + said.stderr
    names = {it for words in re.findall(r"(?m)^(?:usage:)? +rt ([a-z|-]+)", about) for it in words.split("|")}
    faults = []
    for it in of_documents():
        if not is_of_rt(it.text):
            continue
        place, words = re.match(r"(?:cd (\S+) && )?rt (.*)", it.text).groups()
        words = list(itertools.takewhile(lambda word: word != "--", words.split()))
        if place and not (TOP / place).is_dir():
            faults.append(Fault(it.place, f"`{it.text}`: there is no folder {place}"))
        if words[0] not in names | {"--help"}:
            faults.append(Fault(it.place, f"`{it.text}`: rt --help has no command {words[0]}"))
        unknown = {word for word in words[1:] if word.startswith("--") and word not in about}
        faults += [Fault(it.place, f"`{it.text}`: rt --help has no option {one}") for one in sorted(unknown)]
    none_of(faults)


def age(kit):
    """Returns the number and the letters, in the order of kits: 13b, 13f, 14."""
    number, letters = re.fullmatch(r"rattle-kit-(\d+)([a-z]*)", kit).groups()
    return int(number), len(letters), letters


@pytest.mark.needs("rt")
@pytest.mark.parametrize("page", ["README.md", "docs/proved.md"])
def test_page_names_the_kit(page):
    """The logic that a page names is that of the kit on the path, and no kit that it names is newer."""
    version = subprocess.run(["rt", "version"], capture_output=True, text=True, check=True).stdout.strip()
    kit, logic = version.split(" ", 1)
    named = set(re.findall(r"rattle-kit-\w+", read(page)))
    assert set(re.findall(r"logic [0-9a-f]{16}", read(page))) == {logic}, f"{page} names another logic than {version}"
    assert named and all(age(it) <= age(kit) for it in named), f"{page} names {named}, and `rt version` says {version}"
