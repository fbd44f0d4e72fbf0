"""The completion of bsdudp and bsdplay in bash."""
import re
import subprocess

from tests.bsdplay.runs import run
from tests.cases import TOP


def completed(program, *words):
    """Returns what bash offers for the last word of a command line."""
    script = 'source dist/completion; COMP_WORDS=("$@") COMP_CWORD=$(($# - 1)); _$(basename "$1") "$1"'
    script += '; printf "%s\\n" "${COMPREPLY[@]}"'
    done = subprocess.run(
        ["bash", "-c", script, "bash", program, *words], cwd=TOP, capture_output=True, text=True, check=True
    )
    assert not done.stderr, done.stderr
    return set(done.stdout.split())


def test_bsdplay(bsdplay):
    """It offers the options that the help lists, commands, and files."""
    for words in ([], ["why"]):
        listed = set(re.findall(r"(?m)^ +(?:-\w, )?(--[a-z-]+)", run(bsdplay, *words, "--help").stdout.decode()))
        assert len(listed) >= 6 and listed <= completed(bsdplay, *words, "--")
    assert completed(bsdplay, "--see") == {"--seed", "--seeds"}
    assert completed(bsdplay, "--color", "a") == {"auto", "always"}
    assert completed(bsdplay, "why", "--fail-on", "") == {"packet", "stack", "offload", "cut", "unfinished"}
    for option in ("--addr", "--bcast", "--flow", "--mac", "--port", "--records"):
        assert completed(bsdplay, "why", option, "READ") == set()
    assert "why" in completed(bsdplay, "w") and "README.md" in completed(bsdplay, "READ")
    assert "README.md" in completed(bsdplay, "why", "READ")


def test_the_manual_page_has_the_options(bsdplay, tmp_path):
    subprocess.run([TOP / "dist/man", tmp_path], check=True)
    text = re.sub(r"\\f.|\\", "", (tmp_path / "bsdplay.1").read_text(encoding="utf-8"))
    page = set(re.findall(r"--[a-z-]+", text))
    for words in ([], ["why"]):
        listed = set(re.findall(r"--[a-z-]+", run(bsdplay, *words, "--help").stdout.decode()))
        assert len(listed) >= 6 and listed <= page, listed - page


def test_values_have_the_names_of_the_page(bsdplay):
    page = (TOP / "docs/scripts.md").read_text(encoding="utf-8")
    usage = re.search(r"(?m)^    bsdplay \[--quiet\](?:.*\n)+?\n", page)[0]
    for words in ([], ["why"]):
        values = re.findall(r"(--[a-z-]+) <([^>]+)>", run(bsdplay, *words, "--help").stdout.decode())
        assert len(values) >= 7 and not [it for it in values if " ".join(it) not in usage]


def test_bsdudp(bsdudp):
    assert completed(bsdudp, "") == {"run", "chain"}
    assert completed(bsdudp, "chain", "--") == {"--mbufs", "--clusters"}
    assert completed(bsdudp, "run", "--") == {"--addr", "--bcast", "--mtu", "--mbufs", "--clusters", "--id"}
