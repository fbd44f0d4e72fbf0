"""The code in docs/python.md, run as a reader does: each piece continues those above it. A line must print what its
comment shows."""
import ast
import contextlib
import doctest
import inspect
import io
import re
import socket
import subprocess
import sys
import textwrap

import pytest

from tests.cases import TOP
from tests.python.package import bsdudp

PAGE = (TOP / "docs/python.md").read_text(encoding="utf-8")
PIECES = re.findall(r"```python\n(.*?)```", PAGE, re.S)
PRINTED = re.compile(r"print\(.*\)\s+# ([<(\[{'0-9A-Z].*)")
# The names that the package exports, read without loading it, because its library may not be built yet.
(EXPORTED,) = (
    ast.literal_eval(it.value)
    for it in ast.parse((TOP / "python/bsdudp/__init__.py").read_text(encoding="utf-8")).body
    if isinstance(it, ast.Assign) and it.targets[0].id == "__all__"
)


def run(piece, names):
    """Runs a piece, statement by statement. A statement with an output in its comment must print exactly that."""
    lines = piece.splitlines()
    for statement in ast.parse(piece).body:
        text = "\n".join(lines[statement.lineno - 1 : statement.end_lineno])
        said = io.StringIO()
        with contextlib.redirect_stdout(said):
            exec(compile(text, "docs/python.md", "exec"), names)
        told = PRINTED.findall(text)
        if told:
            assert said.getvalue().splitlines() == told


def test_counters():
    """The table of counters to which the page links names all of them, in order."""
    assert "behaviour.md#counters" in PAGE
    section = (TOP / "docs/behaviour.md").read_text(encoding="utf-8").split("## Counters")[1].split("\n## ")[0]
    assert re.findall(r"^\| `([a-z.]+)` \|", section, re.M) == list(bsdudp.Stack().counters)


@pytest.mark.parametrize("name", ["Stack", "Host", "Wire"])
def test_signatures(name):
    """The page shows each parameter of a constructor, with its default."""
    (shown,) = re.findall(rf"^`({name}\([^`]*\))`", PAGE, re.M)
    call = ast.parse(shown, mode="eval").body
    wanted = {each.arg: ast.literal_eval(each.value) for each in call.keywords}
    wanted = {each.id: inspect.Parameter.empty for each in call.args} | wanted
    found = inspect.signature(getattr(bsdudp, name)).parameters
    assert [(each.name, each.default) for each in found.values()] == list(wanted.items())


def test_socket_methods():
    """The page's lists of present and missing methods together have all methods of a Python socket."""
    section = PAGE.split("## A socket")[1].split("##")[0]
    there, table = section.split("Unlike Python's")
    lacking = re.search(r"^\| Missing \| (.*) \|$", table, re.M)[1]
    public = {name for name in dir(socket.socket) if not name.startswith("_")}
    assert set(re.findall(r"`(\w+)`", lacking)) == public - set(dir(bsdudp.Socket))
    methods = {name for name in public if callable(getattr(bsdudp.Socket, name, None))}
    assert {name for name in re.findall(r"`(\w+)`", there)} - {"with"} == methods


@pytest.mark.needs("scapy")
def test_pieces(tmp_path, monkeypatch):
    monkeypatch.chdir(tmp_path)
    names = {"__name__": "__reader__"}
    for piece in PIECES:
        if "__main__" not in piece:
            run(piece, names)


def test_readme(capsys):
    """README's lines, up to the next paragraph."""
    text = (TOP / "README.md").read_text(encoding="utf-8")
    piece = re.search(r"^    import bsdudp\n(?:    .*\n)+", text, re.M)[0]
    exec(compile(textwrap.dedent(piece), "README.md", "exec"), {})
    assert capsys.readouterr().out == "(b'hi', ('10.0.0.1', 1024)) Counters(ip.total=1)\n"


def test_sweep(tmp_path):
    (piece,) = (piece for piece in PIECES if "__main__" in piece)
    (tmp_path / "through.py").write_text(piece)
    ran = subprocess.run([sys.executable, tmp_path / "through.py"], capture_output=True, text=True, check=True)
    assert ran.stdout.splitlines() == PRINTED.findall(piece)


@pytest.mark.parametrize("name", [it for it in EXPORTED if it == "sweep" or it[0].isupper() and not it.isupper()])
def test_docstring(name):
    """Each class, and `sweep`, has an example, which prints the output shown."""
    finder = doctest.DocTestFinder(recurse=False)
    (found,) = finder.find(getattr(bsdudp, name), name, globs={"bsdudp": bsdudp})
    assert found.examples
    assert doctest.DocTestRunner().run(found).failed == 0
