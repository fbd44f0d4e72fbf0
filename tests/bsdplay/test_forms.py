"""The forms in which bsdplay prints a script's replies. Without its escape sequences, coloured output is the plain
text. The objects of --json contain the plain text if their bytes are printed as text, and the output of --quiet if all
digits are printed. Then how bytes are printed, how many replies are written at once, when colours are used, and which
options exclude each other."""
import json
import os
import pty
import re
import socket
import subprocess

import pytest

from tests.bsdplay.runs import of_lines, run, same
from tests.cases import TOP, other_line
from tools import tried, version

PLAY = TOP / "examples/play"
FOLDERS = ("", "wire/", "ether/")
SCRIPTS = [str(it.relative_to(PLAY)) for folder in FOLDERS for it in sorted((PLAY / folder).glob("*.txt"))]
SGR = re.compile(rb"\x1b\[3[123]m([^\x1b\n]+)\x1b\[0m")
OBJECT = ["number", "file", "line", "reply", "below", "expected", "met"]
FAULT = ["number", "file", "column", "fault"]


def same_text(asked, came, wanted):
    """Fails the test if a line of a text differs from the expected one."""
    if came != wanted:
        at, both = other_line(wanted, came)
        pytest.fail(f"{asked}: line {at + 1}{both}", pytrace=False)


def test_a_program_without_a_proof_says_so(bsdplay):
    """Its version has the mark that the C library's has. No other program has it."""
    mark = tried.MARK if bsdplay.parent == tried.KEPT else ""
    assert run(bsdplay, "--version").stdout.decode() == f"bsdplay {version.newest()}{mark}\n"


# ---- scripts in each form ------------------------------------------------------------------------------------------


@pytest.fixture
def prints(bsdplay):
    """prints(SCRIPT, OPTIONS ..) returns what the program prints for a script in examples/play."""
    return lambda script, *words: run(bsdplay, *words, PLAY / script).stdout


@pytest.mark.parametrize("words", [[], ["--quiet"]], ids=["plain", "quiet"])
@pytest.mark.parametrize("script", SCRIPTS)
def test_colours_change_nothing_but_colours(script, words, prints):
    coloured = prints(script, *words, "--color", "always")
    same_text(f"{script} in colours, without them", SGR.sub(rb"\1", coloured), prints(script, *words))


@pytest.mark.parametrize("script", SCRIPTS)
def test_objects_stand_for_the_plain_and_the_quiet_text(script, prints):
    texts = [False]
    for line in (PLAY / script).read_bytes().split(b"\n"):
        texts.append(texts[-1] or b'"' in line.split(b"#", 1)[0])
    printed = prints(script, "--json").decode("ascii").splitlines()
    told = [text_of(it, str(PLAY / script), texts[1:]) for it in map(json.loads, printed) if "fate" not in it]
    assert told, f"{script}: no objects"
    plain, quiet = ("".join(column).encode("latin-1") for column in zip(*told))
    same_text(f"{script}: the objects as the plain text", plain, prints(script))
    replies = [it for it in prints(script, "--quiet").splitlines(keepends=True) if not it.startswith(b"    ")]
    same_text(f"{script}: the objects as the quiet text", quiet, b"".join(replies))


def text_of(told, name, texts):
    """Returns the plain text for an object, and its text with --quiet. `texts` has, for each line of the script,
    whether a text in quotes occurs in it or before it."""
    same("the script of an object", told["file"], name)
    same("the members of an object", list(told), FAULT if "fault" in told else OBJECT)
    if "fault" in told:
        column = "" if told["column"] is None else f"{told['column']}:"
        return [f"{name}:{told['number']}:{column} {told['fault']}\n"] * 2
    same(f"{told}: nothing is expected", told["expected"] is None, told["met"] is None)
    number, reply, wanted = told["number"], told["reply"], told["expected"]
    plain, quiet = f"{number}  {told['line']} => {seen(reply, texts[number - 1])}\n{told['below']}", f"{reply}\n"
    if told["met"] is False:
        pair = [seen(it, texts[number - 1]) for it in (wanted, reply)]
        plain += f"{name}:{number}: expected {pair[0]}, got {pair[1]}{apart(wanted, reply)}\n"
        quiet += f"{name}:{number}: expected {wanted}, got {reply}\n"
    return plain, quiet


def bytes_text(digits, texts):
    """Returns what is printed for the digits of bytes: a text, if the script has texts and these bytes are
    printable."""
    raw = bytes.fromhex(digits)
    is_text = any(32 <= it <= 126 for it in raw) and all(32 <= it <= 126 or it in b"\n\r\t\0" for it in raw)
    if not texts or not is_text:
        return digits
    escapes = {10: "\\n", 13: "\\r", 9: "\\t", 0: "\\0", 34: '\\"', 92: "\\\\"}
    return '"' + "".join(escapes.get(it, chr(it)) for it in raw) + '"'


def digits_of(reply):
    """Returns the digits of the bytes in a reply, or None if it has no bytes."""
    match = re.match(r"(?:packet|from \S+ \S+) ((?:[0-9a-f]{2})+)(?: |$)", reply)
    return match and match[1]


def seen(reply, texts):
    """Returns a reply with its bytes as they are printed in plain output."""
    digits = digits_of(reply)
    if digits is None:
        return reply
    text = bytes_text(digits, texts)
    if len(digits) > 128:
        text = f"{bytes_text(digits[:64], texts)}..{bytes_text(digits[-16:], texts)} ({len(digits) // 2} bytes)"
    if reply.startswith("packet"):
        return reply.replace(digits, text, 1)
    return re.sub(r"^(\S+ \S+ \S+ )\S+", lambda it: it[1] + text, reply, count=1)


def apart(wanted, reply):
    """Returns the text that names the first byte in which two replies differ, if either is cut."""
    first, second = digits_of(wanted) or "", digits_of(reply) or ""
    at = next((at for at, (one, other) in enumerate(zip(first, second)) if one != other), None)
    return "" if at is None or max(len(first), len(second)) <= 128 else f", which differ from byte {at // 2} on"


# ---- bytes ---------------------------------------------------------------------------------------------------------

GET, GOT = "recvfrom 3 9999", "from 10.0.0.1 7 "
AA, COUNT, LONG = "a" * 32, bytes(range(32)).hex(), f"{'00' * 32}..0000000000000000 (199 bytes)"
SHORTER = LONG.replace("199", "198")
# Bytes that are sent, a line that receives them, and what is printed for them and for the difference.
BYTES = [
    ("6869", GET, ["6869"]),
    ("6869", GET + ' # => "hi"', ["6869"]),
    ('"hi"', GET, ['"hi"']),
    ("6869", GET + ' => from _ _ "hi"', ['"hi"']),
    ("6869", GET + ' => from _ _ "ho"', ['"hi"', f'_ _ "ho", got {GOT}"hi"']),
    ("6869", GET + " => from _ _ 686f", ["6869", f"_ _ 686f, got {GOT}6869"]),
    ('"a\\n\\r\\t\\0\\"\\\\"', GET, ['"a\\n\\r\\t\\0\\"\\\\"']),
    ('"a" + 01', GET, ["6101"]),
    ('00*3 # "', GET, ["000000"]),
    ('"\\0"', GET, ["00"]),
    ('"a"*64', GET, [f'"{AA}{AA}"']),
    ('"a"*65', GET, [f'"{AA}".."aaaaaaaa" (65 bytes)']),
    ("@64", GET, [bytes(range(64)).hex()]),
    ("@65", GET, [f"{COUNT}..393a3b3c3d3e3f40 (65 bytes)"]),
    ('"a"*40 + 00*40', GET, [f'"{AA}"..0000000000000000 (80 bytes)']),
    ("-", GET, ["-"]),
    ("00*99 + 01 + 00*99", GET + " => from _ _ 00*199",
     [LONG, f"_ _ {LONG}, got {GOT}{LONG}, which differ from byte 99 on"]),
    ("00*199", GET + " => from _ _ 00*198", [LONG, f"_ _ {SHORTER}, got {GOT}{LONG}"]),
]  # fmt: skip


@pytest.mark.parametrize("sent, line, got", BYTES, ids=[f"{sent}, {line}" for sent, line, _ in BYTES])
def test_bytes_are_printed_as_the_script_writes_them(sent, line, got, bsdplay):
    script = of_lines(["socket", "bind 3 0.0.0.0 7", f"sendto 3 10.0.0.1 7 {sent}", line])
    printed = run(bsdplay, script=script).stdout.decode().splitlines()
    wanted = [f"4  {GET} => {GOT}{got[0]}", *[f"-:4: expected from {it}" for it in got[1:]]]
    same(f"of {sent}, by {line}", [it for it in printed if it.startswith(("4 ", "-:4:"))], wanted)


# ---- system calls --------------------------------------------------------------------------------------------------


@pytest.mark.parametrize("words", [[], ["--quiet"], ["--color", "always"], ["--json"]], ids=" ".join)
def test_replies_are_written_together(words, bsdplay):
    """A packet of this socket has what one `write` of the program wrote. The script is short enough for one `read`."""
    ours, its = socket.socketpair(socket.AF_UNIX, socket.SOCK_SEQPACKET)
    script = of_lines(["socket", "bind 3 0.0.0.0 7", *['sendto 3 10.0.0.1 7 "hi"', "recvfrom 3 9"] * 20])
    with ours:
        with its:
            subprocess.run([bsdplay, *words], input=script.encode(), stdout=its, check=False)
        written = list(iter(lambda: ours.recv(1 << 20), b""))
    assert len(written) == 1 and written[0].count(b"\n") >= 42, f"{len(written)} writes"


# ---- options -------------------------------------------------------------------------------------------------------


def on_a_terminal(program, **more):
    """Returns what the program prints for a line if its standard output is a terminal."""
    front, back = pty.openpty()
    subprocess.run([program], input=b"socket\n", stdout=back, check=False, **more)
    os.close(back)
    said = os.read(front, 4096)
    os.close(front)
    return said


COLOURS = {
    "without NO_COLOR": ({}, True),
    "NO_COLOR=1": ({"NO_COLOR": "1"}, False),
    "NO_COLOR=": ({"NO_COLOR": ""}, True),
}


@pytest.mark.needs("pty")
@pytest.mark.parametrize("name", COLOURS)
def test_a_terminal_has_colours_unless_no_color_says_otherwise(name, bsdplay):
    more, wanted = COLOURS[name]
    bare = {name: value for name, value in os.environ.items() if name != "NO_COLOR"}
    printed = on_a_terminal(bsdplay, env={**bare, **more})
    same(f"{printed!r}: colours", b"\x1b" in printed, wanted)


@pytest.mark.parametrize("words", [["--color", "sometimes"], ["--json", "-q"]], ids=" ".join)
def test_a_wrong_option_ends_with_status_2(words, bsdplay):
    ended = run(bsdplay, *words)
    same(f"{words}: status and replies", (ended.returncode, ended.stdout), (2, b""))
    assert ended.stderr.startswith(b"bsdplay: --"), ended.stderr
