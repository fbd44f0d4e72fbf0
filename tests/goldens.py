"""Golden output: everything that bsdplay prints for a command line. The test compares it, tools/goldens writes it."""
from __future__ import annotations

import difflib
import json
import pathlib
import re
import shlex
import struct
import subprocess
import tempfile
from typing import Iterator, NamedTuple

TOP = pathlib.Path(__file__).resolve().parent.parent
PLAY = TOP / "examples/play"
# Transcripts of command lines, as in a terminal: that of each play script, and others. A line `$ bsdplay WORDS`, with
# ` => status N` if that isn't 0, comes before the output.
SCRIPTS, OPTIONS = (TOP / f"tests/bsdplay/goldens/{it}.transcript" for it in ("scripts", "options"))
PROMPT = re.compile(rb"(?m)^\$ bsdplay (.*?)(?: => status (\d))?\n")
# In a command line, the file that --pcap writes. Its bytes are part of the output.
CAPTURE = "CAPTURE"
# The differences that a failure shows, and the characters of a line.
SHOWN, WIDEST = 6, 160


class Golden(NamedTuple):
    """A command line of bsdplay, its status, its output, which is None if the transcript lacks it, and the transcript.
    An argument that is the path of a file is relative to the top."""

    words: list[str]
    status: int
    text: bytes | None
    file: pathlib.Path

    @property
    def name(self) -> str:
        """The arguments, without the folders of the scripts."""
        return " ".join(re.sub("^(examples/play|tests/bsdplay/goldens)/", "", it) for it in self.words)


class Output(NamedTuple):
    """The output of a run, and its status."""

    text: bytes
    status: int


def scripts() -> list[pathlib.Path]:
    """Returns the play scripts."""
    return [it for folder in ("", "wire", "ether") for it in sorted((PLAY / folder).glob("*.txt"))]


def of_transcript(file: pathlib.Path) -> Iterator[Golden]:
    """Yields the command lines of a transcript."""
    parts = iter(PROMPT.split(file.read_bytes())[1:])
    for words, status, text in zip(parts, parts, parts):
        yield Golden(words.decode().split(), int(status or 0), text, file)


def each() -> Iterator[Golden]:
    """Yields the command line of each play script, and then the others."""
    known = {it.words[0]: it for it in of_transcript(SCRIPTS)}
    for path in (str(it.relative_to(TOP)) for it in scripts()):
        yield known.get(path, Golden([path], 0, None, SCRIPTS))
    yield from of_transcript(OPTIONS)


def write(outputs: dict[str, bytes]) -> None:
    """Writes both transcripts with these outputs of command lines, by their names."""
    for file in (SCRIPTS, OPTIONS):
        made = b""
        for it in (it for it in each() if it.file == file):
            text = outputs.get(it.name, it.text)
            status = f" => status {it.status}" * (it.status != 0)
            made += b"" if text is None else f"$ bsdplay {' '.join(it.words)}{status}\n".encode() + text
        file.write_bytes(made)


def played(program: pathlib.Path, golden: Golden) -> Output:
    """Runs a built bsdplay. The lines of the capture that it writes, if it's to write one, follow its output."""
    with tempfile.TemporaryDirectory() as folder:
        capture = pathlib.Path(folder) / CAPTURE
        words = [str(program), *(str(capture) if it == CAPTURE else it for it in golden.words)]
        done = subprocess.run(words, cwd=TOP, stdin=subprocess.DEVNULL, capture_output=True, check=False)
        lines = capture_lines(capture.read_bytes()) if CAPTURE in golden.words else []
    return Output(done.stdout + b"".join(lines), done.returncode)


def capture_lines(file: bytes) -> Iterator[bytes]:
    """Yields the header of a capture, and each record: its time, its lengths, and its bytes."""
    yield f"{CAPTURE} {file[:24].hex(' ', 4)}\n".encode()
    at = 24
    while at < len(file):
        seconds, micro, kept, size = struct.unpack_from("<4I", file, at)
        at += 16 + kept
        yield f"{CAPTURE} {seconds}.{micro:06} {kept} {size} {file[at - kept : at].hex()}\n".encode()


def text_lines(text: bytes) -> list[str]:
    """Returns the lines of an output, for a message."""
    return text.decode("utf-8", "backslashreplace").splitlines()


def asked(lines: list[str], at: int) -> str:
    """Returns the script's line that a line of the output is about."""
    for line in reversed(lines[: at + 1]):
        if line.startswith('{"number":'):
            return f"line {json.loads(line)['number']} of the script"
        if plain := re.match(r"(\d+)  (.*?)(?: => .*)?$", line):
            return f"line {plain[1]} of the script: {plain[2]}"
        if fault := re.match(r"\S+?:(\d+):", line):
            return f"line {fault[1]} of the script"
    return "in front of the first line"


def shown(lines: list[str]) -> list[str]:
    """Returns lines for a message, each shortened."""
    cut = [it if len(it) <= WIDEST else f"{it[:WIDEST]}.. ({len(it)} characters)" for it in lines[:SHOWN]]
    more = len(lines) - SHOWN
    return (cut or ["(nothing)"]) + [f"and {more} more lines"] * (more > 0)


def differences(wanted: bytes, came: bytes) -> Iterator[str]:
    """Yields each difference of an output: the script's line, the expected lines and the printed ones."""
    old, new = text_lines(wanted), text_lines(came)
    for what, at, to, begin, end in difflib.SequenceMatcher(None, old, new, autojunk=False).get_opcodes():
        if what != "equal":
            parts = (("wanted:", old[at:to]), ("came:  ", new[begin:end]))
            yield "\n".join([f"  {asked(old, at)}", *(f"    {label} {it}" for label, of in parts for it in shown(of))])
    if old == new and wanted != came:
        yield "  the ends of lines, or bytes that aren't UTF-8"


def fault(golden: Golden, output: Output) -> str | None:
    """Returns how the output differs from the golden one, or None."""
    called = f"bsdplay {' '.join(golden.words)}"
    place, to_write = golden.file.relative_to(TOP), f"tools/goldens {shlex.quote(golden.name)}"
    if golden.text is None:
        return f"{called}: {place} doesn't have it; {to_write} writes it"
    found = list(differences(golden.text, output.text))
    if output.status != golden.status:
        found.insert(0, f"  status {output.status}, wanted {golden.status}")
    if not found:
        return None
    more = [f"  and {len(found) - SHOWN} more differences"] * (len(found) > SHOWN)
    hint = f"  If this is what it should print: {to_write}"
    return "\n".join([f"{called}: other output than in {place}", *found[:SHOWN], *more, hint])


def run(program: pathlib.Path, golden: Golden) -> str | None:
    """Plays a command line with a built bsdplay."""
    return fault(golden, played(program, golden))
