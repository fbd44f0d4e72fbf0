"""bsdplay in a terminal: a prompt, help and the end; what a script can't do to the screen; seeds that pass; and a
capture in place of a script."""
import errno
import os
import pty
import select
import shutil
import subprocess
import time

import pytest

from tests import pcaps
from tests.bsdplay.runs import of_lines, printed, run, same
from tests.cases import TOP
from tests.packets import HERE, PEER, datagram

LONGEST_WAIT = 20  # in seconds


class Terminal:
    """A program at a terminal of its own, without colours."""

    def __init__(self, *words, **more):
        self.process, self.screen = None, b""
        self.side, other = pty.openpty()
        environment = {**os.environ, "NO_COLOR": "1", "TERM": "dumb", **more}
        self.process = subprocess.Popen(
            [*map(str, words)], stdin=other, stdout=other, stderr=other, close_fds=True, env=environment
        )
        os.close(other)

    def until(self, end):
        """Returns what is printed up to this text."""
        begun = time.monotonic()
        while end not in self.screen:
            ready, _, _ = select.select([self.side], [], [], 1)
            try:
                self.screen += os.read(self.side, 65_536) if ready else b""
            except OSError as fault:  # the program has ended
                assert fault.errno == errno.EIO
                break
            assert time.monotonic() - begun < LONGEST_WAIT, f"{end!r} doesn't come after {self.screen!r}"
        found, also, self.screen = self.screen.partition(end)
        return (found + also).replace(b"\r\n", b"\n").decode()

    def type(self, line):
        os.write(self.side, line.encode())

    def reply(self, line):
        """Types a line, and returns what is printed for it: without the echo of the terminal, and the next prompt."""
        self.type(f"{line}\n")
        return self.until(b"\n> ").removeprefix(f"{line}\n").removesuffix("> ")

    def end(self):
        """Returns the last lines and the status."""
        said = self.until(b"\0 never")
        return said, self.process.wait(LONGEST_WAIT)

    def close(self):
        self.process.kill()
        self.process.wait()
        os.close(self.side)


@pytest.fixture
def terminal(bsdplay):
    opened = Terminal(bsdplay)
    yield opened
    opened.close()


@pytest.mark.needs("pty")
def test_a_prompt_and_replies_without_the_line(terminal):
    greeting = terminal.until(b"> ")
    assert "`help`" in greeting and "`quit`" in greeting and greeting.count("\n") == 1
    same("socket", terminal.reply("socket"), "ok 3\n")
    same("a comment", terminal.reply("# hi"), "")
    same("a blank line", terminal.reply(""), "")
    same("bind", terminal.reply("bind 3 0.0.0.0 7"), "ok\n")
    said = terminal.reply('rx udp 10.0.0.2:5000 > 10.0.0.1:9 "hi"')
    same("rx", said, "dropped no socket has the port\n    udp 10.0.0.2:5000 > 10.0.0.1:9, 2 bytes, id 1\n")
    same("a wrong line", terminal.reply("sokcet"), "line:6: unknown command `sokcet` (`socket`?)\n")
    same("a wrong reply", terminal.reply("tx => ok"), "none\nline:7: expected ok, got none\n")


@pytest.mark.needs("pty")
@pytest.mark.parametrize("word, status", [("quit", 0), ("exit", 0), ("\4", 0)])
def test_the_end(word, status, terminal):
    terminal.until(b"> ")
    terminal.reply("socket")
    terminal.type(word if word == "\4" else f"{word}\n")
    said, ended = terminal.end()
    assert ended == status and said.removeprefix(f"{word}\n") in ("", "\n"), said


@pytest.mark.needs("pty")
def test_the_status_of_a_wrong_line(terminal):
    terminal.until(b"> ")
    terminal.reply("nothing")
    terminal.type("quit\n")
    assert terminal.end()[1] == 1


@pytest.mark.needs("pty")
@pytest.mark.parametrize("word", ["help", "?"])
def test_help_lists_the_lines(word, terminal, bsdplay):
    terminal.until(b"> ")
    said = terminal.reply(word)
    whole = run(bsdplay, "--help").stdout.decode()
    forms = whole[whole.index("Lines, also after a time") :]
    assert said.startswith(forms) and "quit" in said[len(forms) :]
    same("a line afterwards", terminal.reply("socket"), "ok 3\n")


@pytest.mark.needs("pty")
def test_many_hosts(terminal):
    terminal.until(b"> ")
    same("host", terminal.reply("host a"), "ok\n")
    same("wire", terminal.reply("wire a"), "ok\n")
    same("socket", terminal.reply("a: socket"), "ok 3\n")
    same("send", terminal.reply("a: sendto 3 10.0.0.9 7 -").splitlines()[0], "ok 0")
    assert terminal.reply("carry").startswith("quiet\n")


@pytest.mark.needs("pty")
def test_no_prompt_in_a_pipe_and_for_programs(bsdplay):
    assert printed(bsdplay, ["socket", "help"]) == ["1  socket => ok 3", "-:2: unknown command `help`"]
    opened = Terminal(bsdplay, "--quiet")
    try:
        opened.type("socket\n\4")
        assert opened.end()[0].replace("^D\b\b", "") == "socket\nok 3\n"
    finally:
        opened.close()


@pytest.mark.needs("pty", "rlwrap")
def test_rlwrap_adds_a_history(bsdplay, tmp_path):
    """The arrow up brings the line before."""
    opened = Terminal(shutil.which("rlwrap"), bsdplay, TERM="xterm", RLWRAP_HOME=str(tmp_path))
    try:
        opened.until(b"> ")
        opened.type("socket\n")
        opened.until(b"ok 3")
        opened.until(b"> ")
        opened.type("\x10\n")  # Ctrl-P, as the arrow up
        opened.until(b"ok 4")
    finally:
        opened.close()


# Bytes in a line, and how they are printed. Those of UTF-8 are (RFC 3629), its control characters aren't.
BYTES = {
    "escape": (b"\x1b[2J", rb"\x1b[2J"),
    "a title": (b"\x1b]0;x\x07", rb"\x1b]0;x\x07"),
    "a colour": (b"\x1b[31m", rb"\x1b[31m"),
    "backspace and delete": (b"\x08\x7f", rb"\x08\x7f"),
    "an escape of eight bits": (b"\x9b2J", rb"\x9b2J"),
    "the same in UTF-8": (b"\xc2\x9b2J", rb"\xc2\x9b2J"),
    "Latin-1": (b"\xe9t\xe9", rb"\xe9t\xe9"),
    "UTF-8": ("é€😀".encode(), "é€😀".encode()),
    "cut UTF-8": (b"\xe2\x82.", rb"\xe2\x82."),
}


@pytest.mark.parametrize("name", BYTES)
@pytest.mark.parametrize("quiet", [False, True], ids=["whole", "quiet"])
def test_bytes_that_change_a_terminal_are_printed_by_number(name, quiet, bsdplay):
    raw, shown = BYTES[name]
    script = b"socket\n" + raw + b'\nsendto 3 10.0.0.2 7 "' + raw + b'"\nsocket => ' + raw + b"\n"
    said = run(bsdplay, *["--quiet"] * quiet, script=script).stdout
    lines = said.splitlines()
    assert b"-:2: unknown command `" + shown + b"`" in lines
    assert b"-:4: expected " + shown + b", got ok 4" in lines
    assert (b'3  sendto 3 10.0.0.2 7 "' + shown + b'" => ' in said) != quiet


NAME = "a\x1b[2J\x9bb.txt"


GRADED = [["--strict"], ["--grade"], ["--grade", "--csv"], ["--grade", "--key", NAME]]


@pytest.mark.parametrize(
    "words", [[], ["why"], ["--from-pcap"], ["--blank"], ["--seeds", "1-2"], ["--pcap", NAME], *GRADED])  # fmt: skip
@pytest.mark.parametrize(
    "text", [None, b"socket => ok 3\n", b"socket\nbogus\n", b"socket => ?\n", b"\x0a\x0d\x0d\x0a" + bytes(30)],
    ids=["no file", "a script", "wrong", "open", "a capture"])  # fmt: skip
def test_a_files_name_changes_no_terminal(words, text, bsdplay, tmp_path):
    """A hand-in's name is its student's choice."""
    file = tmp_path / NAME
    if text is not None:
        file.write_bytes(text)
    ended = run(bsdplay, *(tmp_path / NAME if it == NAME else it for it in words), file)
    assert b"\x1b" not in ended.stdout + ended.stderr and b"\xc2\x9b" not in ended.stdout + ended.stderr, ended


def test_its_own_colours_stay(bsdplay):
    said = run(bsdplay, "--color", "always", script=b"socket\n\x1b[2Jx\n").stdout
    assert said == b"1  socket => \x1b[32mok 3\x1b[0m\n\x1b[31m-:2: unknown command `\\x1b[2Jx`\x1b[0m\n"


@pytest.mark.parametrize("seeds, last", [("1-20", "20 of 20"), ("7-7", "1 of 1")])
def test_seeds_that_pass_are_counted(seeds, last, bsdplay):
    done = run(bsdplay, "--seeds", seeds, script=of_lines(["host a", "a: socket => ok 3"]))
    assert (done.returncode, done.stdout.decode()) == (0, f"{last} seeds passed\n")


def test_seeds_that_fail_are_counted(bsdplay):
    done = run(bsdplay, "--seeds", "1-8", TOP / "examples/play/wire/lost_by_chance.txt")
    lines = done.stdout.decode().splitlines()
    assert done.returncode == 1 and [line.split(":")[0] for line in lines[:-1]] == ["seed 4", "seed 5"]
    same("the last line", lines[-1], "6 of 8 seeds passed")


@pytest.mark.parametrize(
    "words, script, said",
    [
        (["--json"], "host a\n", "--json needs one seed"),
        (["--pcap", "/dev/null"], "host a\n", "--pcap needs one seed"),
        ([], "socket\n", "--seeds needs a script with hosts"),
    ],
)
def test_what_does_not_go_with_seeds_is_said(words, script, said, bsdplay):
    done = run(bsdplay, "--seeds", "1-2", *words, script=script)
    assert (done.returncode, done.stdout) == (2, b"") and said in done.stderr.decode(), done


CAPTURES = {
    "little endian": "d4c3b2a1",
    "big endian": "a1b2c3d4",
    "nanoseconds": "4d3cb2a1",
    "big endian, nanoseconds": "a1b23c4d",
    "pcapng": "0a0d0d0a",
}


@pytest.mark.parametrize("name", CAPTURES)
def test_a_capture_in_place_of_a_script(name, bsdplay, tmp_path):
    """One line says what to do, and nothing of the capture reaches the screen."""
    path = tmp_path / "all.pcap"
    path.write_bytes(bytes.fromhex(CAPTURES[name]) + b"\n\x1b[2J\n" * 100)
    done = run(bsdplay, path)
    assert (done.returncode, done.stdout) == (2, b"")
    said = done.stderr.decode()
    assert said.count("\n") == 1 and f"`bsdplay why {path}`" in said and f"`bsdplay --from-pcap {path}`" in said


def test_a_whole_capture_in_place_of_a_script(bsdplay, tmp_path):
    path = tmp_path / "all.pcap"
    path.write_bytes(pcaps.header() + pcaps.record("<", 0, 0, datagram(b"hi", between=(PEER, HERE))))
    assert run(bsdplay, path).returncode == 2
    assert run(bsdplay, "why", path).returncode == 0


def test_help_says_where_that_of_bsdudp_is(bsdplay):
    assert "man bsdudp" in run(bsdplay, "--help").stdout.decode()
