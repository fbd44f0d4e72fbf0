"""How bsdplay grades the hand-ins of a class. The tests make them from the exercise about drops: right ones in each
form in which editors save them, wrong, empty and unfinished ones, files that are too long, and files that can't be
read. The expected verdict follows from what was changed. Then keys that are missing or wrong, hand-ins without a key,
`--strict`, and the exercises with their keys."""
import csv
import io
import json
import os
import pathlib
import re
import shutil
import subprocess
import tempfile

import pytest

from tests.bsdplay.runs import of_lines, run, same
from tests.cases import TOP

KEYS, EXERCISES = TOP / "examples/play", TOP / "examples/exercises"
EACH_KEY = sorted(it.name for it in KEYS.glob("exercise_*.txt"))
FIELDS = ["file", "verdict", "right", "wrong", "missing", "first", "note"]
NOBODY = 65534
ONE_PROCESS = pytest.mark.xdist_group("grade")  # one process grades all hand-ins, once
MARK = b"\xef\xbb\xbf"


def asked(key):
    """Returns the indexes of the key's lines that have an answer."""
    return [at for at, line in enumerate(key) if "=>" in line and not line.startswith("##")]


# ---- hand-ins ------------------------------------------------------------------------------------------------------

KEY = next(KEYS.glob("exercise_02_*.txt")).read_text(encoding="utf-8").splitlines()
TEXT = of_lines(KEY)
PLACES = asked(KEY)
DROPS = [at for at in PLACES if "=> dropped" in KEY[at]]
QUESTIONS = [at for at in PLACES if KEY[at].startswith("#?")]
ALL, FIRST, LAST = len(PLACES), DROPS[0], PLACES[-1]
WHOLE, UNREAD, EMPTY = ("passed", ALL, 0, 0), ("unread", None, None, None), ("empty", 0, 0, ALL)
ONE_WRONG, ONE_MISSING = ("failed", ALL - 1, 1, 0), ("failed", ALL - 1, 0, 1)


def answered(at, answer):
    """Returns a line of the key with another answer."""
    return KEY[at].split("=>")[0] + "=> " + answer


def changed(lines):
    """Returns the key with some lines replaced. None removes a line."""
    return of_lines([it for at, line in enumerate(KEY) if (it := lines.get(at, line)) is not None])


def right():
    """Yields right hand-ins, in each form."""
    yield "right.txt", TEXT, WHOLE
    yield 'right, by Ann "A".txt', TEXT, WHOLE
    yield "right\nnamed in two lines.txt", TEXT, WHOLE
    yield "crlf.txt", TEXT.replace("\n", "\r\n"), WHOLE
    yield "mark.txt", MARK + TEXT.encode(), WHOLE
    yield "mark_crlf.txt", MARK + TEXT.replace("\n", "\r\n").encode(), WHOLE
    yield "no_last_end.txt", TEXT[:-1], WHOLE
    yield "blanks.txt", TEXT.replace("=>", " \t =>  ").replace("socket", "\t socket  "), WHOLE
    yield "comments.txt", "# by Ben\n\n" + TEXT.replace("\n", "  # done\n"), WHOLE
    yield "own_comments.txt", "# by Ben\n\n" + TEXT + "# that's all\n", WHOLE
    yield "numbered_error.txt", TEXT.replace("error EWOULDBLOCK", "error 35 EWOULDBLOCK"), WHOLE
    yield "more_right.txt", TEXT + "socket => ok 4\n#? Was it hard => no\n", WHOLE
    yield "punctuation.txt", changed({FIRST: KEY[FIRST] + ".", LAST: KEY[LAST] + ","}), WHOLE
    yield "reads_files.txt", TEXT + "rx pcap /etc/hostname => error can't be opened\n", WHOLE


def failed():
    """Yields hand-ins with a fault."""
    another = KEY[FIRST].split("=>")[0]
    yield "more_lines.txt", TEXT + "socket => ok 9\n", ("failed", ALL, 0, 0)
    yield "wrong_reply.txt", changed({FIRST: answered(FIRST, "dropped wrong version")}), ONE_WRONG
    yield "wrong_answer.txt", changed({LAST: answered(LAST, "neither")}), ONE_WRONG
    yield "two_wrong.txt", changed({at: answered(at, "ok") for at in DROPS[:2]}), ("failed", ALL - 2, 2, 0)
    yield "all_wrong.txt", changed({at: answered(at, "wrong") for at in PLACES}), ("failed", 0, ALL, 0)
    yield "any_reply.txt", changed({FIRST: answered(FIRST, "_ _ _ _")}), ONE_MISSING
    yield "one_open.txt", changed({FIRST: answered(FIRST, "?")}), ONE_MISSING
    yield "some_words_open.txt", changed({FIRST: answered(FIRST, "dropped _ _ _")}), ONE_WRONG
    yield "line_deleted.txt", changed({FIRST: None}), ONE_MISSING
    without = ("failed", ALL - len(QUESTIONS), 0, len(QUESTIONS))
    yield "questions_deleted.txt", changed({at: None for at in QUESTIONS}), without
    packet = f"{another[:6]}ff{another[8:]}=> dropped wrong header checksum"
    yield "another_packet.txt", changed({FIRST: packet}), ONE_MISSING
    yield "answered_twice.txt", changed({LAST: answered(LAST, "ip") + "\n" + KEY[LAST]}), ONE_WRONG


def empty():
    """Yields hand-ins without an answer."""
    words = {at: len(KEY[at].split("=>")[1].split()) for at in PLACES}
    yield "expectations_deleted.txt", changed({at: KEY[at].split("=>")[0] for at in PLACES}), EMPTY
    yield "unsolved.txt", changed({at: answered(at, "?") for at in PLACES}), EMPTY
    yield "any_words.txt", changed({at: answered(at, " ".join("_" * words[at])) for at in PLACES}), EMPTY
    yield "empty.txt", "", EMPTY
    yield "comments_alone.txt", "# nothing\n\n# to see\n", EMPTY
    yield "no_script.txt", bytes(range(256)) * 16, EMPTY
    yield "long_line.txt", "socket " + "x" * 65000, EMPTY
    yield "many_ticks.txt", "tick 65535\n" * 5957, EMPTY


def unread():
    """Yields hand-ins that are too long or aren't text, and those that can't be read."""
    yield "endless.txt", "tick\n" * 4_000_000, UNREAD
    yield "too_long.txt", TEXT + "#" * 65536, UNREAD
    yield "utf16.txt", TEXT.encode("utf-16"), UNREAD
    yield "folder.txt", None, UNREAD
    yield "locked.txt", None, UNREAD
    yield "missing.txt", None, UNREAD


def hand_ins():
    """Yields each hand-in: its name, its text, and its verdict with the numbers of right, wrong and missing answers."""
    for kind in (right, failed, empty, unread):
        yield from kind()


VERDICTS = {name: verdict for name, _, verdict in hand_ins()}


def lowered():
    """Returns the arguments that run a program without the right to read all files: root runs it as user `nobody`."""
    return {"user": NOBODY, "group": NOBODY, "extra_groups": []} if os.geteuid() == 0 else {}


@pytest.fixture(scope="module")
def folder(bsdplay):
    """A folder with the program, the key and the hand-ins, which the user `nobody` can read. pytest's own can't be
    read."""
    with tempfile.TemporaryDirectory() as name:
        folder = pathlib.Path(name)
        folder.chmod(0o755)
        shutil.copy(bsdplay, folder / "bsdplay")
        (folder / "key.txt").write_text(TEXT, encoding="utf-8")
        for file, content, _ in hand_ins():
            if content is not None:
                (folder / file).write_bytes(content.encode() if isinstance(content, str) else content)
        (folder / "folder.txt").mkdir()
        (folder / "locked.txt").write_text(TEXT, encoding="utf-8")
        (folder / "locked.txt").chmod(0)
        yield folder


def graded(folder, *words):
    """Grades all hand-ins."""
    return run(folder / "bsdplay", "--grade", "--key", "key.txt", *words, *VERDICTS, cwd=folder, **lowered())


@pytest.fixture(scope="module")
def table(folder):
    """The run that prints a table of all hand-ins, and the table's rows, read by Python's csv."""
    ended = graded(folder, "--csv")
    rows = list(csv.reader(io.StringIO(ended.stdout.decode("latin-1"), newline="")))
    same(f"{ended.stderr!r}: rows", len(rows), 1 + len(VERDICTS))
    return ended, rows


@pytest.fixture(scope="module")
def lines(folder):
    """The plain output for all hand-ins."""
    return graded(folder).stdout.decode("latin-1")


@ONE_PROCESS
def test_the_table_has_a_row_for_each_hand_in(table):
    ended, rows = table
    passed = sum(it[0] == "passed" for it in VERDICTS.values())
    same("the first row", rows[0], FIELDS)
    same("the status, since some can't be read", ended.returncode, 4)
    same("on standard error", ended.stderr, f"bsdplay: {passed} of {len(VERDICTS)} hand-ins pass\n".encode())


@ONE_PROCESS
@pytest.mark.parametrize("name", VERDICTS)
def test_a_hand_in_has_its_verdict_in_the_table(name, table):
    row, (verdict, *counts) = table[1][list(VERDICTS).index(name) + 1], VERDICTS[name]
    same(f"{name!r}: fields", len(row), len(FIELDS))
    same(repr(name), row[:5], [name, verdict, *("" if it is None else str(it) for it in counts)])
    same(f"{name!r}: {row}: something is wrong with it", bool(row[5] or row[6]), verdict != "passed")


@ONE_PROCESS
@pytest.mark.parametrize("name", VERDICTS)
def test_a_hand_in_has_its_verdict_in_a_line(name, lines):
    verdict, right_ones, wrong, missing = VERDICTS[name]
    counts = "" if right_ones is None else f", {right_ones} right, {wrong} wrong, {missing} missing"
    wanted = name.replace("\n", r"\x0a") + f": {verdict}{counts}"
    assert wanted in lines, f"no line says {wanted}"


# ---- files that aren't keys, and hand-ins without a key ------------------------------------------------------------

BAD_KEYS = {
    "gone.txt": (None, 4),
    "folder.txt": (None, 4),
    "wrong.txt": ("socket => ok 4\n", 1),
    "lacks.txt": ("socket => ok 3\nsocket\n", 1),
    "question.txt": ("socket => ok 3\n#? How many => ?\n", 1),
    "nothing.txt": ("# nothing\n", 1),
    "slip.txt": ("sokcet => ok 3\n", 1),
}


@pytest.fixture
def graded_by(bsdplay, tmp_path):
    """Grades a right hand-in with a key."""
    (tmp_path / "right.txt").write_text(TEXT, encoding="utf-8")
    (tmp_path / "key.txt").write_text(TEXT, encoding="utf-8")
    (tmp_path / "folder.txt").mkdir()
    return lambda *words: run(bsdplay, *words, cwd=tmp_path)


@pytest.mark.parametrize("name", BAD_KEYS)
def test_a_key_that_is_wrong_itself_grades_nobody(name, graded_by, tmp_path):
    content, status = BAD_KEYS[name]
    if content is not None:
        (tmp_path / name).write_text(content, encoding="ascii")
    ended = graded_by("--grade", "--key", name, "right.txt")
    same(f"key {name}: {ended.stderr}", (ended.returncode, ended.stdout), (status, b""))
    assert b"no hand-in was graded" in ended.stderr, ended.stderr


@pytest.mark.parametrize(
    "words", [["--csv"], ["--key", "key.txt"], ["--grade"], ["--grade", "--json", "right.txt"]], ids=" ".join
)
def test_options_that_lack_something_end_with_status_2(words, graded_by):
    ended = graded_by(*words)
    same(f"{words}: {ended.stderr}", (ended.returncode, ended.stdout), (2, b""))
    assert ended.stderr.startswith(b"bsdplay: --"), ended.stderr


BY_THEMSELVES = {
    "own.txt": ("--mtu 576\nsocket => ok 3\n", "passed, 1 right, 0 wrong, 0 missing\n"),
    "own_bare.txt": ("socket => ok 3\nsocket\n", "failed, 1 right, 0 wrong, 1 missing, first at"),
    "own_wrong.txt": ("socket => ok 4\n", "failed, 1 right, 0 wrong, 0 missing; own_wrong.txt:1: "),
    "own_any.txt": ("socket => _ _\n", "empty, 0 right, 0 wrong, 1 missing"),
    "own_none.txt": ("", "empty, 0 right, 0 wrong, 0 missing\n"),
    "hosts.txt": ("host a\nwire a\na: socket => ok 3\n", "passed, 1 right"),
}


@pytest.mark.parametrize("name", BY_THEMSELVES)
def test_without_a_key_a_hand_in_is_graded_by_what_it_expects(name, bsdplay, tmp_path):
    content, wanted = BY_THEMSELVES[name]
    (tmp_path / name).write_text(content, encoding="ascii")
    ended = run(bsdplay, "--grade", name, cwd=tmp_path)
    same(content, ended.stdout.decode()[: len(f"{name}: {wanted}")], f"{name}: {wanted}")
    same(f"{content}: status 0", ended.returncode == 0, wanted.startswith("passed"))


# ---- --strict ------------------------------------------------------------------------------------------------------

BARE = b"--mtu 576\nsocket => ok 3\n\n# a comment\nsocket\nbind 3 0.0.0.0 7 => _\n"
BARE += b"#? How many\n#? And now => 3\nstat => ..\n"


def test_strict_finds_each_line_without_an_expectation(bsdplay, tmp_path):
    (tmp_path / "bare.txt").write_bytes(BARE)
    ended = run(bsdplay, "--quiet", "--strict", "bare.txt", cwd=tmp_path)
    places = [int(it) for it in re.findall(rb"(?m)^bare\.txt:(\d+): missing expected reply", ended.stdout)]
    same("status and lines", (ended.returncode, places), (1, [5, 6, 7, 9]))


def test_strict_finds_them_behind_a_byte_order_mark_as_objects(bsdplay):
    ended = run(bsdplay, "--strict", "--json", "-", script=MARK + BARE)
    found = [json.loads(it) for it in ended.stdout.splitlines() if b'"fault"' in it]
    numbers = [it["number"] for it in found if "missing expected reply" in it["fault"]]
    same("status and lines", (ended.returncode, numbers), (1, [5, 6, 7, 9]))


# ---- which word was wrong, and what is no mark ---------------------------------------------------------------------

FRAGMENTS = "--mtu 576\nsocket => ok 3\nsendto 3 10.0.0.2 5000 @1400 => ok 1400\nshow queue => {}\n"


@pytest.mark.parametrize(
    "reply, note",
    [
        ("3 packets, the next of 572 bytes", ""),
        ("3 packets ..", ""),
        ("3, packets the next of 572 bytes.", ""),
        ("2 packets ..", "; 3 is right, not 2"),
        ("3 packets, the next of 576 bytes", "; 572 is right, not 576"),
        ("3 packets", "; the is missing"),
        ("3 packets, the next of 572 bytes each", "; each is extra"),
    ],
)
def test_punctuation_is_ignored_and_the_wrong_word_is_named(reply, note, bsdplay, tmp_path):
    """`show queue` replies `3 packets, the next of 572 bytes`."""
    key, hand = tmp_path / "key.txt", tmp_path / "ann.txt"
    key.write_text(FRAGMENTS.format("3 packets .."), encoding="utf-8")
    hand.write_text(FRAGMENTS.format(reply), encoding="utf-8")
    ended = run(bsdplay, "--grade", "--key", key, hand)
    assert ended.stdout.decode().rstrip("\n").endswith(note or "3 right, 0 wrong, 0 missing"), ended.stdout
    same("status", ended.returncode, 1 if note else 0)


@pytest.mark.parametrize(
    "reply, note",
    [
        ("3 packets, the next of 572 bytes", ""),
        ("3 packets ..", "; it matches the reply, but omits words that the key requires"),
        ("3 packets, the next of _ bytes", "; it matches the reply, but omits words that the key requires"),
    ],
)
def test_the_key_says_which_words_count(reply, note, bsdplay, tmp_path):
    """A reply that leaves out words of the key comes when the hand-in is played. Its mark is lost, with the reason."""
    key, hand = tmp_path / "key.txt", tmp_path / "ann.txt"
    key.write_text(FRAGMENTS.format("3 packets, the next of 572 bytes"), encoding="utf-8")
    hand.write_text(FRAGMENTS.format(reply), encoding="utf-8")
    same("status when played", run(bsdplay, hand).returncode, 0)
    ended = run(bsdplay, "--grade", "--key", key, hand)
    right = "2 right, 1 wrong, 0 missing, first at line 4 of the key" if note else "3 right, 0 wrong, 0 missing"
    same("line", ended.stdout.decode(), f"{hand}: {'failed' if note else 'passed'}, {right}{note}\n")


def test_another_answer_to_a_question_is_named(bsdplay, tmp_path):
    for name, answer in (("key.txt", 552), ("ann.txt", 548)):
        text = FRAGMENTS.format("3 packets ..") + f"#? At which byte => {answer}\n"
        (tmp_path / name).write_text(text, encoding="utf-8")
    ended = run(bsdplay, "--grade", "--key", tmp_path / "key.txt", tmp_path / "ann.txt")
    assert ended.stdout.decode().endswith("first at line 5 of the key; the answer differs from the key's\n"), ended


@pytest.mark.parametrize("form", [[], ["--csv"]], ids=["text", "csv"])
def test_a_failed_write_is_no_mark(form, bsdplay, tmp_path):
    (tmp_path / "key.txt").write_text("socket => ok 3\n", encoding="utf-8")
    words = [bsdplay, "--grade", *form, "--key", tmp_path / "key.txt", tmp_path / "key.txt"]
    with open("/dev/full", "wb") as full:
        ended = subprocess.run(list(map(str, words)), stdout=full, stderr=subprocess.PIPE, check=False)
    same("status and message", (ended.returncode, ended.stderr),
         (4, b"bsdplay: write failed: some grades are missing\n"))  # fmt: skip


def limited(kilobytes, *words):
    """Runs a command that has this much memory."""
    asked = ["bash", "-c", f'ulimit -v {kilobytes}; ulimit -c 0; exec "$@"', "bash", *map(str, words)]
    return subprocess.run(asked, capture_output=True, check=False, timeout=300)


# A pool of 65,535 mbufs and 4,096 clusters takes 17 MB.
LARGE = "--mbufs 65535 --clusters 4096 => ok\nsocket => ok 3\n"


@pytest.mark.proved
@pytest.mark.parametrize("kilobytes", [16_000, 7_000])
def test_want_of_memory_is_no_mark(kilobytes, bsdplay, tmp_path):
    """Neither of a hand-in nor of a key: the same file is both here, or the key is a small one."""
    small, large = tmp_path / "small.txt", tmp_path / "large.txt"
    small.write_text("socket => ok 3\n", encoding="utf-8")
    large.write_text(LARGE, encoding="utf-8")
    same("with memory", run(bsdplay, "--grade", "--key", large, large).returncode, 0)
    for key in (large, small):
        ended = limited(kilobytes, bsdplay, "--grade", "--key", key, large)
        same(f"status and marks: {ended.stderr}", (ended.returncode, ended.stdout), (3, b""))
        assert b"no memory" in ended.stderr


@pytest.mark.proved
@pytest.mark.parametrize("words", [[], ["--json"], ["--quiet"], ["--color", "always"], ["--strict"]])
@pytest.mark.parametrize("kilobytes, front, line", [
    (16_000, "", "--mbufs 65535 --clusters 4096"),
    (38_000, "host a --addr 10.0.0.1\n", "host b --addr 10.0.0.2 --mbufs 65535"),  # 34 MB are for a wire
])  # fmt: skip
def test_settings_without_memory_end_with_status_3(kilobytes, front, line, words, bsdplay, tmp_path):
    """The lines after them are played all the same."""
    script = tmp_path / "large.txt"
    script.write_text(f"{front}{line}\n{'wire a' if front else 'socket => ok 3'}\n", encoding="utf-8")
    ended = limited(kilobytes, bsdplay, *words, script)
    assert (ended.returncode, b"no memory" in ended.stdout) == (3, True), ended


@pytest.mark.proved
def test_seeds_of_a_host_without_memory_end_with_status_3(bsdplay, tmp_path):
    script = tmp_path / "large.txt"
    script.write_text("host a --addr 10.0.0.1\nhost b --addr 10.0.0.2 --mbufs 65535\n", encoding="utf-8")
    ended = limited(38_000, bsdplay, "--seeds", "1-2", script)
    assert (ended.returncode, ended.stdout.count(b"no memory")) == (3, 2), ended


def test_a_line_about_memory_is_no_want_of_it(bsdplay):
    """Neither an expected reply nor a text that says so."""
    script = 'socket => error no memory\nsendto 3 10.0.0.2 7 "x: no memory"\n'
    same("status", run(bsdplay, "-", script=script).returncode, 1)


# ---- exercises that are played -------------------------------------------------------------------------------------


@pytest.mark.parametrize("how", ["file", "input", "strict", "json", "crlf"])
@pytest.mark.parametrize("key", EACH_KEY)
def test_an_exercise_is_played_up_to_its_first_open_line(key, how, bsdplay, tmp_path):
    """No reply is given away, and what is open is counted: by the lines of the exercise."""
    text = (EXERCISES / key).read_bytes()
    if how == "crlf":
        text = text.replace(b"\n", b"\r\n")
    (tmp_path / "hand.txt").write_bytes(text)
    lines = text.decode().splitlines()
    replies = [at for at, it in enumerate(lines, 1) if it.endswith("=> ?") and not it.startswith("#")]
    questions = [it for it in lines if it.startswith("#?")]
    words = {"strict": ["--strict"], "json": ["--json"]}.get(how, [])
    ended = run(bsdplay, *words, script=text) if how == "input" else run(bsdplay, *words, tmp_path / "hand.txt")
    name = "-" if how == "input" else str(tmp_path / "hand.txt")
    first = f"bsdplay: {name}:{replies[0]}: missing expected reply: replace the ?\n"
    counts = f"bsdplay: {name}: open replies: {len(replies)}, open questions: {len(questions)}\n"
    same("status and messages", (ended.returncode, ended.stderr.decode()), (1, first + counts))
    assert not re.search(rb"got|=> (?!ok$)[^?]", ended.stdout, re.M), ended.stdout
    if how == "json":
        fault = {"number": replies[0], "file": name, "column": None, "fault": "missing expected reply: replace the ?"}
        same("the last object", json.loads(ended.stdout.splitlines()[-1]), fault)


def test_open_questions_are_counted_if_all_replies_are_there(bsdplay):
    ended = run(bsdplay, "--quiet", script="socket => ok 3\n#? How many sockets => ?\n#? Why => 1\n")
    same("status, output and messages", (ended.returncode, ended.stdout, ended.stderr.decode()),
         (1, b"ok 3\n", "bsdplay: -: open replies: 0, open questions: 1\n"))  # fmt: skip


def test_lines_are_played_as_soon_as_they_are_written(bsdplay):
    """A program that writes a line and waits for its reply isn't kept waiting, although each line is looked at."""
    with subprocess.Popen([bsdplay, "--quiet"], stdin=subprocess.PIPE, stdout=subprocess.PIPE) as child:
        for line, reply in ((b"socket # why?\n", b"ok 3\n"), (b"bind 3 0.0.0.0 7 => ok\n", b"ok\n")):
            child.stdin.write(line)
            child.stdin.flush()
            same("reply", child.stdout.readline(), reply)
        child.stdin.close()
        same("status", child.wait(), 0)


def test_strict_finds_a_carry_without_an_expectation(bsdplay):
    ended = run(bsdplay, "--quiet", "--strict", script="host a\nwire a\na: socket => ok 3\ncarry\n")
    same("status and lines", (ended.returncode, re.findall(rb"(?m)^-:(\d+): missing", ended.stdout)), (1, [b"4"]))


@pytest.mark.parametrize("key", EACH_KEY)
def test_each_line_of_a_key_has_an_expectation(key, bsdplay):
    ended = run(bsdplay, "--quiet", "--strict", KEYS / key)
    same(f"{key}: status: {ended.stdout}", ended.returncode, 0)


# ---- exercises and their keys --------------------------------------------------------------------------------------


def test_each_key_has_its_exercise():
    same("exercises, and the keys of examples/play", sorted(it.name for it in EXERCISES.glob("*.txt")), EACH_KEY)


@pytest.mark.parametrize("key", EACH_KEY)
def test_an_exercise_is_its_key_without_answers(key, bsdplay):
    ended, exercise = run(bsdplay, "--blank", KEYS / key), (EXERCISES / key).read_bytes()
    same(f"bsdplay --blank {key}: status", ended.returncode, 0)
    same(f"bsdplay --blank {key}", ended.stdout.decode(), exercise.decode())
    same("answers in it", re.findall(rb"(?m)=> [^?].*|^##.*", exercise), [])


@pytest.mark.parametrize("solved", [True, False], ids=["key", "exercise"])
@pytest.mark.parametrize("key", EACH_KEY)
def test_a_key_passes_by_itself_and_its_exercise_is_empty(key, solved, bsdplay):
    number = len(asked((KEYS / key).read_text(encoding="utf-8").splitlines()))
    wanted = f"passed, {number} right, 0 wrong, 0 missing" if solved else f"empty, 0 right, 0 wrong, {number} missing"
    ended = run(bsdplay, "--grade", "--key", KEYS / key, (KEYS if solved else EXERCISES) / key)
    assert f": {wanted}" in ended.stdout.decode(), f"{ended.stdout}, and not {wanted}"


SOCKET = "socket => ok 3\nbind 3 0.0.0.0 7 => ok\n"
SHARED = "socket => ok 3\nsetsockopt 3 reuseport 1 => ok\nbind 3 0.0.0.0 7 => ok\n"
RX = "rx udp 10.0.0.2:5000 > 10.0.0.1:7"
OVERLAPS = [("e", "0 more size 16"), ("d", "8 more size 16"), ("c", "16 last")]
# For each exercise, by its number: scripts whose replies show that the key's answers to questions are right.
PROOFS = {
    "1": SHARED + "socket => ok 4\nsetsockopt 4 reuseport 1 => ok\nbind 4 10.0.0.9 7 => error EADDRNOTAVAIL\n"
    + f'bind 4 10.0.0.1 7 => ok\n{RX} "a" => ok\nrecvfrom 4 9 => from 10.0.0.2 5000 "a"\n',
    "4": "--mtu 68\nsocket => ok 3\nsendto 3 10.0.0.2 5000 @1400 => ok 1400\nshow queue => 30 packets, _ _ _ _ _\n",
    "6": SOCKET + "\n".join(f'{RX} "{it}"*24 nosum at {at}' for it, at in OVERLAPS)
    + '\nrecvfrom 3 99 => from _ _ "e"*8 + "d"*8 + "c"*8\n',
    "8": "--mbufs 1000\n" + SOCKET + f"{RX} 61 => ok\n" * 325 + f"{RX} 61 => dropped receive queue full\n",
    "9": "--mbufs 4 --clusters 0\n" + SOCKET + f"{RX} @24 at 0 more size 16 => ok\n"
    + "show unfinished => 1 unfinished datagram\n" + f'{RX} "a" id 2 => ok\n'
    + "sendto 3 10.0.0.2 5000 61 => ok 1\nshow unfinished => 0 unfinished datagrams\n",
    "10": SHARED + "setsockopt 3 broadcast 1 => ok\n"
    + "sendto 3 10.0.0.255 7 @100 => ok 100\nshow pool => _ _ _ _ _ 64 of 64 clusters free, _ _ _ _ _ _ _ _\n",
}  # fmt: skip
PROOFS |= {
    f"a send of {size} bytes is {count} packets":
    f"--mtu 576\nsocket\nsendto 3 10.0.0.2 5000 @{size}\nshow queue => {count} packets, _ _ _ _ _\n"
    for size, count in ((1648, 3), (1649, 4))
}  # fmt: skip
PROOFS |= {
    f"a datagram of {size} bytes behind four of 9,000": SOCKET + f"{RX} @9000\n" * 4 + f"{RX} @{size} => {wanted}\n"
    for size, wanted in ((5520, "ok"), (5521, "dropped receive queue full"))
}


@pytest.mark.parametrize("name", PROOFS)
def test_the_program_does_what_a_key_answers(name, bsdplay):
    ended = run(bsdplay, "--quiet", script=PROOFS[name])
    faults = [it for it in ended.stdout.decode().splitlines() if it.startswith("-:")]
    same(f"status and lines with other replies: {PROOFS[name][-200:]}", (ended.returncode, faults), (0, []))
