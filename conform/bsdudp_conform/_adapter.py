"""A stack's adapter, as the judge runs it: a program that reads cases and reports what the stack did. If it prints
nonsense, dies, hangs or floods, that case fails, and the program is started again for the next one."""
from __future__ import annotations

import os
import selectors
import signal
import subprocess
import threading
import time
from typing import FrozenSet, List, Optional, Sequence

from ._addresses import address
from ._case import ABILITIES, Answer, Case, Event, Got, Out, Refused, Wait
from .kit import bytes_of

TIMEOUT_S = 30.0
MOST_BYTES = 64 << 20
READ = 1 << 16
# After this many consecutive cases with a fault or a crash, the remaining cases aren't run.
MOST_FAULTS = 20
POLL_S = 0.2
HANGS = "it hangs"


class Fault(Exception):
    """What is wrong with an adapter, as one line."""


class Stopped(Exception):
    """The run is stopped before this case has a result."""


class Limit:
    """When the adapters of a run are asked no more: after too many faults in a row, or if the user stops the run by a
    signal. `why` says it. waits_are_real: an adapter's waits may take real time. only_hangs: cases that hang are
    counted, in a row or not, and crashes aren't, so that the result doesn't depend on the order of the cases."""

    def __init__(self, most_faults: int = MOST_FAULTS, waits_are_real: bool = True, only_hangs: bool = False) -> None:
        self.why = ""
        self.most_faults, self.waits_are_real, self.only_hangs = most_faults, waits_are_real, only_hangs
        self.faults, self.signals = 0, 0
        self.lock = threading.Lock()

    def count(self, fault: Optional[str]) -> None:
        """Counts a case of any adapter of the run."""
        with self.lock:
            if self.only_hangs:
                self.faults += fault is not None and fault.startswith(HANGS)
            else:
                self.faults = 0 if fault is None else self.faults + 1
            if self.faults >= self.most_faults:
                self.why = f"{self.most_faults} {'cases hang' if self.only_hangs else 'crashes or faults in a row'}"

    def check(self) -> None:
        if self.why:
            raise Stopped


class Adapter:
    """A running adapter. limit: that of all adapters of a run."""

    def __init__(self, command: Sequence[str], timeout: float = TIMEOUT_S, limit: Optional[Limit] = None) -> None:
        self.command, self.timeout = list(command), timeout
        self.name, self.abilities = "", frozenset()  # type: str, FrozenSet[str]
        self.running: Optional["subprocess.Popen[bytes]"] = None
        self.limit = limit or Limit()

    def __enter__(self) -> "Adapter":
        try:
            self.start()
        except (Fault, Stopped):
            self.stop()
            raise
        return self

    def __exit__(self, *_: object) -> None:
        self.stop()

    def start(self) -> None:
        """Starts the program, and reads its name. Raises Fault if it can't be started or prints no name."""
        try:
            self.running = subprocess.Popen(
                self.command, stdin=subprocess.PIPE, stdout=subprocess.PIPE, start_new_session=True
            )
        except OSError as fault:
            raise Fault(f"can't run {self.command[0]}: {fault.strerror}") from None
        for pipe in (self.running.stdin, self.running.stdout):
            assert pipe is not None
            os.set_blocking(pipe.fileno(), False)
        for line in self.exchange(["hello 1"], self.timeout):
            word, _, rest = line.partition(" ")
            if word == "stack":
                self.name = rest.strip()
            elif word == "has":
                self.abilities = frozenset(rest.split())
            else:
                raise Fault(
                    f"expected `stack NAME`, `has WORD ..` and `end` after `hello 1`, got {quoted(line)}"
                )
        unknown = self.abilities - set(ABILITIES)
        if unknown:
            word = quoted(sorted(unknown)[0])
            raise Fault(f"unknown word {word} after `has`; expected some of: {' '.join(ABILITIES)}")

    def stop(self) -> None:
        """Ends the program and the processes that it started."""
        if self.running is not None:
            try:
                os.killpg(self.running.pid, signal.SIGKILL)
            except ProcessLookupError:
                pass
            self.running.wait()
            for pipe in (self.running.stdin, self.running.stdout):
                if pipe is not None:
                    pipe.close()
            self.running = None

    def ask(self, case: Case) -> Answer:
        """The result of a case. Raises Stopped if the run is stopped."""
        self.limit.check()
        try:
            if self.running is None:
                self.start()
            waits = sum(step.ms for step in case.steps if isinstance(step, Wait)) * self.limit.waits_are_real
            answer = read_answer(case, self.exchange(case.lines(), self.timeout + waits * 1.5 / 1000))
        except Fault as fault:
            self.stop()
            answer = Answer(fault=str(fault))
        self.limit.count(answer.fault)
        return answer

    def exchange(self, lines: List[str], seconds: float) -> List[str]:
        """Writes lines, and reads up to the line `end`, which isn't returned."""
        running = self.running
        assert running is not None and running.stdin is not None and running.stdout is not None
        text, heard = memoryview("".join(f"{line}\n" for line in lines).encode()), bytearray()
        until = time.monotonic() + seconds
        with selectors.DefaultSelector() as ready:
            ready.register(running.stdout, selectors.EVENT_READ)
            ready.register(running.stdin, selectors.EVENT_WRITE)
            while not (heard.endswith(b"end\n") and (len(heard) == 4 or heard[-5] == 10)):
                left = until - time.monotonic()
                if left <= 0:
                    raise Fault(f"{HANGS}: no `end` within {seconds:.0f} s")
                self.limit.check()
                for key, _ in ready.select(min(left, POLL_S)):
                    if key.fileobj is running.stdin:
                        text = self.write(text)
                        if not text:
                            ready.unregister(running.stdin)
                    else:
                        self.hear(heard)
        return heard.decode("utf-8", "replace").splitlines()[:-1]

    def write(self, text: memoryview) -> memoryview:
        running = self.running
        assert running is not None and running.stdin is not None
        try:
            return text[os.write(running.stdin.fileno(), text[:READ]) :]
        except BlockingIOError:
            return text
        except BrokenPipeError:
            raise Fault(self.ended()) from None

    def hear(self, heard: bytearray) -> None:
        running = self.running
        assert running is not None and running.stdout is not None
        more = os.read(running.stdout.fileno(), READ)
        if not more:
            raise Fault(self.ended())
        heard += more
        if len(heard) > MOST_BYTES:
            raise Fault(f"it floods: more than {MOST_BYTES >> 20} MB for one case")

    def ended(self) -> str:
        """How the program ended."""
        assert self.running is not None
        try:
            status = self.running.wait(2)
        except subprocess.TimeoutExpired:
            return "it closed its standard output or input"
        if status < 0:
            return f"it was killed by signal {-status} ({signal.Signals(-status).name})"
        return f"it ended with status {status}"


def quoted(text: str) -> str:
    """A text of an adapter, for a line of ours."""
    return repr(text if len(text) <= 60 else f"{text[:60]}..")


def read_answer(case: Case, lines: List[str]) -> Answer:
    """The events of a case's lines. Raises Fault if one isn't a valid line."""
    if lines[:1] != [f"case {case.name}"]:
        raise Fault(f"expected `case {case.name}`, got {quoted(lines[0]) if lines else 'nothing'}")
    events: List[Event] = []
    notes: List[str] = []
    crash: Optional[str] = None
    for line in lines[1:]:
        word, _, rest = line.partition(" ")
        if word == "note":
            notes.append(rest)
        elif word == "crash":
            crash = crash or f"the stack crashes: {rest.strip()}"
        else:
            try:
                events.append(read_event(case, word, rest.split()))
            except (ValueError, IndexError):
                forms = "`got STEP ADDR PORT HEX`, `out STEP HEX` or `refused STEP`"
                raise Fault(f"expected {forms}, got {quoted(line)}") from None
    return Answer(tuple(events), tuple(notes), crash)


def read_event(case: Case, word: str, words: List[str]) -> Event:
    step = int(words[0])
    if not 0 <= step < len(case.steps):
        raise ValueError
    if word == "got" and len(words) in (4, 5):
        source = None if words[1] == "*" else address(words[1])
        return Got(step, source, int(words[2]), bytes_of(words[3]), int(words[4]) if len(words) == 5 else 0)
    if word == "out" and len(words) == 2:
        return Out(step, bytes_of(words[1]))
    if word == "refused":
        return Refused(step)
    raise ValueError
