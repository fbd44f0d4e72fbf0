"""A program that plays lines, each with one reply."""
from __future__ import annotations

import contextlib
import subprocess
from typing import Any


class Player:
    """A running program. It ends with the `with` block, and then its status must be 0."""

    def __init__(self, *words: object) -> None:
        self.words = [str(it) for it in words]

    def __enter__(self) -> Player:
        self.run = subprocess.Popen(self.words, stdin=subprocess.PIPE, stdout=subprocess.PIPE, text=True)
        return self

    def __exit__(self, kind: type[BaseException] | None, *_: Any) -> None:
        self.run.stdout.close()
        with contextlib.suppress(BrokenPipeError):
            self.run.stdin.close()
        status = self.run.wait()
        assert kind or not status, f"{self.words[0]} ended with {status}"

    def ask(self, *lines: str) -> list[str]:
        """Returns the replies to these lines, of at most 64 KB: all are written before the first reply is read."""
        with contextlib.suppress(BrokenPipeError):  # the missing reply says more
            self.run.stdin.write("".join(f"{line}\n" for line in lines))
            self.run.stdin.flush()
        replies = [self.run.stdout.readline() for _ in lines]
        assert all(replies), f"{self.words[0]} ended with {self.run.wait()} after {lines[replies.index('')][:200]}"
        return [it.rstrip("\n") for it in replies]
