"""The arguments of a script, read by argparse: `--help` prints its docstring, and a wrong argument ends it with a usage
line and status 2. A script whose reader has ended, as in `SCRIPT | head -1`, ends without a message. These end it with
one line and status 1: Stop, a program that failed, a full disk, and a file of the command line that can't be used."""
from __future__ import annotations

import argparse
import atexit
import errno
import os
import pathlib
import select
import subprocess
import sys
from types import TracebackType


class Stop(Exception):
    """Why a script can't do its work, as a line for the user."""


def script() -> str:
    """Returns the running script's path in the repository."""
    path, top = pathlib.Path(sys.argv[0]).resolve(), pathlib.Path(__file__).resolve().parent.parent
    return str(path.relative_to(top)) if path.is_relative_to(top) else path.name


def parser(about: str | None) -> argparse.ArgumentParser:
    """Returns a parser for the running script. `about` is its docstring."""
    sys.excepthook = report
    atexit.register(flush)
    how = argparse.RawDescriptionHelpFormatter
    return argparse.ArgumentParser(prog=script(), description=about, formatter_class=how, allow_abbrev=False)


def report(kind: type[BaseException], fault: BaseException, trace: TracebackType | None) -> None:
    """Prints an uncaught exception: nothing for a BrokenPipeError of standard output, a line for a fault that the user
    can mend, and otherwise the traceback."""
    if isinstance(fault, BrokenPipeError) and is_unread():
        return
    if isinstance(fault, (Stop, subprocess.CalledProcessError)):
        print(f"{script()}: {fault}", file=sys.stderr)
    elif isinstance(fault, OSError) and (fault.errno == errno.ENOSPC or fault.filename and is_named(fault.filename)):
        print(": ".join(filter(None, (script(), fault.filename, fault.strerror))), file=sys.stderr)
    else:
        sys.__excepthook__(kind, fault, trace)


def is_named(file: str) -> bool:
    """Returns whether an argument names a file, a folder above it, or a file in it."""
    path = pathlib.Path(file).resolve()
    words = (pathlib.Path(it.rpartition("=")[2]).resolve() for it in sys.argv[1:] if it)
    return any(it.is_relative_to(path) or path.is_relative_to(it) for it in words)


def flush() -> None:
    """Writes the rest of standard output, or discards it if its reader has ended."""
    try:
        sys.stdout.flush()
    except BrokenPipeError:
        os.dup2(os.open(os.devnull, os.O_WRONLY), sys.stdout.fileno())


def is_unread() -> bool:
    """Returns whether standard output is a pipe without a reader."""
    poll = select.poll()
    poll.register(sys.stdout.fileno(), 0)
    return any(event & select.POLLERR for _, event in poll.poll(0))


def with_command(read: argparse.ArgumentParser, name: str, about: str) -> argparse.Namespace:
    """Parses arguments of which the last are `command`: a command with its own arguments and options."""
    read.add_argument("command", nargs=argparse.REMAINDER, metavar=name, help=about)
    said = read.parse_args()
    if not said.command:
        read.error(f"the following arguments are required: {name}")
    if said.command[0].startswith("-"):
        read.error(f"unrecognized arguments: {said.command[0]}")
    return said
