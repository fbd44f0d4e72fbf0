#!/usr/bin/env python3
"""Plays all scripts in examples/ with a driver of run.c, and compares its replies with their golden files, byte for
byte. Then it plays random scripts with the driver and with the program `bsdudp`, and compares their replies. Several
drivers, separated by +, play the same scripts. If a reply differs, it prints that and exits with 1."""
import argparse
import concurrent.futures
import itertools
import os
import pathlib
import subprocess
import sys

sys.dont_write_bytecode = True
TOP = pathlib.Path(__file__).resolve().parent.parent.parent
sys.path.insert(0, str(TOP))
from tests.random_scripts import FIRST, lines_of, random_script  # noqa: E402
from tools import command_line  # noqa: E402


def examples():
    """Returns each script in examples/ with its name, its options, and its replies."""
    for path in sorted((TOP / "examples").glob("*.txt")):
        words = path.with_name(path.name + ".args")
        options = words.read_text().split() if words.exists() else []
        yield path.name, options, path.read_bytes(), path.with_name(path.name + ".stdout").read_bytes()


def heard(driver, scripts):
    """Returns the driver's replies to scripts, one after another, and its other output."""
    text = b"".join(" ".join(options).encode() + b"\n" + script + b"\0" for _, options, script in scripts)
    ran = subprocess.run(driver, input=text, capture_output=True, check=False)
    got, said = ran.stdout.split(b"\0")[:-1], ran.stderr.decode(errors="replace")
    if ran.returncode or len(got) != len(scripts):
        first = (said.strip() or "nothing").splitlines()[0]
        ended = f"{driver[0]} ended with {ran.returncode} after {len(got)} of {len(scripts)} scripts"
        sys.exit(f"replies.py: {ended}: {first}")
    return got, said


def chosen(count, program):
    """Returns all scripts in examples/ and `count` random ones, each with its name and options, and their replies."""
    told = list(examples())
    scripts = [(f"examples/{name}", options, script) for name, options, script, _ in told]
    lines = lines_of(script for _, _, script, _ in told)
    mixed_up = [(f"random script {seed}", *random_script(seed, lines)) for seed in range(FIRST, FIRST + count)]

    def answered(script):
        return subprocess.run([program, "run", *script[1]], input=script[2], capture_output=True, check=True).stdout

    with concurrent.futures.ThreadPoolExecutor(os.cpu_count()) as pool:
        wanted = [replies for *_, replies in told] + list(pool.map(answered, mixed_up))
    return scripts + mixed_up, wanted


def differences(scripts, got, wanted):
    """Returns the script and the line of each reply that differs."""

    def line_of(one, other):
        pairs = zip(one.splitlines() + [b""], other.splitlines() + [b""])
        return next(at for at, (here, there) in enumerate(pairs, 1) if here != there or not here)

    told = zip(scripts, got, wanted)
    return [f"{name}: line {line_of(it, want)} has another reply" for (name, *_), it, want in told if it != want]


class Random(argparse.Action):
    """Parses a number and the path of a program."""

    def __call__(self, parser, namespace, values, option=None):
        if not values[0].isdigit():
            parser.error(f"{option}: {values[0]} isn't a number")
        setattr(namespace, self.dest, (int(values[0]), values[1]))


def add_random(parser):
    """Returns the option --random, as a number of scripts and the program that plays them, or 0 and None."""
    about = "also plays N random scripts, by this program bsdudp too"
    parser.add_argument(
        "--random", nargs=2, metavar=("N", "PROGRAM"), action=Random, default=(0, None), help=about
    )


def main():
    parser = command_line.parser(__doc__)
    add_random(parser)
    words = command_line.with_command(parser, "DRIVER", "a driver with its arguments, and others, each after a +")
    drivers = [list(it) for same, it in itertools.groupby(words.command, lambda word: word != "+") if same]
    scripts, wanted = chosen(*words.random)
    with concurrent.futures.ThreadPoolExecutor(len(drivers)) as pool:
        played = list(pool.map(lambda driver: heard(driver, scripts)[0], drivers))
    faults = [(driver, fault) for driver, got in zip(drivers, played) for fault in differences(scripts, got, wanted)]
    for driver, fault in faults:
        print(f"{' '.join(driver)}: {fault}" if len(drivers) > 1 else fault, file=sys.stderr)
    return min(len(faults), 1)


if __name__ == "__main__":
    sys.exit(main())
