"""The command bsdudp-conform."""
from __future__ import annotations

import argparse
import ipaddress
import os
import pathlib
import re
import shlex
import sys
from typing import TYPE_CHECKING, Any, Dict, List, Optional, Sequence, Set, Tuple

from ._target import TARGET

if TYPE_CHECKING:
    from ._case import Case

MOST_FLOOD = 100
OK, DEVIATES, USAGE, NO_ADAPTER = 0, 1, 2, 3
TEMPLATES = pathlib.Path(__file__).resolve().parent / "templates"
DESCRIPTION = """Judges a UDP/IPv4 stack: sends packets through it, and compares its replies with two laws and with
all machines that the RFCs permit. docs/judge.md describes adapters, and a first verdict in five minutes."""
STATUS = """Status: 0 if there is no deviation that the baseline lacks, 1 if there is one, 2 if the command line is
wrong, 3 if a stack or a device can't be reached."""


def parser() -> argparse.ArgumentParser:
    top = argparse.ArgumentParser(prog="bsdudp-conform", description=DESCRIPTION, epilog=STATUS)
    commands = top.add_subparsers(dest="what", required=True, metavar="COMMAND")
    run = run_parser(commands)
    wire = commands.add_parser("wire", help="judge a device on a wire by its UDP echo service", epilog=STATUS)
    wire.add_argument("interface", metavar="IFACE", help="the interface, on which CAP_NET_RAW is needed")
    wire.add_argument(
        "--target", default="10.0.0.1", metavar="ADDR", help="the device's address, on a /24 network"
    )
    for it in (run, wire):
        add_choices(it)
        add_reports(it)
    reduce = commands.add_parser("reduce", help="shorten a case in which a stack deviates")
    reduce.add_argument("case", metavar="CASE", help="such as frag.key:14")
    reduce.add_argument("--pcap", metavar="FILE", help="write its packets to a capture")
    reduce.add_argument("--seeds", metavar="N", help="the case is a mix of this seed, as `run --seeds` names it")
    reduce.add_argument("adapter", nargs="+", metavar="ADAPTER", help="the adapter and its words, after --")
    for it in (run, wire, reduce):
        it.add_argument("--seed", type=int, default=1, metavar="N", help="seed of random bytes and mixes (default: 1)")
        it.add_argument("--mixes", type=int, default=400, metavar="N", help="number of random mixes (default: 400)")
        it.add_argument("--timeout", type=float, default=30.0, metavar="S", help="seconds to wait (default: 30)")
    lab_parser(commands)
    template = commands.add_parser("template", help="write kit.h and adapters to fill in, in C and in Python")
    template.add_argument("folder", metavar="FOLDER")
    return top


def lab_parser(commands: Any) -> None:
    lab = commands.add_parser("lab", help="a course: students write a stack in six steps, and you grade it")
    actions = lab.add_subparsers(dest="action", required=True, metavar="ACTION")
    start = actions.add_parser("start", help="write the students' part: six files to fill in, and the judge")
    start.add_argument("--python", action="store_true", help="in Python instead of C")
    check = actions.add_parser("check", help="try your own steps, one after the other")
    check.add_argument("--step", type=int, choices=range(1, 7), help="only this step")
    grade = actions.add_parser("grade", help="grade a class: a folder with a folder for each student; prints CSV")
    grade.add_argument("--feedback", metavar="FOLDER", help="write a text for each student, STUDENT.txt, there")
    grade.add_argument("--seed", type=int, default=1, metavar="N", help="other random bytes in the cases (default: 1)")
    for it in (start, check, grade):
        it.add_argument("folder", metavar="FOLDER", type=pathlib.Path)


def run_parser(commands: Any) -> argparse.ArgumentParser:
    run: argparse.ArgumentParser = commands.add_parser(
        "run",
        help="judge one stack or several, by their adapters",
        epilog=STATUS,
        description="bsdudp-conform run [OPTIONS] -- ADAPTER [WORD ..]",
    )
    run.add_argument(
        "--stack",
        action="append",
        default=[],
        metavar="COMMAND",
        help="a stack's adapter with its words; may be repeated. Stacks of one name are numbered in this order",
    )
    run.add_argument(
        "--jobs",
        type=int,
        default=os.cpu_count() or 1,
        metavar="N",
        help="number of adapters at once (default: one for each processor)",
    )
    run.add_argument(
        "--seeds",
        metavar="A-B",
        help="only random mixes, of these seeds, on all cores or on a Dask cluster; of one seed: with a full report",
    )
    run.add_argument(
        "--client", metavar="ADDRESS", help="with --seeds: the scheduler of a Dask cluster, such as tcp://10.0.0.9:8786"
    )
    run.add_argument("adapter", nargs="*", metavar="ADAPTER", help="the adapter and its words, after --")
    return run


def add_choices(it: argparse.ArgumentParser) -> None:
    it.add_argument(
        "--only",
        action="append",
        default=[],
        metavar="RULE",
        help="a rule, a case, or the beginning of one; may be repeated",
    )
    it.add_argument(
        "--long",
        action="store_true",
        help="add long runs: 10,000 datagrams, and clocks that wrap. Waits shouldn't take real time",
    )
    it.add_argument("--no-waits", action="store_true", help="leave out cases that wait for a second or more")
    it.add_argument("--list", action="store_true", help="print the cases, and run no adapter")


def add_reports(it: argparse.ArgumentParser) -> None:
    it.add_argument(
        "--report",
        metavar="FOLDER",
        help="write report.txt, report.html, junit.xml, and a pcap of each kind's shortest case",
    )
    it.add_argument("--baseline", metavar="FILE", help="known deviations, and choices that must stay the same")
    it.add_argument("--write-baseline", metavar="FILE", help="write this run's deviations and choices to this file")
    it.add_argument("--quiet", action="store_true", help="print the last line of each stack, and new deviations")
    it.add_argument("--no-policy", action="store_true", help="don't determine the choices of each stack")


def span(text: str) -> range:
    """The seeds of A-B. Raises ValueError for another form."""
    found = re.fullmatch(r"(\d+)-(\d+)", text)
    if not found or int(found[1]) > int(found[2]):
        raise ValueError(f"--seeds must be A-B, A at most B, not {text}")
    return range(int(found[1]), int(found[2]) + 1)


def wanted(name: str, only: Sequence[str]) -> bool:
    """Whether a case is selected."""
    return not only or any(
        name == it or name.startswith((f"{it}:", f"{it}.", it) if it.endswith(".") else (f"{it}:", f"{it}."))
        for it in only
    )


def commands_of(words: argparse.Namespace) -> List[List[str]]:
    """The adapters' commands."""
    if words.what == "wire":
        return [[sys.executable, "-m", "bsdudp_conform.adapters.onwire", words.interface, words.target]]
    return [shlex.split(it) for it in words.stack] + ([words.adapter] if words.adapter else [])


def main(argv: Optional[Sequence[str]] = None) -> int:
    """Runs the command. If standard output is closed, as in `run --list | head`, it ends without a message and with
    status 1, since its verdict wasn't read. (An adapter's pipes are _adapter's.)"""
    try:
        try:
            return command(argv)
        finally:
            sys.stdout.flush()
    except BrokenPipeError:
        os.dup2(os.open(os.devnull, os.O_WRONLY), sys.stdout.fileno())
        return DEVIATES
    except OSError as fault:
        if fault.filename is None:
            raise
        return fault_line(f"{fault.filename}: {fault.strerror}", USAGE)


def command(argv: Optional[Sequence[str]]) -> int:
    top = parser()
    words = top.parse_args(argv)
    if words.what == "template":
        return template(pathlib.Path(words.folder))
    if words.what == "lab":
        from . import _lab

        return _lab.main(words)
    if words.what == "wire":
        if not is_device(words.target):
            top.error(f"--target must be a host address on a /24 network, not {words.target}")
        os.environ[TARGET] = words.target
    elif words.what == "run" and not words.list and not commands_of(words):
        top.error(
            "name an adapter: bsdudp-conform run -- ./my-adapter (bsdudp-conform template FOLDER writes one to fill in)"
        )
    try:
        return {"run": run, "wire": run, "reduce": reduce}[words.what](words)
    except KeyboardInterrupt:
        return DEVIATES


def template(folder: pathlib.Path) -> int:
    """Writes the kit and the templates. If one of them is there and was changed, nothing is written."""
    folder.mkdir(parents=True, exist_ok=True)
    files = {folder / it.name: it.read_bytes() for it in sorted(TEMPLATES.iterdir()) if it.is_file()}
    for path, content in files.items():
        if path.exists() and path.read_bytes() != content:
            return fault_line(f"{path} exists with other contents: choose another folder", USAGE)
    for path, content in files.items():
        path.write_bytes(content)
        print(path)
    return OK


def run(words: argparse.Namespace) -> int:
    import signal

    from . import _output
    from ._adapter import Fault, Stopped
    from ._baseline import BadBaseline, read_baseline
    from ._judge import judge

    if words.what == "run" and words.seeds and "-" in words.seeds:
        return sweep(words)
    try:
        made = made_cases(words)
    except ValueError as fault:
        return fault_line(str(fault), USAGE)
    chosen = [it for it in made if wanted(it.name, words.only) and not (words.no_waits and it.slow)]
    every = len(chosen)
    if words.what == "wire":
        chosen = for_one_device(chosen)
    if words.list or not chosen:
        for it in chosen:
            print(f"{it.name:24} {it.title}")
        none = f"no case matches {' '.join(words.only)}: bsdudp-conform run --list prints all"
        return OK if chosen else fault_line(none, USAGE)
    if words.report:  # now, because a folder that can't be made would lose the run's captures
        pathlib.Path(words.report).mkdir(parents=True, exist_ok=True)
    judged = []
    signal.signal(signal.SIGTERM, signal.default_int_handler)  # in the judge itself, both print what was found so far
    try:
        known = read_baseline(pathlib.Path(words.baseline)) if words.baseline else set()
        for command in commands_of(words):
            if words.what == "wire" and not can_open_raw():
                return fault_line(
                    "a packet socket needs CAP_NET_RAW: run it as root, or with that capability", NO_ADAPTER
                )
            judged.append(judge(command, chosen, 1 if words.what == "wire" else words.jobs, words.timeout))
            judged[-1].name = own_name(judged[-1].name, {it.name for it in judged[:-1]})
            if every > len(chosen):
                judged[-1].left_out["one device"] = every - len(chosen)
            if judged[-1].why_not.startswith("stopped"):
                break
    except Stopped:
        return fault_line("stopped before a case was run", DEVIATES)
    except BadBaseline as fault:
        return fault_line(str(fault), USAGE)
    except Fault as fault:
        return fault_line(f"{shlex.join(command)}: {fault}", NO_ADAPTER)
    is_as_known = _output.write(judged, known, words)
    return OK if is_as_known and not any(it.not_run or _output.new(it, known) for it in judged) else DEVIATES


def own_name(name: str, taken: Set[str]) -> str:
    """The name of a stack in the report: with a number if an earlier stack has the same, as two builds of one have."""
    number, own = 1, name
    while own in taken:
        number += 1
        own = f"{name} ({number})"
    return own


def made_cases(words: argparse.Namespace) -> "List[Case]":
    """All cases of --seed, or the mixes of a seed of --seeds, which a sweep plays by themselves. Raises ValueError if
    that isn't one seed."""
    from . import cases
    from ._sweep import MIXES_A_SEED

    seeds = getattr(words, "seeds", None)
    if seeds:
        if not seeds.isdigit():
            raise ValueError(f"--seeds must be one seed here, such as 15, not {seeds!r}")
        return cases.make_mixes(int(seeds), MIXES_A_SEED)
    return cases.make(words.seed, words.mixes, getattr(words, "long", False))


def for_one_device(chosen: "List[Case]") -> "List[Case]":
    """The cases that can be played one after the other on one device: none receives fragments of an earlier case, and
    none is a flood that affects later cases. Runs are excluded, because all of these are one run."""
    found: "List[Case]" = []
    used: Set[Tuple[int, int, int]] = set()
    for case in sorted(chosen, key=lambda it: (it.slow, it.rule == "frag.many")):
        keys = case.fragment_keys
        flood = len(case.steps) > MOST_FLOOD
        if case.rule != "run" and not flood and not keys & used:
            found.append(case)
            used |= keys
    return found


def is_device(text: str) -> bool:
    """Whether a text is the address of one host."""
    try:
        number = int(ipaddress.IPv4Address(text))
    except ValueError:
        return False
    return 0 < number >> 24 < 0xE0 and number >> 24 != 127 and 0 < number % 256 < 255


def can_open_raw() -> bool:
    import socket

    try:
        socket.socket(socket.AF_PACKET, socket.SOCK_RAW).close()
    except PermissionError:
        return False
    return True


def fault_line(text: str, status: int) -> int:
    print(f"bsdudp-conform: {text}", file=sys.stderr)
    return status


def sweep(words: argparse.Namespace) -> int:
    from ._adapter import Fault
    from ._sweep import Found, sweep_seeds

    try:
        seeds = span(words.seeds)
    except ValueError as fault:
        return fault_line(str(fault), USAGE)
    status = OK
    for command in commands_of(words):
        try:
            found = sweep_seeds(command, seeds, words.client, words.timeout)
        except (Fault, ImportError, OSError) as fault:
            return fault_line(f"{shlex.join(command)}: {fault}", NO_ADAPTER if isinstance(fault, Fault) else USAGE)
        causes: Dict[Tuple[str, str], List[Found]] = {}
        for it in found:
            causes.setdefault((it.level, it.cause), []).append(it)
        print(f"{shlex.join(command)}: {len(seeds)} seeds, {len(found)} deviations, by {len(causes)} causes")
        for (level, cause), where in sorted(causes.items()):
            again = f"bsdudp-conform run --seeds {where[0].seed} --only {where[0].case} -- {shlex.join(command)}"
            print(f"  {level} {cause}: {len(where)}; to play the first again:\n    {again}")
        status = DEVIATES if found else status
    return status


def reduce(words: argparse.Namespace) -> int:
    from ._adapter import Adapter, Fault
    from ._packets import write_capture
    from ._reduce import reduce_case
    from ._report import steps_of

    try:
        found = {it.name: it for it in made_cases(words)}.get(words.case)
    except ValueError as fault:
        return fault_line(str(fault), USAGE)
    if found is None:
        return fault_line(f"no case {words.case}: bsdudp-conform run --list prints all", USAGE)
    try:
        with Adapter(words.adapter, words.timeout) as adapter:
            shorter = reduce_case(adapter, found)
    except Fault as fault:
        return fault_line(f"{shlex.join(words.adapter)}: {fault}", NO_ADAPTER)
    if shorter is None:
        print(f"{found.name} breaks nothing")
        return OK
    case, breach = shorter.case, shorter.breach
    steps = f"{len(case.steps)} steps of {len(found.steps)}"
    print(f"{found.name}, {found.title}: {steps} break {breach.rule}: {breach.what}")
    print("\n".join(f"  {line}" for line in steps_of(case)))
    if words.pcap:
        write_capture(pathlib.Path(words.pcap), case.packets())
    return DEVIATES


if __name__ == "__main__":
    sys.exit(main())
