"""Is the judge fair, and does it find faults? Each machine that the RFCs permit, with one setting changed at a time,
must pass every case without an alarm. Each fault in plants.txt, planted in the reference machine, must be found in some
case."""
import functools
import pathlib
import sys
import types

import pytest

from bsdudp_conform import _machine, _read, _reassembly, cases
from bsdudp_conform._case import Answer, Receive
from bsdudp_conform._freedom import SETTINGS, Path
from bsdudp_conform._verdict import FAULT, MUST, NEVER, verdict

MODULES = {"read": _read, "reassembly": _reassembly, "machine": _machine}
ABILITIES = frozenset({"out", "send", "mtu", "sockets", "connect", "hold"})
GRAVE = (FAULT, NEVER, MUST)
pytestmark = pytest.mark.slow


@functools.lru_cache(maxsize=None)
def chosen():
    """Returns the cases that are tried, the shortest first."""
    made = (it for it in cases.make(1) if it.size[1] < 300_000 and len(it.steps) < 2_000)
    return sorted(made, key=lambda case: case.size)


@functools.lru_cache(maxsize=None)
def asked():
    """Returns the settings that the machine reads in each case, if all have their defaults. Another value has no effect
    until it's read, so a setting that isn't in the list doesn't change the case."""
    paths = {case.name: Noting({}) for case in chosen()}
    for case in chosen():
        _machine.play(case, paths[case.name])
    return {name: path.noted for name, path in paths.items()}


class Noting(Path):
    """A path that records the settings that are read."""

    def __init__(self, given):
        super().__init__(given)
        self.noted = set()

    def choose(self, name):
        self.noted.add(name)
        return super().choose(name)


def breaches(case, events):
    """Returns the rules that a machine breaks. It sends no ICMP, so rules on ICMP don't apply."""
    found = verdict(case, Answer(tuple(events)), ABILITIES)
    return [it for it in found if not it.rule.startswith("icmp.")]


def alarm(name):
    """Returns the first alarm for a machine with another value of a setting, as a line, or None."""
    setting = SETTINGS[name]
    for value in setting.permitted:
        if value == setting.default and name != next(iter(SETTINGS)):
            continue  # the machine with all defaults is tested once
        for case in chosen():
            if name not in asked()[case.name] and value != setting.default:
                continue  # it does the same as the machine with all defaults
            events = _machine.play(case, Path({name: value})).events
            for it in breaches(case, events):
                if it.level in GRAVE or value in setting.keeps:
                    return f"{name} = {value} is permitted, but {case.name}, {case.title}: {it.level} {it.what}"
    return None


def edits():
    """Yields each plant: its name, its module, and pairs of old and new text."""
    for block in pathlib.Path(__file__).with_name("plants.txt").read_text(encoding="utf-8").split("\n\n"):
        lines = [line for line in block.strip("\n").splitlines() if not line.startswith("#")]
        if lines:
            yield lines[0], lines[1].split(": ")[1], [line.split(": ", 1)[1] for line in lines[2:]]


def planted(where, texts):
    """Returns the modules with an edit."""
    made = {}
    for name, module in MODULES.items():
        source = pathlib.Path(module.__file__).read_text(encoding="utf-8")
        if name == where:
            for old, new in zip(texts[::2], texts[1::2]):
                old, new = old.replace("\\n", "\n"), new.replace("\\n", "\n")
                if source.count(old) != 1:
                    pytest.fail(f"plants.txt: {old!r} stands in {name} {source.count(old)} times", pytrace=False)
                source = source.replace(old, new)
        it = made[name] = types.ModuleType(module.__name__)
        it.__dict__.update({"__package__": "bsdudp_conform", "__file__": module.__file__})
        sys.modules[module.__name__], kept = it, sys.modules[module.__name__]
        try:
            exec(compile(source, module.__file__, "exec"), it.__dict__)
        finally:
            sys.modules[module.__name__] = kept
    made["machine"].__dict__.update(read_udp=made["read"].read_udp, Reassembly=made["reassembly"].Reassembly)
    return made


def reread(case, read):
    """Returns the case's packets as a planted reader reads them."""
    steps = []
    for step in case.steps:
        if isinstance(step, Receive):
            step = Receive(step.packet)
            step.__dict__["header"] = read(step.packet)
        steps.append(step)
    return tuple(steps)


def is_seen(where, texts):
    """Returns whether some case finds a plant."""
    made = planted(where, texts)
    for case in chosen():
        machine = made["machine"].Machine(Path({}), case.mtu)
        it = types.SimpleNamespace(steps=reread(case, made["read"].read))
        try:
            machine.play(it)
        except Exception:
            return True
        if breaches(case, machine.events):
            return True
    return False


@pytest.mark.parametrize("name", SETTINGS)
def test_permitted_machines_pass(name):
    assert alarm(name) is None


@pytest.mark.parametrize("name, where, texts", [pytest.param(*it, id=it[0]) for it in edits()])
def test_planted_fault_is_seen(name, where, texts):
    assert is_seen(where, texts), f"no case tells the fault: {name}"
