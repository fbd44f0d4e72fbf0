"""The reference machine with bsdudp's settings and the program have the same results in every case, byte for byte: each
delivery with its step, sender and socket, each packet sent, each refusal."""
import sys
from collections import Counter

import pytest

from bsdudp_conform import cases
from bsdudp_conform._adapter import Adapter
from bsdudp_conform._freedom import BSD, Path
from bsdudp_conform._machine import play
from tests.conform.conftest import PATHS

ADAPTER = [sys.executable, "-m", "bsdudp_conform.adapters.bsdudp"]


def others(wanted, there):
    """Returns whether two lists of lines differ. The position of a line `refused` isn't compared."""
    orders = ([it for it in lines if it[0] != "r"] for lines in (wanted, there))
    return sorted(wanted) != sorted(there) or len({tuple(it) for it in orders}) > 1


@pytest.mark.slow
def test_exact(bsdudp, monkeypatch):
    monkeypatch.setenv("PYTHONPATH", PATHS)
    faults = []
    spent = Counter()  # the program serves all cases of an MTU, so its identification continues
    with Adapter([*ADAPTER, str(bsdudp), "run"], 60) as program:
        for case in cases.make(1, 1000):
            machine = play(case, Path(BSD), 1 + spent[case.mtu])
            answer = program.ask(case)
            spent[case.mtu] = machine.identification - 1
            wanted, there = ([event.line for event in it.events] for it in (machine, answer))
            if answer.fault or others(wanted, there):
                differs = answer.fault or set(there) ^ set(wanted)
                faults.append(f"{case.name}, {case.title}: {differs!s:.200}")
    assert not faults, faults[:5]
