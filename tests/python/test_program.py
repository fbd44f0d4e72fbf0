"""Random calls on a stack have the results that the program replies to the same script."""
import importlib

import pytest


@pytest.mark.slow
@pytest.mark.needs("hypothesis")
def test_random_calls(bsdudp):
    calls = importlib.import_module("tests.python.random_calls")
    machine = type("Calls", (calls.Calls,), {"program": bsdudp})
    importlib.import_module("hypothesis.stateful").run_state_machine_as_test(machine, settings=calls.SETTINGS)
