"""Adapters that print nonsense, die, hang or flood: the run reports each, loses only the cases it was in, and
continues."""
import functools
import sys
import tempfile

import pytest

from bsdudp_conform import _adapter, cases
from bsdudp_conform._judge import judge


# An answer is one write, even if PYTHONUNBUFFERED is set: the judge stops reading at an `end`, so it may miss what a
# later write has.
HEAD = """
import os, sys, time
sys.stdout = open(1, "w", closefd=False)
for line in sys.stdin:
    line = line.strip()
    if line == "hello 1":
        print("stack bad 1\\nhas\\nend", flush=True)
    elif line.startswith("case "):
        name = line
        print(line)
    elif line == "end":
        if name == "case ip.version:3":
            %s
        print("end", flush=True)
"""
BAD = {
    "print('got here')": "expected `got STEP ADDR PORT HEX`, ",
    "print('nonsense 0')": "expected `got STEP ADDR PORT HEX`, ",
    "print('got 0 10.0.0.2 5000 00 0 0')": "expected `got STEP ADDR PORT HEX`, ",
    "print('got 0 10.0.0.2 5000 zz')": "expected `got STEP ADDR PORT HEX`, ",
    "print('got 7 10.0.0.2 5000 00')": "expected `got STEP ADDR PORT HEX`, ",
    "sys.exit(4)": "it ended with status 4",
    "os.kill(os.getpid(), 11)": "it was killed by signal 11 (SIGSEGV)",
    "time.sleep(600)": "it hangs: no `end` within 8 s",
    "os.close(1); time.sleep(600)": "it closed its standard output or input",
    "[print('note ' + 'x' * 100000) for _ in range(10 ** 6)]": "it floods: more than",
    "print('crash of the stack')": "the stack crashes: of the stack",
    "print('end'); print('case other')": "`out STEP HEX` or `refused STEP`, got 'end'",
}


NONSENSE = "import time; print('nonsense', flush=True); print('end', flush=True); time.sleep(600)"
REFUSED = [(["/nonexistent"], "can't run /nonexistent: "), (["true"], "it ended with status 0")]
REFUSED += [([sys.executable, "-c", NONSENSE], "expected `stack NAME`, ")]
# The time limit of an adapter in seconds. On a busy computer a good one takes 2 to start.
LIMIT, OF_ONE_THAT_HANGS = 60, 8


@functools.lru_cache(maxsize=None)
def chosen():
    return [it for it in cases.make(1, 0) if it.rule == "ip.version"]


def told(body):
    """Returns the fault of the case in which an adapter is bad, the faults of others, and the number of cases."""
    with tempfile.NamedTemporaryFile("w", suffix=".py") as file:
        file.write(HEAD % body)
        file.flush()
        limit = OF_ONE_THAT_HANGS if "it hangs" in BAD[body] else LIMIT
        judged = judge([sys.executable, file.name], chosen(), timeout=limit, progress=False)
    faults = {name: it.fault for name, it in judged.answers.items() if it.fault}
    return faults.pop("ip.version:3", ""), faults, len(judged.answers)


@pytest.mark.slow
@pytest.mark.parametrize("body", BAD)
def test_bad_adapter(body, monkeypatch):
    monkeypatch.setattr(_adapter, "MOST_BYTES", 4 << 20)
    fault, others, answers = told(body)
    assert BAD[body] in fault
    assert not others and answers == len(chosen())


@pytest.mark.parametrize("words, wanted", REFUSED)
def test_no_adapter(words, wanted):
    with pytest.raises(_adapter.Fault) as fault:
        judge(words, chosen(), timeout=LIMIT, progress=False)
    assert wanted in str(fault.value)
