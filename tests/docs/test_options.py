"""docs/scripts.md: the usage of both commands of bsdudp, and its exit statuses."""
import re

import pytest

from tests.docs.pages import Entry, Fault, in_code, in_order, none_of, pieces, read, table
from tools import listed

SCRIPTS = "docs/scripts.md"
COMMAND_LINE = listed.COMMAND_LINE


@pytest.mark.parametrize("command", ["run", "chain"])
def test_usage(command):
    """The usage line of the command names its options."""
    text, wanted = read(SCRIPTS).split("\n"), listed.options()[command]
    line = next((n for n, it in enumerate(text, 1) if it.startswith(f"    bsdudp {command} [")), 0)
    told = re.findall(r"\[--(\w+)", text[line - 1]) if line else []
    if told != wanted:
        about = f"the options of `bsdudp {command}`, in the order of {listed.OPTIONS}"
        none_of([Fault(f"{SCRIPTS}:{line or 1}", about, ", ".join(wanted), ", ".join(told))])


def test_table_of_statuses():
    """Each exit status with each error text that belongs to it, in any order."""
    place, rows = table(SCRIPTS, "The command line of bsdudp", "Status", "Text on standard error", "When")
    prefix = pieces(COMMAND_LINE, r'writeln!\(errors, "(.*?)\{failure\}"\)')[0]
    texts = pieces("crates/script_loop/src/fault.rt", r'#\[error\("([^"]+)"\)\]\s*(\w+)')
    texts += pieces(COMMAND_LINE, r'#\[error\("([^"]+)"\)\]\s*(\w+)')
    text_of = {fault: f"{prefix}{text}" for text, fault in texts}
    wanted = {pieces(COMMAND_LINE, r"Ok\(\(\)\) => (\d+),")[0] + " "}
    for failure, faults_of_run, status in pieces(COMMAND_LINE, r"Failure::(\w+)(?:\(([^)]*)\))? => (\d+)"):
        for fault in re.findall(r"RunFault::(\w+)", faults_of_run) or [failure]:
            wanted.add(f"{status} {text_of.get(fault, fault)}")
    entries = [Entry(row.place, f"{row.cells[0]} {text}") for row in rows for text in in_code(row.cells[1]) or [""]]
    keys = [entry.key for entry in entries]
    wanted_here = sorted(wanted, key=lambda key: keys.index(key) if key in keys else len(keys))
    none_of(in_order(place, "the status", entries, wanted_here, COMMAND_LINE))
