"""The errors of the socket calls: docs/behaviour.md has those of each call, in order."""
import re

from tests.docs.pages import Entry, Fault, in_code, in_order, none_of, table
from tools import listed

ORDER = ["socket", "bind", "connect", "sendto", "send", "recvfrom", "setsockopt", "close"]


def test_refusals_of_each_call():
    place, rows = table("docs/behaviour.md", "Socket calls", "Call", "Errors, in order", "Otherwise")
    refused = listed.errors_by_call()
    entries = [Entry(row.place, call) for row in rows for call in in_code(row.cells[0])]
    faults = in_order(place, "the call", entries, ORDER, "tests/docs/test_refusals.py")
    for row in rows:
        call, told = in_code(row.cells[0])[0], re.findall(r"\bE[A-Z]{3,}\b", row.cells[1])
        if call in listed.CALLS and told != refused[call]:
            wanted = ", ".join(refused[call]) or "no refusal"
            faults.append(Fault(row.place, f"the refusals of `{call}`, in their order", wanted, ", ".join(told)))
    none_of(faults)


def test_refusals_of_a_send():
    place, rows = table("docs/behaviour.md", "A send", "Error", "If")
    told, wanted = [row.cells[0].replace("`", "") for row in rows], listed.errors_by_call()["send"]
    if told != wanted:
        none_of([Fault(place, "the refusals of a send, in their order", ", ".join(wanted), ", ".join(told))])
