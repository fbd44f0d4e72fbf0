"""The counters and the causes that end a packet: the order of checks in docs/behaviour.md, every counter that a page
names, and the texts of causes."""
import re

from tests.docs.pages import Entry, Fault, documents, in_code, in_order, lines, none_of, pieces, table
from tools import listed

BEHAVIOUR = "docs/behaviour.md"
# The definitions whose text has the causes that drop a packet, in the order of the checks.
CHECKS = ["ComesInAs", "head_fault", "PassesAs", "FragmentArrivesAs", "WholeArrivesAs"]


def test_table_of_checks():
    """The table of causes has the order of the definitions."""
    place, rows = table(BEHAVIOUR, "A packet that arrives", "Check", "Counter")
    known: dict[str, str] = {}
    for path in ("Packets/Header.antt", "Machine/Arrival.antt", "Machine/Step.antt"):
        known |= listed.definitions(listed.SPECS / path)
    names, counter_of = dict(listed.named_counters()), dict(listed.causes_counted())
    words = [word for check in CHECKS for word in re.findall(r"\w+", known.get(check, ""))]
    # A definition has each cause twice: for what is said of the end, and for the state.
    wanted = list(dict.fromkeys(names[counter_of[word]] for word in words if word in counter_of))
    entries = [Entry(row.place, " ".join(in_code(row.cells[1]))) for row in rows]
    none_of(in_order(place, "the counter of a check", entries, wanted, "crates/flat_model/specs"))


def test_each_counter_has_a_function_of_the_book():
    """tools/lists writes the other cells of the table of counters."""
    heads = ("Counter", "What it counts", "Cause", "Volume 2")
    rows = table(BEHAVIOUR, "Counters", *heads)[1]
    none_of(Fault(it.place, f"the row of {it.cells[0]} lacks the book's function") for it in rows if not it.cells[3])


def test_causes_of_bsdplay():
    """play_text has the same text for each cause."""
    path = "crates/play_text/src/words.rt"
    told = dict(pieces(path, r'Why::(\w+) => "([^"]+)",'))
    none_of(
        Fault(f"{path}:1", f"the text of the cause {why}", text, told.get(why, ""))
        for why, text in listed.texts_of_causes().items()
        if told.get(why) != text
    )


def test_each_counter_that_a_page_names_is_one():
    """A name with a number, such as udp.data:1, is a case of bsdudp-conform."""
    names = {name for _, name in listed.named_counters()}
    name = re.compile(r"(?<![\w.])(?:ip|udp|out)\.[a-z]+\b(?![.\w]*:\d)")
    pages = [it for it in documents() if re.fullmatch(r"README\.md|docs/.*|crates/\w+/README\.md", it)]
    none_of(
        Fault(place, f"there is no counter '{word}'")
        for path in pages
        for place, line in lines(path)
        for word in sorted({word for code in in_code(line) for word in name.findall(code)} - names)
    )
