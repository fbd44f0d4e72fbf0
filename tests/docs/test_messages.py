"""Messages of the Python package, the C library, the judge and bsdplay demand what must be ("mtu must be 68 to 4352");
they don't state it as a fact ("mtu is 68 to 4352, and not 0")."""
import re

import pytest

from tests.docs.pages import TOP, Fault, none_of

SOURCES = sorted([*TOP.glob("python/bsdudp/*.py"), *TOP.glob("conform/bsdudp_conform/*.py"), *TOP.glob("capi/src/*.c")])
PLAY = ("play_*/src/fault", "play_*/src/text", "bsdplay/src/form", "bsdplay/src/grade", "bsdplay/src/main")
PLAY = sorted(it for name in PLAY for it in TOP.glob(f"crates/{name}.rt"))
RAISED = re.compile(r"(?:raise \w+|Fault|Unusable|error|fault_line)\(\s*(?:errno\.\w+,\s*)?f?([\"'])((?:(?!\1).)*)\1")
STATED = re.compile(r", and not\b|\bis no [a-z]|\bwhat there is\b|\b(?:is|are) [^:]*\d to \d[^:]*$")
STATED_BY_PLAY = re.compile(r"\b(?:is|are) no\b|\bis missing\b|\btakes? |\bgoe?s? with|\bstands? |\bwants? |\bnot an? [a-z]+$")


def messages(source):
    """Yields each message of a source with its line."""
    text = source.read_text(encoding="utf-8")
    found = RAISED.finditer(text) if source.suffix == ".py" else re.finditer(r'^ +(")((?:(?!").)*)",?$', text, re.M)
    for it in found:
        yield text.count("\n", 0, it.start()) + 1, it[2]


def is_stated(text):
    return bool(STATED.search(text)) and "must" not in text


@pytest.mark.parametrize("source", SOURCES, ids=[it.name for it in SOURCES])
def test_messages_demand(source):
    place = source.relative_to(TOP)
    faults = [Fault(f"{place}:{line}", f"say what must be: {it}") for line, it in messages(source) if is_stated(it)]
    none_of(faults)


@pytest.mark.parametrize("source", PLAY, ids=[str(it.relative_to(TOP / "crates")) for it in PLAY])
def test_messages_of_bsdplay_demand(source):
    lines = [(n, it) for n, it in enumerate(source.read_text(encoding="utf-8").split("\n"), 1) if "//" not in it]
    texts = [(n, text) for n, it in lines for text in re.findall(r'"((?:[^"\\]|\\.)*)"', it)]
    place = source.relative_to(TOP)
    none_of([Fault(f"{place}:{n}", f"say what must be: {it}") for n, it in texts if STATED_BY_PLAY.search(it)])


def test_the_rule_finds_messages_and_faults():
    assert sum(1 for source in SOURCES for _ in messages(source)) > 100
    assert is_stated("mtu is 68 to 4352") and is_stated("data is bytes, and not int") and is_stated("'x' is no command")
    assert not is_stated("mtu must be 68 to 4352, not 0") and not is_stated("the descriptor is not open")
