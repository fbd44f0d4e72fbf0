"""The recipes of docs/maintain/recipes.md name each place that a change of this kind touches."""
import re

from tests.docs.pages import TOP, Fault, none_of, read
from tools import listed

RECIPES = "docs/maintain/recipes.md"


def recipe(title):
    return read(RECIPES).partition(f"\n## {title}\n")[2].partition("\n## ")[0]


def test_places_of_a_counter():
    """Each source that names the example's counter is in the recipe, except tests."""
    text = recipe("Add a counter")
    example = re.search(r"which is `(\w+)` in code", text)[1]
    sources = [str(it.relative_to(TOP)) for it in sorted(TOP.glob("crates/*/src/**/*.rt"))]
    places = [it for it in sources if "_tests/" not in it and re.search(rf"\b{example}\b", read(it))]
    assert len(places) > 3
    lacking = (it for it in places if it not in text)
    none_of(Fault(f"{RECIPES}:1", f"\"Add a counter\" doesn't name {it}, which has {example}") for it in lacking)


def test_number_of_counters():
    """Pages and scripts that say how many counters there are."""
    number = str(len(listed.counters()))
    for path in ("docs/scripts.md", "examples/play/shown.txt", RECIPES):
        said = set(re.findall(r"\b(\d+) counters`?", read(path)))
        if number not in said:
            none_of([Fault(f"{path}:1", "another number of counters", number, ", ".join(said))])
    assert f"length items ≡ {number} " in read("crates/request/proofs/CountLemmas.antt")
    most = int(re.search(r"the ([\d,]+) bytes that `put_counters`", recipe("Add a counter"))[1].replace(",", ""))
    assert f"enough for {most // 37} counters" in recipe("Add a counter")
