"""No value is leaked: a call of `forget` or a similar function needs a line below that gives the reason.

Rattle's ownership doesn't guarantee that memory is freed. `std::mem::forget` takes any value, and no contract mentions
host memory. tests/bsdudp/test_memory.py counts the blocks after failed allocations."""
import re

import pytest

from tests.cases import TOP

# Ways to discard a value, or the block that it owns, without its `drop`.
WAYS = re.compile(r"\b(forget|ManuallyDrop|MaybeUninit|leak|into_raw\w*|into_non_null\w*|transmute\w*)\b")

WHY = {
    ("chain_script/src/caller.rt", "ManuallyDrop"): "slots that are all empty, by a `requires`",
    ("sock_calls/src/queues.rt", "ManuallyDrop"): "queues in which nothing waits, by a `requires`",
    ("libbsdudp/src/parts.rt", "into_raw_with_allocator"): "`shut` makes the box again; a handle of C has it until then",
    ("play_why/src/parts.rt", "forget"): "a method of its own, which takes fragments out of its table",
    ("play_why/src/judge.rt", "forget"): "the call of that method",
}


def ways(text):
    """Returns the ways that a source uses, without its comments."""
    return set(WAYS.findall(re.sub(r"//.*", "", text)))


def found():
    for path in sorted((TOP / "crates").glob("*/src/**/*.rt")):
        for way in sorted(ways(path.read_text(encoding="utf-8"))):
            yield str(path.relative_to(TOP / "crates")), way


def test_each_has_a_reason():
    assert set(found()) - set(WHY) == set(), "give the value back, or say here why it needn't be"


def test_each_reason_is_needed():
    assert set(WHY) - set(found()) == set()


@pytest.mark.parametrize(
    "line",
    ["std::mem::forget(pool);", "let _kept = ManuallyDrop::new(block);", "use std::mem::{forget, swap};", "v.leak()"],
)
def test_a_leak_is_seen(line):
    assert ways(f"fn f() {{ {line} }} // forget\n")
    assert not ways(f"// {line}\n")
