"""The levels of portable/core. At some, functions that choose a quick way return `false`, so that the library has no code
for it. portable/core stops if such a function isn't in the module."""
import re

import pytest

from tests.cases import TOP
from tools.command_line import Stop

WAY = r"""
/// .*
#\[inline\(always\)\]
pub fn (\w+)\(\) -> bool {
    true
}
"""


def function(name, kind="i1"):
    return f'define internal noundef zeroext {kind} @"{name}"(ptr noundef %a0) #0 {{\n  ret {kind} 1\n}}\n'


def test_a_function_returns_false(core_script):
    text = core_script.without(function("udp::one") + function("udp::two"), ["udp::two"])
    assert text == function("udp::one") + function("udp::two").replace("ret i1 1", "ret i1 false")


@pytest.mark.parametrize(
    "text",
    [function("udp::one"), function("udp::two", "i32"), 2 * function("udp::two")],
    ids=["a wrong name", "another type", "two of the name"],
)
def test_a_function_that_isnt_known_is_refused(core_script, text):
    with pytest.raises(Stop, match="no udp::two"):
        core_script.without(text, ["udp::two"])


def test_each_level_knows_its_functions(core_script):
    """Each level's functions are in the sources, once."""
    for name in {it for level in core_script.LEVELS.values() for it in level.off}:
        crate, function = name.split("::")[0], name.split("::")[-1]
        texts = [it.read_text(encoding="utf-8") for it in (TOP / "crates" / crate / "src").rglob("*.rt")]
        assert sum(len(re.findall(rf"\bfn {function}\(", text)) for text in texts) == 1, name


def test_quick_ways_are_those_of_the_source(core_script):
    """Those that a crate calls are in the module. Without a clause, a proof holds for `true` and for `false`."""
    text = (TOP / "crates/params/src/ways.rt").read_text(encoding="utf-8")
    ways = re.findall(WAY, text)
    assert text.count("fn ") == len(ways), "a function of another form"
    callers = "".join(it.read_text(encoding="utf-8") for it in TOP.glob("crates/*/src/*.rt"))
    assert core_script.WAYS == [f"params::ways::{it}" for it in ways if re.search(rf"(?<!fn ){it}\(\)", callers)]
    assert set(core_script.WAYS) <= set(core_script.LEVELS["--small"].off)
