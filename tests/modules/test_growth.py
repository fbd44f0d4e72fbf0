"""Nothing allocates host memory after boot. This test reads the LLVM modules of both static libraries, in which nothing
is inlined yet and each function has its own name, and follows the names in functions.

A function may reach each name in it, whether it calls it, takes its address or reads it: another function, or a
constant and the names in that, such as a table of functions. In libbsdudp, the exports other than the two that boot may
reach no function outside the module except LLVM's own and the one that frees memory. They may also reach no call
through an address and no assembler text, because the function called there is unknown. In the page's library, the same
holds for the functions that serve a script after memory was allocated, and for those that end it."""
import pathlib
import re
import tempfile

import pytest

from tools import llvm

pytestmark = [pytest.mark.slow, pytest.mark.needs("rt", "wasm-opt"), pytest.mark.xdist_group("modules")]
BOOTS = ("bsdudp_core_boot", "bsdudp_core_ether_boot")
HARMLESS = re.compile(r"llvm\.(?!coro\.)|rattle_dealloc$")
# The function of the page's library that is called after memory was allocated, and the functions that it calls for a
# line. Each must exist.
SERVE = "script_loop::serve::serve_within"
SERVED = [
    "link_script::caller::CallerAnswersTEXT::answer",
    "chain_script::caller::CallerAnswersTEXT::answer",
    "play_script::player::PlayerAnswersOUTPUT::answer",
    "play_wire::player::PlayerAnswersOUTPUT::answer",
]
ENDS = ["net_stack::stack::Stack::end", "chain_script::caller::Caller::end"]
# Calls that aren't followed, and the reasons.
LEFT_OUT = {
    # Their contracts require that the bytes fit, and the buffer's memory was allocated when it was made.
    ("script_loop::buffer::Buffer::append", "std_alloc::vec::Vec::extend_from_slice"),
    ("script_loop::buffer::Buffer::push", "std_alloc::vec::Vec::push"),
    # A line with settings boots the host, and each line `host` boots another one.
    ("play_script::player::Player::set_up", "play_script::settle::settled"),
    ("play_wire::hosts::Hosts::execute_ask", "play_wire::hosts::Hosts::add"),
    # A line `rx pcap` reads a whole capture, and frees the memory for its records.
    ("play_script::replay::play_in", "play_pcap::play::play_file"),
    # The page passes this writer, which allocates memory for the replies.
    ("script_loop::streams::VecU8Sink::write_some", "std::io::impls::VecU8Write::write"),
}
# A name of the module, or another quoted text.
NAME = re.compile(r'@"([^"]*)"|@([\w.$-]+)|"[^"]*"')
CALL = re.compile(r"(?<![\w%@.$-])(?:call|callbr|invoke) (.*)")
CALLEE = re.compile(r'([@%])(?:"[^"]*"|[\w.$-]+)\(')


def plain(name):
    """Returns a function's name without its type arguments."""
    return name.partition("::<")[0]


class Module:
    """The names in each function and constant, the exports, the names outside the module, and the functions that call
    through an address."""

    def __init__(self, path):
        with tempfile.TemporaryDirectory() as scratch:
            text = llvm.readable(path, llvm.toolchain(), pathlib.Path(scratch))
        assert "\nmodule asm" not in text, f"{path.stem} has an assembler's text of its own"
        self.crate, self.names, self.exports, self.outside, self.blind = path.stem, {}, [], set(), set()
        inside = None
        for line in text.split("\n"):
            named = [it[1] or it[2] for it in NAME.finditer(line) if it[0][0] == "@"]
            if line.startswith(("define ", "declare ", "@")):
                inside = named[0]
                self.names[inside] = set(named[1:])
                if line.startswith("declare "):
                    self.outside.add(inside)
                elif not re.match(r"define (?:internal|private)\b|@", line):
                    self.exports.append(inside)
            elif inside:
                self.names[inside].update(it for it in named if (plain(inside), plain(it)) not in LEFT_OUT)
            call = CALL.search(re.sub(r'(?<![@%])"[^"]*"', "", line))
            callee = call and CALLEE.search(call[1])
            if call and not (callee and callee[1] == "@"):
                self.blind.add(inside)

    def called(self, name):
        """Returns the functions with this name, for all type arguments."""
        found = [it for it in self.names if plain(it) == name]
        assert found, f"{self.crate} has no {name}"
        return found

    def reached(self, root):
        """Returns each name that is reached from one, with the name through which it's reached first."""
        by, left = {root: None}, [root]
        for name in left:
            new = sorted(self.names.get(name, set()) - by.keys())
            by.update(dict.fromkeys(new, name))
            left += new
        return by

    def faults(self, roots):
        for by in map(self.reached, roots):
            for name in by:
                if name in self.blind or name in self.outside and not HARMLESS.match(name):
                    way = [name]
                    while by[way[0]]:
                        way.insert(0, by[way[0]])
                    said = "calls by an address" if name in self.blind else "isn't in the module"
                    yield f"{self.crate}: after boot {' > '.join(map(plain, way))}, which {said}"


@pytest.fixture(scope="module")
def of_library(module):
    return Module(module("libbsdudp"))


@pytest.fixture(scope="module")
def of_page(module):
    return Module(module("page"))


@pytest.mark.parametrize("boot", BOOTS)
def test_boot_is_seen_to_ask(boot, of_library):
    """Otherwise the test doesn't see what an export does."""
    assert any(of_library.faults(of_library.called(boot)))


def test_no_export_asks_but_boot(of_library):
    others = [it for it in of_library.exports if it not in BOOTS]
    assert others, "boot is alone"
    assert not list(of_library.faults(others))


@pytest.mark.parametrize("answer", SERVED)
def test_page_serves_by(answer, of_page):
    """The function that is followed in the page's library reaches each function that replies to a line."""
    assert any(plain(it) == answer for root in of_page.called(SERVE) for it in of_page.reached(root))


def test_page_asks_for_nothing_once_it_serves(of_page):
    assert not list(of_page.faults([*of_page.called(SERVE), *(it for name in ENDS for it in of_page.called(name))]))
