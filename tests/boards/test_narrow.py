"""How tools/widths.py finds the functions with numbers that need 64 bits, by the types in small sources, and how
tools/narrow.py cuts the numbers of all others to 32 bits."""
import types

import pytest

from tools import crates, narrow, widths

LOW = """
pub struct Counters {
    values: [u64; 26],
}

pub struct Sum {
    total: u64,
    pub is_odd: bool,
}

impl Counters {
    pub fn value(&self, at: usize) -> u64
        ensures { result ≡ value_of at self.now }
    {
        self.values[at]
    }

    pub fn reset(&mut self) {
        self.values = none();
    }

    pub fn len(&self) -> usize {
        26 // u64 in a comment
    }
}

impl Sum {
    pub fn finish(self) -> u16 {
        fold_all(self)
    }
}

pub fn start() -> Sum {
    nothing()
}

const FAR: u64 = 1;

pub fn is_far(at: usize) -> bool {
    at == FAR
}

pub fn first<T>(it: T, at: usize) -> T {
    it
}

pub fn place(at: usize) -> usize {
    at + 8
}

pub fn shifted(at: usize) -> bool {
    at as u64 << 32 == 0
}
"""
HIGH = """
pub fn shows(counters: &Counters, at: usize) -> bool {
    counters.value(at) == counters.value(0)
}

pub fn sums(bytes: &[u8]) -> u16 {
    start().finish()
}

pub fn steps(counters: &Counters, at: usize) -> usize {
    place(at) + counters.len()
}
"""
CALLS = {
    "low::Counters::value": [],
    "low::Counters::reset": [],
    "low::Counters::len": [],
    "low::Sum::finish": [],
    "low::start": [],
    "low::place": ['call i64 @"core::int::usize::min"(i64 %a0, i64 8)'],
    "low::is_far": [],
    "low::first::<i64>": [],
    "low::shifted": [
        'call i64 @"low::first::<i64>"(i64 %a1, i64 0)',
        'call i64 @"core::slice::len::<i8>"(ptr %a0, i64 8)',
    ],
    "high::shows": ['call i64 @"low::Counters::value"(ptr %a0, i64 %a1)'],
    "high::sums": ['call { i64, i8 } @"low::start"()', 'call i16 @"low::Sum::finish"(i64 %r0, i8 %r1)'],
    "high::steps": ['call i64 @"low::place"(i64 %a1)', 'call i64 @"low::Counters::len"(ptr %a0)'],
    "core::int::usize::min": [],
    "core::slice::len::<i8>": ['call i64 @"core::mem::size"(i64 1)'],
    "core::mem::size": [],
    "core::int::u64::from_le_bytes": [],
    "core::room::may_hold": ["%r0 = udiv i64 9223372036854775807, 2"],
    "core::room::below": ["%r0 = sext i32 %a0 to i64"],
}
WIDE = {"low::Counters::value", "low::Counters::reset", "low::Sum::finish", "low::start", "low::shifted", "low::is_far"}
WIDE |= {"high::shows", "high::sums", "core::int::u64::from_le_bytes", "core::room::may_hold", "core::room::below"}


@pytest.fixture
def library(tmp_path, monkeypatch):
    """Two crates, and the module of the upper one."""
    for name, text in (("low", LOW), ("high", HIGH)):
        (tmp_path / f"crates/{name}/src").mkdir(parents=True)
        (tmp_path / f"crates/{name}/src/lib.rt").write_text(text, encoding="utf-8")
    # Only for widths: other tests' programs may be compiled in a thread of this process.
    these = types.SimpleNamespace(TOP=tmp_path, uses=lambda: {"low": [], "high": ["low"]}, below=crates.below)
    monkeypatch.setattr(widths, "crates", these)
    return "".join(
        f'define internal i64 @"{name}"(ptr %a0, i64 %a1) {{\nstart:\n' + "".join(f"  {it}\n" for it in lines) + "}\n"
        for name, lines in CALLS.items()
    )


def test_wide_functions(library):
    found = widths.wide(library, "high")
    assert {it.strip('"') for it in found.functions} == WIDE
    assert {it.strip('"') for it in found.called} == {"core::slice::len::<i8>", "core::mem::size", "low::first::<i64>"}


def test_wide_functions_have_copies_of_what_they_call(library):
    text = narrow.narrowed(library, "high")
    copy = text[text.index('define internal i64 @"core::slice::len::<i8>.wide"') :].partition("\n}\n")[0]
    assert "trunc" not in copy and '@"core::mem::size.wide"' in copy
    shifted = text[text.index('define internal i64 @"low::shifted"') :].partition("\n}\n")[0]
    assert '@"core::slice::len::<i8>.wide"' in shifted


# A line of a function that isn't wide, and those that replace it.
CUT = ["%r.low = trunc i64 %r.wide to i32", "%r = zext i32 %r.low to i64"]
RESULTS = [
    "load i64, ptr %p, align 8",
    "add i64 %x, 1",
    "mul nuw i64 %x, %y",
    'call i64 @"low::place"(i64 %x)',
    "extractvalue { ptr, i64 } %p, 1",
]
SAME = [
    "%r = load i32, ptr %p, align 4",
    "%r = extractvalue { ptr, i64 } %p, 0",
    "%r = zext i32 %x to i64",
    "store i64 %x, ptr %p, align 8",
    "%r = icmp ult i64 %x, 8",
    'call void @"low::reset"(i64 %x)',
]


def body(head, *lines, checked=False):
    text = "\n".join([f"define {head} {{", "start:", *(f"  {it}" for it in lines), "}"])
    return [it.strip() for it in narrow.function(text, checked).split("\n")[2:-1]]


@pytest.mark.parametrize("what", RESULTS)
def test_a_result_is_cut(what):
    assert body("internal void @f()", f"%r = {what}") == [f"%r.wide = {what}", *CUT]
    checked = body("internal void @f()", f"%r = {what}", checked=True)
    assert checked == [f"%r.wide = {what}", "%r = call i64 @bsdudp_narrow(i64 %r.wide)"]


@pytest.mark.parametrize("line", SAME)
def test_other_lines_stay(line):
    assert body("internal void @f()", line) == [line]


def test_a_distance_of_addresses_stays():
    lines = ["%d = ptrtoaddr ptr %p to i64", "%e = ptrtoaddr ptr %q to i64", "%r = sub i64 %d, %e"]
    assert body("internal void @f()", *lines) == lines


def test_an_argument_is_cut():
    lines = body("internal void @f(ptr noundef %a0, i64 noundef %a1)", "store i64 %a1, ptr %a0, align 8")
    assert lines[:2] == ["%a1.narrow.low = trunc i64 %a1 to i32", "%a1.narrow = zext i32 %a1.narrow.low to i64"]
    assert lines[2:] == ["store i64 %a1.narrow, ptr %a0, align 8"]


def test_a_length_of_c_is_at_most_that_of_the_longest_object():
    lines = body("i32 @bsdudp_core_rx(ptr noundef %a0, i64 noundef %a1)", "store i64 %a1, ptr %a0, align 8")
    assert lines[2:] == [
        "%a1.fits = icmp ult i64 %a1.given, 2147483647",
        "%a1.narrow = select i1 %a1.fits, i64 %a1.given, i64 2147483647",
        "store i64 %a1.narrow, ptr %a0, align 8",
    ]
