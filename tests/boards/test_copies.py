"""portable/core replaces memmove by memcpy only where no copy can overlap, and leaves out the test whether it does. It
refuses a core with a copy that it doesn't know."""
import pytest

from tools.command_line import Stop

BITS = "core::ptr::copy_drop::copy_bits::<i8>"
MOVE = "call void @llvm.memmove.p0.p0.i64(ptr %a1, ptr %a0, i64 {}, i1 false)"


def function(name, *lines):
    return f'define internal void @"{name}"(ptr noundef %a0, ptr noundef %a1) #0 {{\n' + "\n".join(lines) + "\n}\n"


ADDRESSES = ["  %r1 = ptrtoaddr ptr %a1 to i64", "  %r2 = ptrtoaddr ptr %a0 to i64"]
TEST = ["  %r3 = sub i64 %r1, %r2", "  %r4 = icmp ult i64 %r3, %r7"]
COPIES = function(BITS, *ADDRESSES, *TEST, MOVE.format("%r7"))
VALUE = function("udp::header::read_header", MOVE.format("24"))
SLICES = function("core::slots::Slots::copy_in::<i8>", f'call void @"{BITS}"(ptr %a0, ptr %a1)')


def test_copies_of_values_and_between_borrows_are_memcpy(core_script):
    text = core_script.copied(COPIES + VALUE + SLICES)
    assert "memmove" not in text and text.count("call void @llvm.memcpy.") == 2


def test_copies_between_borrows_arent_tested(core_script):
    assert "%r4 = icmp ult i64 1, 0" in core_script.copied(COPIES + VALUE + SLICES)


@pytest.mark.parametrize("body", [ADDRESSES, TEST, [*ADDRESSES, *TEST, *TEST]], ids=["no test", "other numbers", "two"])
def test_another_test_of_overlapping_is_refused(core_script, body):
    with pytest.raises(Stop, match="overlapping"):
        core_script.copied(function(BITS, *body, MOVE.format("%r7")))


@pytest.mark.parametrize(
    "added",
    [
        function("std::slices::slice+T::copy_within::<i8>", MOVE.format("%r3")),
        function("std::slices::slice+T::copy_within::<i8>", f'call void @"{BITS}"(ptr %a0, ptr %a1)'),
    ],
    ids=["a length that isn't known", "another caller"],
)
def test_a_copy_that_may_overlap_is_refused(core_script, added):
    with pytest.raises(Stop, match="copy_within"):
        core_script.copied(COPIES + VALUE + SLICES + added)
