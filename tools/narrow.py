"""Rewrites an LLVM module for a processor with 32-bit registers, so that lengths and indices have 32 bits.

In each function that isn't wide (tools/widths.py), each argument and each result of 64 bits is cut to 32 bits and
extended again: then clang knows that its upper half is 0, and computes with the lower half. Nothing changes if each of
these numbers is below 2 ^ 32, as lengths and indices are if memory ends there. `checked` makes the same module with a
trap for each number that isn't, instead of the cut."""
import re

from tools import widths

# A line whose result is one number of 64 bits.
RESULT = re.compile(
    r"  (%[\w.]+) = (load i64, .*|(?:add|sub|mul|udiv|urem|shl|lshr|and|or|xor)(?: nuw| nsw| exact| disjoint)* i64 .*"
    r"|(?:tail )?call [^@]*\bi64 @.*)$"
)
# One that takes a member of a pair.
MEMBER = re.compile(r"  (%[\w.]+) = (extractvalue \{ ([^}]*) \} \S+, (\d+))$")
NAME = re.compile(r'(?<=@)"[^"]*"|(?<=@)[\w.$]+')
INTERNAL = re.compile(r"define (?:internal|private) ")
LONGEST = (1 << 31) - 1
# How far one address is above another, which may be below 0.
DISTANCE = re.compile(r"  %[\w.]+ = sub i64 (%[\w.]+), %")
ADDRESS = re.compile(r"(%[\w.]+) = ptrtoaddr ")
ARGUMENT = re.compile(r"\bi64(?: \w+)* (%\w+)(?=[,)])")
TRAP = "declare void @llvm.trap()"
CHECKED = """
define internal i64 @bsdudp_narrow(i64 %a0) {
start:
  %r0 = icmp ugt i64 %a0, 4294967295
  br i1 %r0, label %wide, label %narrow

wide:
  call void @llvm.trap()
  unreachable

narrow:
  ret i64 %a0
}
"""


def cut(name, to, checked):
    """Returns the lines that make a number from a wide one."""
    if checked:
        return [f"  {to} = call i64 @bsdudp_narrow(i64 {name})"]
    return [f"  {to}.low = trunc i64 {name} to i32", f"  {to} = zext i32 {to}.low to i64"]


def cut_argument(name, is_of_c, checked):
    """Returns the lines that make a function's argument. A length of C above the longest possible object counts as that
    one's, so that a sum of two lengths needs no more than 32 bits."""
    if not is_of_c:
        return cut(name, f"{name}.narrow", checked)
    lines = cut(name, f"{name}.given", checked)
    lines.append(f"  {name}.fits = icmp ult i64 {name}.given, {LONGEST}")
    return [*lines, f"  {name}.narrow = select i1 {name}.fits, i64 {name}.given, i64 {LONGEST}"]


def result(line):
    """Returns a line's result of 64 bits, and the instruction; None if it has none."""
    if it := RESULT.match(line):
        return it[1], it[2]
    it = MEMBER.match(line)
    return (it[1], it[2]) if it and it[3].split(", ")[int(it[4])] == "i64" else None


def function(text, checked):
    """Returns a function's text in which each number of 64 bits is cut, except distances of addresses."""
    head, _, body = text.partition("\n")
    addresses = set(ADDRESS.findall(body))
    arguments = ARGUMENT.findall(head)
    if arguments:
        body = re.sub(rf"(?:{'|'.join(arguments)})\b(?!\.)", r"\g<0>.narrow", body)
    made = [head]
    for line in body.split("\n"):
        found = None
        if "i64" in line:
            distance = DISTANCE.match(line)
            found = None if distance and distance[1] in addresses else result(line)
        if found:
            made += [f"  {found[0]}.wide = {found[1]}", *cut(f"{found[0]}.wide", found[0], checked)]
            continue
        made.append(line)
        if line.endswith(":"):
            made += [it for name in arguments for it in cut_argument(name, not INTERNAL.match(head), checked)]
            arguments = []
    return "\n".join(made)


def copies(text, called):
    """Returns a function's text with calls of the copies for wide functions."""
    return NAME.sub(lambda it: copy_of(it[0]) if it[0] in called else it[0], text)


def copy_of(name):
    return f'{name[:-1]}.wide"' if name.startswith('"') else f"{name}.wide"


def narrowed(text, crate, checked=False):
    """Returns the text of a library's module with lengths and indices of 32 bits. A function that's wide only if a wide
    one calls it is there twice."""
    wide = widths.wide(text, crate)
    parts, made = re.split(r"(?ms)^(define .*?^\}$)", text), []
    for at in range(1, len(parts), 2):
        name = widths.DEFINED.match(parts[at])[1]
        if name in wide.called:
            made.append(copies(parts[at], wide.called) + "\n")
        if name in wide.functions:
            parts[at] = copies(parts[at], wide.called)
        else:
            parts[at] = function(parts[at], checked)
    text = "".join(parts) + "\n".join(made)
    if not checked:
        return text
    return text + CHECKED + (f"\n{TRAP}\n" if TRAP not in text else "")
