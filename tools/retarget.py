"""Rewrites the text of a static library's LLVM module for a little-endian processor with 32-bit pointers.

The module was made for x86-64. It contains sizes of types and offsets of members as numbers, so a pointer keeps its 8
bytes in memory, and the last 4 of them are 0:

  - A load or store of a pointer becomes one of a 64-bit number. `alloca ptr` has 8 bytes.
  - A pair is loaded and stored member by member, at the offsets that the members have on x86-64.
  - In a constant, 4 bytes of 0 follow each address.
  - `ptrtoaddr` becomes `ptrtoint`, because the former can't widen.
  - rattle_alloc, which returns a pair of 64-bit numbers, is defined here, and calls bsdudp_block of capi/src.

All other known forms mean the same with 32-bit pointers. A line of another form is refused, with its number: a cast
between pointers and numbers, an aggregate in memory, an address step that isn't in bytes, a constant or an attribute
that depends on a layout, an atomic access, a call through a pointer."""
import re

from tools.command_line import Stop

SIZES = {"i8": 1, "i16": 2, "i32": 4, "i64": 8, "ptr": 8}
NUMBER = r"(?:i\d+|<\d+ x i\d+>)"
NAME = r'[%@](?:[\w.$-]+|"[^"]*")'
ADDRESS = rf"(?:{NAME}|getelementptr (?:inbounds |nuw |nusw )*\(i8, ptr {NAME}, i64 -?\d+\))"
MEMBER = r"(i8|i16|i32|i64|ptr)"
NOTES = r"(?:, ![\w.]+ !(?:\d+|\{[^}]*\}))*"
# The forms of lines that access memory, or reserve it for a variable, compiled once: a module has 200,000 lines.
AT_END = rf", align (\d+){NOTES}$"
LOAD = re.compile(rf"  ({NAME}) = load ptr, ptr ({ADDRESS}){AT_END}")
STORE = re.compile(rf"  store ptr ({ADDRESS}|null), ptr ({ADDRESS}){AT_END}")
LOAD_PAIR = re.compile(rf"  ({NAME}) = load \{{ {MEMBER}, {MEMBER} \}}, ptr ({ADDRESS}){AT_END}")
STORE_PAIR = re.compile(rf"  store \{{ {MEMBER}, {MEMBER} \}} ({NAME}), ptr ({ADDRESS}){AT_END}")
ALLOCA = re.compile(rf"  ({NAME}) = alloca ptr{AT_END}")
SAME = rf"  {NAME} = load {NUMBER}, ptr {ADDRESS}{AT_END}|  store {NUMBER} [^,]+, ptr {ADDRESS}{AT_END}"
SAME += rf"|  store <\d+ x i\d+> <[^>]*>, ptr {ADDRESS}{AT_END}"
SAME = re.compile(rf"{SAME}|  {NAME} = alloca (?:i\d+|\[\d+ x i\d+\]){AT_END}")
# Beginnings of instructions that access no memory and convert no pointer to a number. The rest of the line is free.
PLAIN = r"(?:add|sub|mul|udiv|urem|sdiv|srem|shl|lshr|ashr|and|or|xor|icmp|select|phi|zext|sext|trunc|freeze|bitcast"
PLAIN = re.compile(rf"  {NAME} = {PLAIN}|extractvalue|insertvalue|extractelement|insertelement|shufflevector)\b")
CAST = re.compile(rf"  {NAME} = bitcast .*\bptr\b")
DISTANCE = re.compile(rf"  ({NAME}) = ptrtoaddr ptr ({NAME}) to i64$")
STEP = re.compile(rf"  {NAME} = getelementptr ")
STEP_IN_BYTES = re.compile(rf"  {NAME} = getelementptr (?:inbounds |nuw |nusw )*i8, ptr {NAME}, i64 \S+$")
CALL = rf"  (?:{NAME} = )?(?:(?:tail|musttail|notail) )?call "
CALL = re.compile(rf'{CALL}(?:[\w() ,]+ )?(?:\{{[^}}]*\}} |[\w<> ]+ )?@(?:[\w.$-]+|"[^"]*")\(')
# The end of a block, a row of a switch, a label, or an empty line.
REST = re.compile(rf'  (?:ret|br|switch|unreachable)\b|    i\d+ -?\d+, label {NAME}$|  \]$|[\w.$-]+:|"[^"]*":|$')
# Attributes of a call or a head that depend on a struct's layout in memory.
OF_LAYOUT = re.compile(r"\b(?:byval|sret|byref|inalloca|preallocated|elementtype)\b")


class Body:
    """Rewrites the lines of functions one by one."""

    def __init__(self):
        self.made = 0

    def name(self):
        self.made += 1
        return f"%narrow.{self.made}"

    def loaded(self, to, kind, address, align):
        """Returns the lines that load a number or a pointer."""
        if kind != "ptr":
            return [f"  {to} = load {kind}, ptr {address}, align {align}"]
        wide = self.name()
        return [f"  {wide} = load i64, ptr {address}, align {align}", f"  {to} = inttoptr i64 {wide} to ptr"]

    def stored(self, kind, value, address, align):
        if kind != "ptr":
            return [f"  store {kind} {value}, ptr {address}, align {align}"]
        wide = self.name()
        return [f"  {wide} = ptrtoint ptr {value} to i64", f"  store i64 {wide}, ptr {address}, align {align}"]

    def second(self, first, second, address, align):
        """Returns, for the second member of a pair, the line that computes its address, the address, and its
        alignment."""
        place = -(-SIZES[first] // SIZES[second]) * SIZES[second]
        at = self.name()
        return f"  {at} = getelementptr i8, ptr {address}, i64 {place}", at, min(int(align), SIZES[second])

    def loaded_pair(self, to, first, second, address, align):
        one, two, half = self.name(), self.name(), self.name()
        step, at, there = self.second(first, second, address, align)
        kind = f"{{ {first}, {second} }}"
        lines = self.loaded(one, first, address, align) + [step] + self.loaded(two, second, at, there)
        lines.append(f"  {half} = insertvalue {kind} poison, {first} {one}, 0")
        return lines + [f"  {to} = insertvalue {kind} {half}, {second} {two}, 1"]

    def stored_pair(self, first, second, value, address, align):
        one, two, kind = self.name(), self.name(), f"{{ {first}, {second} }}"
        step, at, there = self.second(first, second, address, align)
        lines = [f"  {one} = extractvalue {kind} {value}, 0", f"  {two} = extractvalue {kind} {value}, 1", step]
        return lines + self.stored(first, one, address, align) + self.stored(second, two, at, there)

    def memory(self, line):
        """Returns the lines that replace a load, a store or an alloca, or None if it has another form."""
        if ", align " not in line:  # most lines
            return None
        if it := LOAD.match(line):
            return self.loaded(it[1], "ptr", it[2], it[3])
        if it := STORE.match(line):
            return self.stored("ptr", it[1], it[2], it[3])
        if it := LOAD_PAIR.match(line):
            return self.loaded_pair(*it.groups())
        if it := STORE_PAIR.match(line):
            return self.stored_pair(*it.groups())
        if it := ALLOCA.match(line):
            return [f"  {it[1]} = alloca i64, align {it[2]}"]
        return [line] if SAME.match(line) else None

    def rewritten(self, line):
        """Returns the lines that replace a line."""
        if "%narrow." in line:
            raise Stop("a name that's given here")
        if lines := self.memory(line):
            return lines
        if PLAIN.match(line):
            if CAST.match(line) or " x ptr>" in line:
                raise Stop("a cast of a pointer, or pointers in a vector")
        elif it := DISTANCE.match(line):
            return [f"  {it[1]} = ptrtoint ptr {it[2]} to i64"]
        elif STEP.match(line):
            if not STEP_IN_BYTES.match(line):
                raise Stop("a step in an address that isn't in bytes")
        elif CALL.match(line):
            if OF_LAYOUT.search(line):
                raise Stop("a struct that a call hands over in memory")
        elif not REST.match(line):
            raise Stop("a form that isn't known")
        return [line]


def constant(line):
    """Returns a constant with 4 bytes of 0 after each address in it."""
    head = rf"{NAME} = (?:private |internal |local_)?(?:unnamed_addr )?constant "
    if re.match(rf'{head}\[\d+ x i8\] (?:c"[^"]*"|zeroinitializer)(?:, align \d+)?$', line):
        return line
    it = re.match(rf"({head})<\{{ (.*?) \}}> <\{{ (.*) \}}>((?:, align \d+)?)$", line)
    kinds = it[2].split(", ") if it else []
    if not it or any(not re.fullmatch(r"\[\d+ x i8\]|i\d+|ptr", kind) for kind in kinds):
        raise Stop("a global of a form that isn't known")
    value = rf'\[\d+ x i8\] (?:c"[^"]*"|zeroinitializer|undef|poison)|i\d+ -?\d+|ptr (?:{ADDRESS}|null)'
    if not re.fullmatch(rf"(?:{value})(?:, (?:{value}))*", it[3]):
        raise Stop("a constant of a form that isn't known")
    wide = re.sub(rf"(ptr (?:{ADDRESS}|null))(?=,|$)", r"\1, [4 x i8] zeroinitializer", it[3])
    if wide.count("[4 x i8] zeroinitializer") - it[3].count("[4 x i8] zeroinitializer") != kinds.count("ptr"):
        raise Stop("a constant whose addresses can't be counted")
    kinds = ", ".join("ptr, [4 x i8]" if kind == "ptr" else kind for kind in kinds)
    return f"{it[1]}<{{ {kinds} }}> <{{ {wide} }}>{it[4]}"


ALLOC = """declare ptr @bsdudp_block(i64)

define internal { i64, i64 } @rattle_alloc(i64 %size, i64 %alignment) {
  %at = call ptr @bsdudp_block(i64 %size)
  %none = icmp eq ptr %at, null
  %address = ptrtoint ptr %at to i64
  %ok = select i1 %none, i64 0, i64 1
  %where = select i1 %none, i64 %alignment, i64 %address
  %one = insertvalue { i64, i64 } poison, i64 %ok, 0
  %both = insertvalue { i64, i64 } %one, i64 %where, 1
  ret { i64, i64 } %both
}"""


def outside(line):
    """Returns the replacement of a line outside functions."""
    if line.startswith("@") or line.startswith('@"'):
        return constant(line)
    if re.match(r"declare [^@]*@rattle_alloc\(", line):
        if not re.match(r"declare (?:[\w()]+ )*\{ i64, i64 \} @rattle_alloc\(i64[^,%]*, i64[^,%]*\)", line):
            raise Stop("rattle_alloc in another form")
        return ALLOC
    if re.match(r"declare [^@]*@rattle_realloc\(", line):
        return line  # it's neither called nor defined: if that changes, the linker reports it
    if line.startswith("declare ") and (OF_LAYOUT.search(line) or re.search(r"\{.*@", line)):
        raise Stop("a function of C that hands a struct over")
    if not re.match(r"declare |target |attributes |source_filename = |; |!|$", line):
        raise Stop("a form that isn't known")
    return line


def head(line):
    """Returns the head of a function. A function that C calls returns a number."""
    exported = not re.match(r"define (?:internal|private) ", line)
    if OF_LAYOUT.search(line) or exported and re.match(r"define [^@]*[{\[<][^@]*@", line):
        raise Stop("a function that hands a struct over in memory")
    return line


def retargeted(text):
    """Returns the module's text for such a processor. Raises Stop with the number of the first line of an unknown
    form."""
    body, inside, made = Body(), False, []
    for number, line in enumerate(text.splitlines(), 1):
        try:
            if inside:
                inside = line != "}"
                made += body.rewritten(line.partition(" ; ")[0] if ":" in line else line) if inside else [line]
            elif line.startswith("define "):
                inside = True
                made.append(head(line))
            else:
                made.append(outside(line))
        except Stop as why:
            raise Stop(f"line {number}: {why}: {line.strip()[:200]}") from None
    return "\n".join(made) + "\n"
