"""The exports of the proved core as Frama-C sees them: C functions made of their signatures and contracts in
crates/libbsdudp, so that they say no more than what is proved.

- A parameter `&T` or `&[u8]` is read and must be initialized; `&mut T` or `&mut [u8]` may be written. Both must be
  memory of that size, and memory that is written is separate from the other parameters'.
- A call on a handle without a stack, or without a link, returns the error that `Answers`, `AnswersHost` and
  `AnswersLink` have for it. Whether another call succeeds is open: its result is any that its contract can have.
- A struct is written if the result isn't an error. A buffer has any bytes afterwards.
- A boot succeeds only if memory was lent: `left` of memory.c, which is included here. No contract has this."""
from __future__ import annotations

import re

from tests.cases import TOP

CRATE = TOP / "crates/libbsdudp"
STRUCTS = {"CAddr": "bsdudp_addr", "CConfig": "bsdudp_config", "CName": "bsdudp_name", "CNext": "bsdudp_next",
           "CFate": "bsdudp_fate",
           "CUnfinished": "bsdudp_unfinished", "CRange": "bsdudp_range", "CMbstat": "bsdudp_mbstat",
           "CTallies": "core_tallies", "CLink": "core_link", "CNeighbour": "core_neighbour"}  # fmt: skip
NUMBERS = {"u8": "uint8_t", "u16": "uint16_t", "u32": "uint32_t", "u64": "uint64_t", "bool": "bool"}
HANDLES = {"Handle": "bsdudp_core", "LinkHandle": "bsdudp_core"}
HEAD = """#include "src/memory.c"
#include "__fc_builtin.h"
#define MAYBE Frama_C_interval(0, 1)
#define ERROR Frama_C_interval(-2147483647 - 1, -1)
#define COUNT(most) Frama_C_interval(0, (most) < 2147483647 ? (int)(most) : 2147483647)
"""


def text(*places: str) -> str:
    return "\n".join(path.read_text(encoding="utf-8") for it in places for path in sorted(TOP.glob(it)))


def definitions() -> dict[str, str]:
    """Returns the text of each definition of the crate's contracts, and of FitsRoom, by its name."""
    specs = text("crates/libbsdudp/specs/*.antt", "crates/flat_model/specs/Machine/Replies.antt")
    blocks = re.split(r"(?m)^(?=(?:abbrev )?pub (?:record )?\w+)", re.sub(r"(?m)^ *--.*\n", "", specs))
    return {re.match(r"(?:abbrev )?pub (?:record )?(\w+)", it)[1]: it for it in blocks[1:]}


KNOWN = definitions()


def closure(names: set[str]) -> set[str]:
    """Returns these definitions, and those that they name."""
    found, left = set(), names & KNOWN.keys()
    while left:
        found |= left
        left = {it for name in left for it in re.findall(r"\w+", KNOWN[name])} & KNOWN.keys() - found
    return found


# The forms of a result in the contracts, and the result as a C expression. Another form is an error.
FORMS = [(r"pos (\d+)", r"\1"), (r"pos (?:\(min n 2147483647\)|[a-z]\w*)", "COUNT"), (r"negsuc (\d+)", "-"),
         (r"neg_ℤ \(pos \(errno_number errno\)\)", "ERROR")]  # fmt: skip


def values(expression: str) -> set[str]:
    """Returns the results that an expression of the contracts can be, as C expressions."""
    if either := re.fullmatch(r"if .* then (.*) else (.*)", expression):
        return values(either[1]) | values(either[2])
    for form, value in FORMS:
        if found := re.fullmatch(form, expression):
            return {f"-{int(found[1]) + 1}" if value == "-" else found.expand(value)}
    return of_code(expression.split(" ", 1)[0])


def of_code(name: str) -> set[str]:
    """Returns the results that a definition has."""
    assert name in KNOWN and is_code(name), f"{name} isn't a definition of results"
    cases = re.findall(r"(?m)^\w.* = (.*)", KNOWN[name])
    return set().union(*map(values, cases))


def is_code(name: str) -> bool:
    """Returns whether a definition is a result, and no statement."""
    return re.search(r": (?:.*→ )?ℤ$", KNOWN[name].split("\n", 1)[0]) is not None


class Export:
    """An export: its name, its parameters as (name, type) without the allocator, and the names in its contract."""

    def __init__(self, name: str, parameters: str, contract: str) -> None:
        pairs = [it.split(":") for it in re.split(r",\s*", parameters.strip()) if it]
        self.name = name
        self.parameters = [(a.strip(), b.strip()) for a, b in pairs if b.strip() != "Global"]
        self.used = closure(set(re.findall(r"\w+", contract)))

    def results(self) -> set[str]:
        """Returns its results with a stack and a link, if it needs them."""
        found: set[str] = set()
        for name in self.used:
            if not is_code(name) and name not in ("Answers", "AnswersHost", "AnswersLink"):
                for expression in re.findall(r"answer ≡ ([\w ]+)", KNOWN[name]):
                    found |= values(expression.strip())
        assert found, f"{self.name}: no result is known"
        return found

    def fits(self) -> bool:
        """Returns whether its count is at most the length of the buffer."""
        assert "got.1 ≤ length room" in KNOWN["FitsRoom"]
        told = [KNOWN[it] for it in self.used if "answer ≡" in KNOWN[it]]
        return any("FitsRoom reported buffer" in it or "len ≤ length buffer" in it for it in told)

    def written(self) -> str:
        """Returns the C function."""
        declared, needs, before, after, own = [], [], [], [], []
        lengths = {}
        for name, kind in self.parameters:
            is_mut, of = kind.startswith("&mut"), kind.replace("&mut ", "").replace("&", "")
            const = "" if is_mut else "const "
            if of == "[u8]":
                declared.append(f"{const}uint8_t *{name}, uint64_t len")
                span = f"({name} + (0 .. len - 1))"
                needs.append(f"len == 0 || {'' if is_mut else '(' }\\valid{'' if is_mut else '_read'}{span}"
                             + ("" if is_mut else f" && \\initialized{span})"))  # fmt: skip
                lengths[name] = span
                if is_mut:
                    before.append(f"if (len > 0) Frama_C_make_unknown((char *){name}, len);")
            elif of in NUMBERS and not is_mut:
                declared.append(f"{NUMBERS[of]} {name}")
            elif of in HANDLES:
                declared.append(f"struct {HANDLES[of]} *{name}")
                needs.append(f"\\valid({name}) && \\initialized(&{name}->live)")
                lengths[name] = name
            else:
                struct = f"struct {STRUCTS[of]}" if of in STRUCTS else NUMBERS[of]
                declared.append(f"{const}{struct} *{name}")
                needs.append(f"\\valid{'' if is_mut else '_read'}({name})")
                if is_mut:
                    after.append(f"Frama_C_make_unknown((char *){name}, sizeof *{name});")
                else:
                    needs += [f"\\initialized(&{name}->{it})" for it in members(STRUCTS[of])]
                lengths[name] = name
            if is_mut:
                own.append(name)
        for name in own:
            needs += [f"\\separated({lengths[name]}, {lengths[it]})" for it in lengths if it > name or it not in own]
        needs = [re.sub(r"^(\\separated\(.*\(0 \.\. len - 1\).*)$", r"len == 0 || \1", it) for it in needs]
        body = [*self.without(), *before, f"result = {self.choice()};", *self.life()]
        if after:
            body.append("if (result >= 0) { " + " ".join(after) + " }")
        spec = "\n    ".join(f"requires {it};" for it in needs)
        lines = "\n    ".join(["int result;", *body, "return result;"])
        return f"/*@ {spec} */\nint {self.name}({', '.join(declared)})\n{{\n    {lines}\n}}\n"

    def without(self) -> list[str]:
        """Returns what it does without a stack or a link. A boot needs a handle without one."""
        tests = []
        for name, kind in self.parameters:
            if kind.replace("&mut ", "") in HANDLES:
                live, code = (LINK, "no_link") if kind.endswith("LinkHandle") else (STACK, "no_stack")
                if self.name.endswith("_boot"):
                    tests.append(f"if ({name}->live == {live}) return {min(of_code('no_stack'))};")
                else:
                    tests.append(f"if ({name}->live != {live}) return {min(of_code(code))};")
        return tests

    def life(self) -> list[str]:
        """Returns what a boot and an end do to the handle."""
        name, kind = self.parameters[0]
        live = LINK if kind.endswith("LinkHandle") else STACK
        if self.name.endswith("_boot"):
            return [f"if (result == 0) {name}->live = {live};"]
        return [f"{name}->live = 0;"] if self.name.endswith("_end") else []

    def choice(self) -> str:
        """Returns an expression that is any of its results."""
        results = self.results()
        if self.name.endswith("_end"):  # with a stack or a link, which it has
            results = {"0"} & results
        if self.name.endswith("_boot"):
            return f"left == 0 ? {self.any_of(results - {'0'})} : {self.any_of(results)}"
        return self.any_of(results)

    def any_of(self, results: set[str]) -> str:
        if "ERROR" in results:  # which is any negative number
            results = {it for it in results if not it.startswith("-")}
        most = "len" if self.fits() else "2147483647"
        first, *rest = [f"COUNT({most})" if it == "COUNT" else it for it in sorted(results)]
        return "".join(f"MAYBE ? {it} : " for it in rest) + first


def live_of(name: str) -> str:
    return re.search(r"h\.live == (\d+)", KNOWN[name])[1]


STACK, LINK = live_of("stack_in"), live_of("handle_link")
C_STRUCTS = {name: body for name, body in re.findall(r"(?m)^struct (\w+) \{\n(.*?)^\};",
             text("capi/include/bsdudp.h", "capi/src/ether.c"), re.S)}  # fmt: skip


def members(struct: str) -> list[str]:
    code = re.sub(r"(?s)/\*.*?\*/", "", C_STRUCTS[struct])
    return re.findall(r"(\w+)(?:\[\w+\])?[,;]", code)


def exports() -> list[Export]:
    code = re.sub(r"(?m)^ *///.*\n", "", text("crates/libbsdudp/src/*.rt"))
    found = re.findall(r'extern "C" fn (bsdudp_core_\w+)\((.*?)\) -> i32\s*ensures \{(.*?)\n?\{\n', code, re.S)
    return [Export(*it) for it in found]


def stubs() -> str:
    """Returns the C file."""
    own = "".join(f"struct {it} {{\n{C_STRUCTS[it]}}};\n" for it in ("core_link", "core_neighbour", "core_tallies"))
    return HEAD + own + "\n" + "\n".join(it.written() for it in exports())
