"""Which functions of an LLVM module use numbers that need 64 bits, by the types in the sources.

The module has one type, i64, for lengths and indices (usize) and for numbers such as counters (u64). In the sources a
number has its type from a type that's written in the function (`u64`, `1u64`), from a field, or from the signature of
a function that it calls. So a function is wide if

  - its source names one of the types in NUMBER, a field or a constant of such a type, or a struct or enum that has one
    by value;
  - it calls a function whose signature has one of these: the calls are those of the module;
  - it computes with a constant that needs more than 32 bits, or with a signed number;
  - it's of the toolchain's libraries, and its path names such a type;
  - it's of these libraries, or has type parameters, and a wide function calls it: they can be such numbers.

A function is found in the sources by its crate and its name: if one of that name is wide, all of them are."""
from __future__ import annotations

import re
from typing import NamedTuple

from tools import crates

NUMBER = re.compile(r"(?<![A-Za-z])[ui](?:64|128)\b")
COMMENT = re.compile(r"(?m)//.*$")
FUNCTION = re.compile(r'(?m)^( *)(?:pub(?:\([^)]*\))? )?(?:const )?(?:unsafe )?(?:extern "C" )?fn (\w+)')
# The type whose methods follow.
IMPL = re.compile(r"(?m)^impl\b(?:<[^>{]*>)? *(?:[^{\n]*? for )?&?(?:mut )?(\w+)")
TYPE = re.compile(r"(?m)^(?:pub(?:\([^)]*\))? )?(?:struct|enum|union|type) (\w+)[^;{]*(?:;|\{(?s:.*?)^\})")
FIELD = re.compile(r"(?m)^ +(pub(?:\([^)]*\))? )?(\w+): (.*),$")
NAMED_CONSTANT = re.compile(r"(?m)^ *(?:pub(?:\([^)]*\))? )?(?:const|static) (\w+): ([^=]*)=")
ARRAY = re.compile(r"\[[^\[\];]*; *\w+\]")
# What ends a function's signature: its contract or its body.
SIGNATURE_ENDS = re.compile(r"\n *(?:requires|ensures|where|decreases)\b|\{|;")
# The module's lines.
DEFINED = re.compile(r'(?m)^define [^@\n]*@("[^"]*"|[\w.$]+)\(')
CALLED = re.compile(r'\bcall ([^@\n]*)@("[^"]*"|[\w.$]+)\((.*)')
OF_KIT = re.compile(r"[ui](?:64|128)")
CONSTANT = re.compile(r"(?<=[ ,(])-?\d+(?=[,)]|$)")
HOLDS_NUMBER = re.compile(r"\bi(?:64|128)\b")


class Function(NamedTuple):
    """A function's signature, the rest of its source, and the type whose method it is."""

    signature: str
    body: str
    of: str


class Sources:
    """The functions of some crates, and their types, constants and fields that hold wide numbers."""

    def __init__(self, names):
        texts = {}
        for crate in names:
            files = sorted((crates.TOP / "crates" / crate / "src").rglob("*.rt"))
            texts[crate] = [COMMENT.sub("", it.read_text(encoding="utf-8")) for it in files]
        items = [(crate, it[1], it[0]) for crate, those in texts.items() for it in TYPE.finditer("\n".join(those))]
        self.types = {name for _, name, item in items if NUMBER.search(ARRAY.sub("", item))}
        every = "\n".join(it for files in texts.values() for it in files)
        self.types |= {name for name, kind in NAMED_CONSTANT.findall(every) if self.has(kind)}
        self.fields, self.functions = {}, {}
        for crate, _, item in items:
            for shown, field, kind in FIELD.findall(item) or [("pub ", it, item) for it in "0123456789"]:
                if self.has(kind):
                    self.fields.setdefault(field, set()).add("" if shown == "pub " else crate)
        for crate, files in texts.items():
            for name, function in (it for text in files for it in functions(text)):
                self.functions.setdefault((crate, name), []).append(function)

    def has(self, kind):
        """Returns whether a type or a signature has a wide number, or a struct by value that has one."""
        by_value = re.findall(r"(?<![&\w])(?<!mut )\b[A-Z]\w*", kind)
        return bool(NUMBER.search(kind)) or any(it in self.types for it in by_value)

    def passes(self, function):
        """Returns whether a function takes or returns a wide number."""
        by_self = re.search(r"\((?:mut )?self\b|\bSelf\b", function.signature)
        return self.has(function.signature) or bool(by_self) and function.of in self.types

    def is_wide(self, crate, function):
        """Returns whether a function's own text has a wide number."""
        if NUMBER.search(function.body) or self.passes(function):
            return True
        words = set(re.findall(r"\b[A-Z]\w*", function.body))
        if words & self.types or function.of in self.types and "Self" in words:
            return True
        used = re.findall(r"\.(\w+)\b(?!\()|\b(\w+):(?!:)", function.body)
        return any(self.fields.get(it, set()) & {"", crate} for both in used for it in both)


def functions(text):
    """Returns the functions in a file, each with its name."""
    impls = [(it.start(), it[1]) for it in IMPL.finditer(text)]
    for it in FUNCTION.finditer(text):
        end = re.compile(rf"(?m)^{it[1]}\}}$").search(text, it.end())
        item = text[it.start() : end.end() if end else len(text)]
        at = SIGNATURE_ENDS.search(item).start()
        of = next((name for place, name in reversed(impls) if place < it.start()), "") if it[1] else ""
        yield it[2], Function(item[:at], item[at:], of)


def key_of(name):
    """Returns the crate of a function of the module, and its name in the sources. A closure is part of its
    function."""
    path = re.sub(r"::<.*", "", name.strip('"')).split("::")
    if "fn" in path[:-1]:
        return path[0], path[path.index("fn") + 1]
    return path[0], path[-1]


def of_number(name):
    """Returns whether a function of the toolchain's libraries has a wide type in its path."""
    path = re.sub("::<.*", "", name).lower()
    return bool(OF_KIT.search(path)) and not path.startswith("llvm.")


def is_wide_in(body):
    """Returns whether a function of the module computes with a constant that needs more than 32 bits, or with a signed
    number."""
    lines = [it for it in body.splitlines() if " i64" in it and "getelementptr" not in it]
    constants = (int(it) for line in lines for it in CONSTANT.findall(line))
    return any(not 0 <= it < 1 << 32 for it in constants) or any(" = sext " in it for it in lines)


class Wide(NamedTuple):
    """The names of the wide functions of a module, and of those that are wide only if such a function calls them, also
    by one another."""

    functions: set[str]
    called: set[str]


def wide(text, crate):
    """Returns the wide functions of a library's module."""
    own = [crate, *crates.below(crate, crates.uses())]
    sources = Sources(own)
    exports = {name for of, name in sources.functions if of == crate}
    bodies = {DEFINED.match(it)[1]: it for it in re.split(r"(?m)^(?=define )", text)[1:]}
    calls = {name: CALLED.findall(body) for name, body in bodies.items()}

    def known(name):
        key = (crate, name) if name in exports else key_of(name)
        return key[0], sources.functions.get(key, [])

    def passes(call):
        result, name, rest = call
        if not HOLDS_NUMBER.search(result + rest):
            return False
        of, those = known(name)
        return any(map(sources.passes, those)) or of not in own and of_number(name)

    def is_wide(name):
        of, those = known(name)
        if is_wide_in(bodies[name]):
            return True
        if of not in own:
            return of_number(name)
        return not those or any(sources.is_wide(of, it) for it in those) or any(map(passes, calls[name]))

    functions = set(filter(is_wide, bodies))
    general = {name for name in bodies if known(name)[0] not in own or "::<" in name}
    called, left = set(), [*functions]
    while left:
        more = {name for _, name, _ in calls[left.pop()]} & general - functions - called
        called |= more
        left += more
    return Wide(functions, called)
