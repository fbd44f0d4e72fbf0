"""The lists that libraries, documents and the web page share, read from the sources: counters, causes, errors,
settings, forms of lines. tools/lists writes them into files that can't query a program, and page/build writes them into
the page. Stop means that a source differs from this module's assumptions: if it has moved, change this module, too."""
from __future__ import annotations

import functools
import ipaddress
import pathlib
import re
from typing import Any, NamedTuple

from tools.command_line import Stop

TOP = pathlib.Path(__file__).resolve().parent.parent
SPECS = TOP / "crates/flat_model/specs"
COUNTER = "crates/flat_model/src/counter.rt"
COUNTERS = "crates/flat_model/src/counters.rt"
ERRNO = "crates/flat_model/src/errno.rt"
CODES = "crates/libbsdudp/src/errors.rt"
LINK_FAULTS = "crates/flat_ether/src/fault.rt"
LINK_CODES = "crates/libbsdudp/src/ether.rt"
MEANINGS = "crates/play_show/src/counters.rt"
RULES = "crates/play_why/src/words.rt"
OPTIONS = "crates/link_script/src/options.rt"
COMMAND_LINE = "crates/link_script/src/command_line.rt"
CONFIG = "crates/flat_model/src/config.rt"
PARAMS = "crates/params/src/lib.rt"
FORMS = "crates/play_forms/src"

# The cause of a drop that doesn't end a packet, for which no `Why` has a text.
OTHER_CAUSES = {
    "IpFragtimeout": "fragments missing for 60 ticks",
    "IpReclaimed": "unfinished datagram given up for its buffers",
    "OutDropped": "output queue full",
}


class Counter(NamedTuple):
    """A counter: its variant, its name, what it counts, and the cause of each drop, if it counts drops."""

    variant: str
    name: str
    counts: str
    cause: str


class Error(NamedTuple):
    """An error of a socket call: its variant, 4.4BSD's number and name, what was lacking, and its meaning."""

    variant: str
    number: int
    name: str
    lack: str
    meaning: str

    @property
    def text(self) -> str:
        """Returns its name in a reply."""
        return f"{self.name} {self.lack}" if self.lack else self.name


class Setting(NamedTuple):
    """An option of `bsdudp run`: its name, its largest value (0: it's an address), its values, its default."""

    name: str
    most: int
    values: str
    default: str


# ---- reading -------------------------------------------------------------------------------------------------------


@functools.lru_cache(maxsize=None)
def read(path: str) -> str:
    return (TOP / path).read_text(encoding="utf-8")


def cells_of(line: str) -> list[str]:
    """Returns the cells of a row of a Markdown table."""
    return [cell.strip() for cell in line.strip().removeprefix("|").removesuffix("|").split("|")]


def pieces(path: str, pattern: str, text: str | None = None) -> list[Any]:
    """Returns all that the pattern finds in a file, or in a part of it. Fails if it finds nothing."""
    found = re.findall(pattern, read(path) if text is None else text)
    if not found:
        raise Stop(f"{path}: nothing there fits {pattern}")
    return found


@functools.lru_cache(maxsize=None)
def definitions(path: pathlib.Path) -> dict[str, str]:
    """Returns the text of each definition in a file, by name and without comments."""
    text = re.sub(r"(?m)(^|\s)--(\s.*)?$", r"\1", path.read_text(encoding="utf-8"))
    heads = list(re.finditer(r"(?m)^ *(?:(?:abbrev|unfoldable) pub|pub (?:record|data)) (\S+)", text))
    ends = [head.start() for head in heads[1:]] + [len(text)]
    return {head[1]: text[head.end() : end] for head, end in zip(heads, ends)}


# ---- counters ------------------------------------------------------------------------------------------------------


def named_counters() -> list[tuple[str, str]]:
    """Returns each counter's variant and its name, in the order of printing."""
    return pieces(COUNTER, r'\(Counter::(\w+), "([^"]+)"\)')


def causes_counted() -> list[tuple[str, str]]:
    """Returns each cause that ends a packet, in the order of the checks, and its counter."""
    return pieces(COUNTERS, r"Why::(\w+) => Counter::(\w+),")


def texts_of_causes() -> dict[str, str]:
    """Returns the text of each cause."""
    return {why: text for text, why in pieces(COUNTERS, r'#\[error\("([^"]+)"\)\]\s*(\w+),')}


def rules() -> dict[str, str]:
    """Returns the rule that a packet broke, by its cause, as `bsdplay why` prints it."""
    arms = pieces(RULES, r'((?:Why::\w+[\s|]+)+)=>\s*(?:\{\s*)?"([^"]+)"')
    found = {why: rule for whys, rule in arms for why in re.findall(r"Why::(\w+)", whys)}
    for why, _ in causes_counted():
        if why not in found:
            raise Stop(f"{RULES}: which rule does a packet break that ends with {why}?")
    return found


def counters() -> list[Counter]:
    """Returns all counters, in the order of printing."""
    counts = dict(pieces(MEANINGS, r'Counter::(\w+) =>\s*(?:\{\s*)?"([^"]+)"'))
    texts = texts_of_causes()
    causes = {counter: texts[why] for why, counter in causes_counted()} | OTHER_CAUSES
    named = named_counters()
    for variant, _ in named:
        if variant not in counts:
            raise Stop(f"{MEANINGS}: what does {variant} count?")
    return [Counter(variant, name, counts[variant], causes.get(variant, "")) for variant, name in named]


# ---- errors --------------------------------------------------------------------------------------------------------

# The definitions whose text has the errors of a call, in order. Those of both sends are under `send`.
CALLS = {
    "socket": ["Opens"],
    "bind": ["Binds"],
    "connect": ["ConnectsTo"],
    "send": ["Sends", "Leaves"],
    "recvfrom": ["Receives"],
    "setsockopt": ["SetsOption"],
    "close": ["Closes"],
}
# The calls in the order of the pages.
ORDER = ["socket", "bind", "connect", "send", "sendto", "recvfrom", "setsockopt", "close"]


def meanings(type_name: str) -> dict[str, str]:
    """Returns the meaning of each variant of a type in ERRNO, from its comment, without its capital and its full
    stop."""
    body = read(ERRNO).partition(f"pub enum {type_name} {{")[2].partition("\n}")[0]
    found = pieces(ERRNO, r"((?:    /// .*\n)+)(?:    #\[.*\n)*    (\w+)", body)
    texts = {name: " ".join(re.findall(r"/// (.*)", said)) for said, name in found}
    return {name: text[0].lower() + text[1:].removesuffix(".") for name, text in texts.items()}


@functools.lru_cache(maxsize=None)
def errors() -> list[Error]:
    """Returns the errors of socket calls, by number, with one error for each resource that may be lacking."""
    numbers = {variant: int(it) for variant, it in pieces(ERRNO, r"Errno::(\w+)(?:\(_\))? => (\d+),")}
    lacks = pieces(ERRNO, r'Lack::(\w+) => "(\w+)",')
    about, lacking = meanings("Errno"), meanings("Lack")
    found = []
    for variant, has_lack, name in pieces(ERRNO, r'Errno::(\w+)(\(_\))? => "(\w+)",'):
        if has_lack:
            found += [Error(variant, numbers[variant], name, lack, lacking[it]) for it, lack in lacks]
        else:
            found.append(Error(variant, numbers[variant], name, "", about[variant]))
    return sorted(found, key=lambda it: it.number)


def codes() -> dict[str, int]:
    """Returns the number of each error in C, by its name in a reply. The output queue's error has its own number."""
    own = {lack.lower(): int(it) for lack, it in pieces(CODES, r"const (\w+)_FULL: i32 = -(\d+);")}
    return {it.text: own.get(it.lack, it.number) for it in errors()}


def errors_of(name: str, known: dict[str, str]) -> list[str]:
    """Returns the errors in the text of a definition, in order, with those in the lists `.._faults` that it names."""
    if name not in known:
        raise Stop(f"crates/flat_model/specs/Machine: neither Calls.antt nor Send.antt has the definition {name}")
    found = []
    for word, lack in re.findall(r"\b(\w+)\b(?: (Pool|Queue)\b)?", known[name]):
        if word.endswith("_faults") and word != name:
            found += errors_of(word, known)
        found += [it.text for it in errors() if it.variant == word and lack.lower() in ("", it.lack)]
    return found


def errors_by_call() -> dict[str, list[str]]:
    """Returns the errors of each call on an open descriptor, in order."""
    known = definitions(SPECS / "Machine/Calls.antt") | definitions(SPECS / "Machine/Send.antt")
    return {call: [it for root in roots for it in errors_of(root, known)] for call, roots in CALLS.items()}


def calls_by_error() -> dict[str, list[str]]:
    """Returns the calls on an open descriptor that fail with each error, in the order of the pages. `sendto` and `send`
    are separate."""
    named = errors_by_call()
    text = {it.variant: it.text for it in errors()}
    with_address = set(named["send"]) & set(named["connect"]) | {text["IsConnected"]}
    named["sendto"] = [it for it in named["send"] if it != text["DestinationRequired"]]
    named["send"] = [it for it in named["send"] if it not in with_address]
    return {it.text: [call for call in ORDER if it.text in named[call]] for it in errors()}


# ---- settings ------------------------------------------------------------------------------------------------------


def link_faults() -> list[str]:
    """Returns the text of each fault in the settings of a host on an Ethernet, by its number in C from 1 on."""
    texts = dict(pieces(LINK_FAULTS, r'LinkFault::(\w+) =>\s*(?:\{\s*)?"([^"]+)"'))
    named = pieces(LINK_FAULTS, r"(?m)^    (\w+),$")
    numbers = {variant: int(it) for variant, it in pieces(LINK_CODES, r"LinkFault::(\w+)\) => (\d+),")}
    if set(named) != set(texts) or numbers != {variant: at for at, variant in enumerate(named, 1)}:
        raise Stop(f"{LINK_CODES}: not the faults of {LINK_FAULTS}, in their order")
    return [texts[variant] for variant in named]


def values_of(field: str, most: str, params: dict[str, int]) -> str:
    """Returns the values that a field of the configuration may have, from its check."""
    check = read(CONFIG).partition("#[cfg(test)]")[0]
    if field == "bcast":
        pieces(CONFIG, r"self\.addr != self\.bcast", check)
        return "the same, but not `--addr`"
    if field == "addr":
        range_of = r"(\d+) <= network && network < FIRST_MULTICAST >> 24 && network != LOOPBACK >> 24"
        first, after = int(pieces(CONFIG, range_of, check)[0]) << 24, params["FIRST_MULTICAST"]
        ends = f"{ipaddress.IPv4Address(first)} to {ipaddress.IPv4Address(after - 1)}"
        return f"{ends}, not in {params['LOOPBACK'] >> 24}/8"
    least = (re.findall(rf"(\w+) <= self\.{field}\b", check) + ["0"])[0]
    most = (re.findall(rf"self\.{field} <= (\w+)", check) + [most])[0]
    return f"{params.get(least, least)} to {params[most]}"


def options() -> dict[str, list[str]]:
    """Returns the options of `bsdudp run` and of `bsdudp chain`, in the order of the code."""
    run, _, chain = read(OPTIONS).partition("let run = ")[2].partition("let chain = ")
    return {name: pieces(OPTIONS, r'option\(alloc, "(\w+)"\)', it) for name, it in (("run", run), ("chain", chain))}


def settings() -> list[Setting]:
    """Returns the options of `bsdudp run` with their values and defaults."""
    named = pieces(PARAMS, r"pub const (\w+): \w+ = ([0-9a-fx_]+);")
    params = {name: int(value, 0) for name, value in named} | {"U16_MAX": 65535, "u32::MAX": 4294967295}
    block = read(COMMAND_LINE).partition("DEFAULTS: Config")[2].partition("};")[0]
    defaults = {field: int(it, 0) for field, it in pieces(COMMAND_LINE, r"(\w+): (0x[0-9a-f_]+|[0-9_]+),", block)}
    uses = pieces(OPTIONS, r'get_str\("(\w+)"\), (?:([\w:]+), )?(?:u32::from\()?DEFAULTS\.(\w+)')
    about = {name: (most, field) for name, most, field in uses}
    found = []
    for name in options()["run"]:
        most, field = about[name]
        default = defaults[field] if most else ipaddress.IPv4Address(defaults[field])
        found.append(Setting(name, params.get(most, 0), values_of(field, most, params), str(default)))
    return found


# ---- forms of lines ------------------------------------------------------------------------------------------------


def commands(file: str, function: str) -> list[str]:
    """Returns the commands in a list of play_forms, by the names of their variants."""
    body = read(f"{FORMS}/{file}").partition(f"fn {function}(")[2].partition("\n}")[0]
    return re.findall(r"Command::(\w+),", body)


def forms() -> dict[str, list[str]]:
    """Returns the forms of the lines of play scripts: for one host, for hosts on an Ethernet only, and for the wire."""
    row = r'Command::(\w+) => (?:by_words|otherwise)\(\s*"[^"]+",\s*"([^"]+)"'
    form_of = dict(pieces(f"{FORMS}/command.rt", row))
    machine = commands("command.rt", "host_commands")
    for name, others in pieces("crates/bsdplay/src/help.rt", r"Command::(\w+) => &\[([^\]]*)\]"):
        after = machine.index(name) + 1
        machine[after:after] = re.findall(r"Command::(\w+)", others)
    known = {form_of[name] for name in machine}
    names = {"machine": machine, "wire": commands("command.rt", "wire_commands")}
    names["ethernet"] = [it for it in commands("hosted.rt", "hosted_commands") if form_of[it] not in known]
    return {player: [form_of[name] for name in of] for player, of in names.items()}


def arguments() -> list[str]:
    """Returns the arguments of a command: each argument's name, and its values in brackets."""
    found = pieces(f"{FORMS}/argument.rt", r'Argument::\w+ => (?:\{\s*)?"((?:[^"\\]|\\.)*)"')
    return [it.replace('\\"', '"') for it in found]
