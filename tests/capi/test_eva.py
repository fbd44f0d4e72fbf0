"""Frama-C on the C that the prover doesn't make: capi/src, the examples that read bytes of a network, the board's
driver, and portable/c/plain.c.

Eva analyses a program of capi/eva, which makes any calls with any arguments in any order. It has no alarm: no access
outside an object, no uninitialized value, no overflow of a signed number. The core's exports are stubs that core_stubs.py
makes of their contracts. WP proves contracts, which are in capi/eva; the sources only have the invariants of loops. Eva
then takes these contracts for granted, and shows what they require of callers.

The library's sources, which compute with addresses and sizes, are analysed for both word sizes. The others pass sizes
on, so they are analysed once, for a board's 32 bits: structs have no padding there that would hide an access.

What passed is kept in out/kept, by the checksum of what it read, and isn't run again until that changes."""
from __future__ import annotations

import functools
import hashlib
import os
import pathlib
import re
import shutil
import subprocess
from typing import Callable, NamedTuple

import pytest

from tests.capi.core_stubs import stubs
from tests.cases import TOP

CALLS = ["src/bsdudp.c", "src/composed.c", "src/ether.c", "src/block.c"]
SHELL = [*CALLS, "src/rehost.c"]
# Functions whose contracts WP proves.
OF_TFTP = "copy_block,opcode_of,write_file,next_text,is_word,number_of"
OF_COAP = "parse,copy_block,is_path"
BOARD = "gcc_x86_32"
SPLIT = ["-eva-split-return", "full", "-eva-auto-loop-unroll", "128"]


class Part(NamedTuple):
    """A program for Eva: the sources that it's for, of which it must reach each statement, the other sources besides
    the stubs, Frama-C's options, the contracts of what isn't there, and the functions whose contracts stand for them."""

    sources: list[str]
    others: list[str]
    options: list[str]
    contracts: str = ""
    proved: str = ""

    def machines(self) -> list[str]:
        """Returns Frama-C's names of the processors for which it's analysed."""
        return ["gcc_x86_64", BOARD] if all(it.startswith("src/") for it in self.sources) else [BOARD]


PARTS = {
    "shell": Part([*SHELL, "src/names.c", "src/boot.c"], ["eva/shell.c"],  # which includes boot.c
                  [*SPLIT, "-eva-slevel", "40", "-eva-interprocedural-splits"]),
    "notes": Part(["src/notes.c"], ["src/bsdudp.c", "src/ether.c", "src/composed.c", "eva/notes.c"],
                  [*SPLIT, "-eva-slevel", "10"]),
    "dhcp": Part(["examples/dhcp.c"], [*SHELL, "eva/dhcp.c"], [*SPLIT, "-eva-slevel", "3"], "message_contracts.h"),
    "dhcp_write": Part(["examples/dhcp_message.c"], ["eva/dhcp_write.c"],
                       ["-eva-precision", "3", "-eva-auto-loop-unroll", "400"]),
    "tftp": Part(["examples/tftp.c"], [*CALLS, "eva/tftp.c"],
                 [*SPLIT, "-eva-slevel", "3", "-eva-slevel-function", "put_option:100"], "tftp_contracts.h", OF_TFTP),
    "coap": Part(["examples/coap.c"], [*CALLS, "eva/coap_parse.c", "eva/coap.c"],  # which includes coap.c
                 [*SPLIT, "-eva-slevel", "0", "-eva-slevel-function",
                  "put_option:20,bsdudp_recvfrom_trunc:10,bsdudp_next:10,bsdudp_core_next:10"], "", OF_COAP),
    "lan9118": Part(["../portable/board/lan9118.c"], ["eva/lan9118.c"],
                    [*SPLIT, "-eva-slevel", "10", "-absolute-valid-range", "0x40200000-0x402000ff"]),
}  # fmt: skip


class Proof(NamedTuple):
    """A file for WP, the functions whose contracts it proves, or "" for lemmas, and options."""

    source: str
    functions: str
    contracts: str
    options: list[str] = []


PROOFS = {
    "memory": Proof("src/memory.c", "bsdudp_block", "memory_contracts.h",
                    ["-wp-model", "Typed+cast", "-cpp-extra-args=-DBSDUDP_THREADS=0"]),
    "block": Proof("src/block.c", "bsdudp_memory_of", "block_contracts.h",
                   ["-wp-model", "Typed+cast", "-wp-no-filter"]),
    "dhcp_read": Proof("examples/dhcp_message.c", "get16,get,sum,udp_sum,is_same,take_option,take_options,dhcp_read,"
                       "dhcp_len", "reader_contracts.h"),
    "coap_parse": Proof("eva/coap_parse.c", "add_segment,take_option,extend,parse,is_path", ""),  # which includes coap.c
    "tftp_request": Proof("examples/tftp.c", OF_TFTP, "tftp_contracts.h"),
    "plain": Proof("../portable/c/plain.c", "bsdudp_plain_sum,sum_words,joined,add_words,add_carrying,half_at,"
                   "bsdudp_plain_fold,bsdudp_plain_before,bsdmove", "plain_contracts.h",
                   ["-wp-model", "Typed+cast", "-wp-no-filter"]),
    "plain_riscv": Proof("../portable/c/plain.c", "sum_words,four_words", "plain_contracts.h",
                         ["-wp-model", "Typed+cast", "-wp-no-filter", "-cpp-extra-args=-D__riscv"]),
    "plain_lemmas": Proof("../portable/c/plain.c", "", "plain_contracts.h",
                          ["-wp-prop", "@lemma", "-cpp-extra-args=-DLEMMAS"]),
}  # fmt: skip
# Sources that a file of capi/eva includes; where is kept what passed.
INCLUDED = ["src/boot.c", "examples/coap.c"]
KEPT = pathlib.Path(os.environ.get("BSDUDP_KEPT") or TOP / "out/kept")
EVA, WP = pytest.mark.needs("frama-c"), pytest.mark.needs("frama-c", "cvc4")
pytestmark = pytest.mark.slow


@pytest.fixture(scope="session")
def core(once) -> pathlib.Path:
    """The stubs of the core."""
    return once("core-stubs", lambda folder: (folder / "core.c").write_text(stubs(), encoding="utf-8")) / "core.c"


@pytest.fixture(scope="session")
def why3(once) -> dict[str, str]:
    """The environment for WP: where Why3 finds the provers."""

    def make(folder: pathlib.Path) -> None:
        subprocess.run(["why3", "-C", folder / "why3.conf", "config", "detect"], capture_output=True, check=True)

    return {**os.environ, "WHY3CONFIG": str(once("why3", make) / "why3.conf")}


def frama_c(capi: pathlib.Path, contracts: str, *words: object, env: dict[str, str] | None = None) -> str:
    """Returns what Frama-C prints."""
    given = f"-I. -Iinclude -Iexamples {f'-include eva/{contracts}' * bool(contracts)}"
    command = ["frama-c", f"-cpp-extra-args={given}", *map(str, words)]
    env = {**(env or os.environ), "PWD": str(capi)}  # Frama-C reads that
    done = subprocess.run(command, cwd=capi, env=env, capture_output=True, text=True, check=False)
    errors = re.findall(r"User Error.*", done.stdout)
    assert done.returncode == 0 and not errors, "\n".join(errors) or done.stdout[-1000:]
    return done.stdout


def found_by_eva(capi: pathlib.Path, core: pathlib.Path, name: str, machine: str) -> list[str]:
    """Returns Eva's alarms, the properties that it doesn't prove, functions that it doesn't know, and statements of the
    sources that it doesn't reach."""
    it = PARTS[name]
    cover = ["-metrics", "-metrics-eva-cover", *(["-eva-use-spec", it.proved] if it.proved else [])]
    sources = [one for one in it.sources if one not in INCLUDED]
    said = frama_c(capi, it.contracts, "-machdep", machine, *sources, *it.others, core, "-eva", *it.options, *cover)
    assert "Evaluation of the logical properties" in said, said[-1000:]
    alarms = re.findall(r"\[eva:alarm\] (.*(?:\n +.*)*)", said)
    unknown = re.findall(r"(?m)^ +(?:Assertions|Preconditions) .* [1-9]\d* (?:unknown|invalid).*", said)
    lacks = re.findall(r"Neither code nor specification for function (?!Frama_C_)\w+", said)
    code = "".join((capi / one).read_text(encoding="utf-8") for one in it.sources)
    own = set(re.findall(r"(?m)^[a-z][^;{}=]*?\b(\w+)\([^;{}]*\)\s*\{", code))
    missed = re.findall(r"(?m)^ +((\w+): (\d+) stmts out of (\d+)) ", said)
    # Frama-C ends a function with a statement of its own, which isn't reached if each case of a switch returns.
    own -= {*it.proved.split(",")}
    missed = [line for line, function, reached, of in missed if function in own and int(of) - int(reached) > 1]
    return alarms + unknown + lacks + missed


def found_by_wp(capi: pathlib.Path, env: dict[str, str], name: str) -> list[str]:
    """Returns the goals that aren't proved."""
    it = PROOFS[name]
    words = ["-machdep", "gcc_x86_64", it.source, "-wp", "-wp-rte", "-wp-prover", "cvc4"]
    words += ["-wp-fct", it.functions] * bool(it.functions)
    words += ["-wp-timeout", "60", "-wp-no-pruning", "-wp-no-ground"]  # with these two it takes twice as long
    said = frama_c(capi, it.contracts, *words, *it.options, env=env)
    proved = re.search(r"Proved goals: +(\d+) / (\d+)", said)
    assert proved, said[-1000:]
    left = re.findall(r"\[wp\] \[(?:Timeout|Unknown|Failed|Failure)\] .*", said)
    return left if proved[1] == proved[2] and not left else left or [proved[0]]


@functools.cache
def version() -> str:
    commands = (["frama-c", "-version"], ["cvc4", "--version"])
    return "".join(subprocess.run(it, capture_output=True, text=True, check=False).stdout for it in commands)


def read_by(files: set[pathlib.Path]) -> set[pathlib.Path]:
    """Returns these files of the repository, and those that they include."""
    capi, found, left = TOP / "capi", set(), files
    while left:
        found |= left
        named = {(it.parent, one) for it in left for one in re.findall(r'#include "(.+)"', it.read_text(encoding="utf-8"))}
        folders = (capi, capi / "include", capi / "examples")
        tried = [(place / one).resolve() for parent, one in named for place in (parent, *folders)]
        left = {it for it in tried if it.exists()} - found
    return found


def passes(name: str, how: object, code: list[str], core: str, find: Callable[[], list[str]]) -> None:
    """Asserts that nothing is found in these files, unless that is known of the same texts and options."""
    total = hashlib.sha256(f"{name} {how} {version()} {core}".encode())
    for file in sorted(read_by({(TOP / "capi" / it).resolve() for it in code})):
        total.update(f"{file.name} ".encode() + file.read_bytes())
    mark = KEPT / f"{name}-{total.hexdigest()[:32]}"
    if not mark.exists():
        assert find() == []
        KEPT.mkdir(parents=True, exist_ok=True)
        mark.touch()


@EVA
@pytest.mark.parametrize("name, machine", [(name, machine) for name, it in PARTS.items() for machine in it.machines()])
def test_eva(name, machine, core):
    it = PARTS[name]
    find = functools.partial(found_by_eva, TOP / "capi", core, name, machine)
    code = [*it.sources, *it.others, "src/memory.c", *([f"eva/{it.contracts}"] if it.contracts else [])]
    passes(f"eva-{name}-{machine}", it, code, core.read_text(encoding="utf-8"), find)


@WP
@pytest.mark.parametrize("name", PROOFS)
def test_wp(name, why3):
    it = PROOFS[name]
    code = [it.source, *([f"eva/{it.contracts}"] if it.contracts else [])]
    passes(f"wp-{name}", it, code, "", functools.partial(found_by_wp, TOP / "capi", why3, name))


def test_every_call_is_tried():
    """The programs for Eva make each call of both headers."""
    code = "".join((TOP / "capi" / it).read_text(encoding="utf-8") for it in ("eva/shell.c", "eva/notes.c"))
    declared = "".join(it.read_text(encoding="utf-8") for it in sorted((TOP / "capi/include").glob("*.h")))
    calls = re.findall(r"(?m)^[a-z].*[ *](bsdudp_[a-z_]*)\(", declared)
    assert len(calls) > 40 and [it for it in calls if f" {it}(" not in code] == []


# A mistake in a source, and the part that sees it.
PLANTED = {
    "a sender that is NULL": ("shell", "src/bsdudp.c", "buffer, len, from != NULL ? from : &ignored);\n}\n\nint bsdudp_peek",
                              "buffer, len, from);\n}\n\nint bsdudp_peek"),
    "the tick of a link that isn't there": ("shell", "src/bsdudp.c", "return s->tick_link != NULL ? s->tick_link(s) :",
                                            "return s->core.live != 0 ? s->tick_link(s) :"),
    "counters that weren't read": ("shell", "src/composed.c", "if (answer == 0)\n        *value = counted",
                                   "*value = counted"),
    "a range without a port": ("shell", "src/composed.c", "(first == 0 || count == 0)", "first == 0"),
    "a neighbour that wasn't read": ("shell", "src/ether.c", "return answer_of(s, answer);\n    neighbour->",
                                    "answer_of(s, answer);\n    neighbour->"),
    "a seventh byte of an address": ("shell", "src/ether.c", "at < 4; at++", "at < 5; at++"),
    "a cause behind the last one": ("shell", "src/names.c", "which < BSDUDP_COUNTERS ? causes",
                                    "which <= BSDUDP_COUNTERS ? causes"),
    "an error without a text": ("shell", "src/names.c", "return error != NULL ? error->name : NULL",
                                "return error->name"),
    "a block that was freed": ("shell", "src/boot.c", "free(block);\n        return answer;", "free(block);"),
    "a block that isn't there": ("shell", "src/boot.c", "if (block != NULL)\n        *block", "*block"),
    "a move within no block": ("shell", "src/rehost.c", "memory == NULL && give_back != NULL;", "memory == NULL;"),
    "a block of a host that has ended": ("shell", "src/rehost.c", "if (stays && answer == 0)", "if (stays)"),
    "a frame without a packet": ("notes", "src/notes.c", " || len < ETHER_HEADER", ""),
    "a packet without a header": ("notes", "src/notes.c", " && len >= IP_HEADER", ""),
    "a note behind the ring": ("notes", "src/notes.c", "(it->first + 1) % it->room", "it->first + 1"),
    "a message of another length": ("dhcp", "examples/dhcp.c", "take(it, frame, (uint32_t)came)",
                                    "take(it, frame, (uint32_t)came + 1)"),
    "a frame behind its buffer": ("dhcp", "examples/dhcp.c", "take(it, frame + DHCP_HEAD,",
                                  "take(it, frame + DHCP_HEAD + 1,"),
    "a list behind the message": ("dhcp_write", "examples/dhcp_message.c", "OPTIONS = 240", "OPTIONS = 280"),
    "a rest that is too long": ("memory", "src/memory.c", "left -= (size_t)((size + 15) / 16 * 16)",
                                "left -= (size_t)size"),
    "a size that wraps": ("memory", "src/memory.c", "size > left || (size", "(size"),
    "memory at the length of its block": ("block", "src/block.c", " + sizeof *block", ""),
    "memory that isn't aligned": ("block", "src/block.c", "(uintptr_t)at % BSDUDP_ALIGNMENT", "(uintptr_t)at % 8"),
    "an option behind the message": ("dhcp_read", "examples/dhcp_message.c", "> len - i - 2", "> len - i - 1"),
    "a path without its end": ("coap_parse", "examples/coap.c", "at + 1 + len > PATH", "at + len > PATH"),
    "a length behind the message": ("coap_parse", "examples/coap.c", "|| length > len - at", ""),
    "a message without options": ("dhcp_read", "examples/dhcp_message.c", "len <= OPTIONS ||", "len < COOKIE ||"),
    "an opcode of one byte": ("tftp_request", "examples/tftp.c", "return len < 2 ? 0", "return len < 1 ? 0"),
    "a block behind the buffer": ("tftp", "examples/tftp.c", "number < TFTP_BLOCK ? number : TFTP_BLOCK", "number"),
    "a transfer without a file": ("tftp", "examples/tftp.c", "if (new.file == NULL) {", "if (fault == NO_FILE) {"),
    "a text behind the request": ("tftp_request", "examples/tftp.c", "return at < len ? at + 1 : len;",
                                  "return at + 1;"),
    "a word that is longer": ("tftp_request", "examples/tftp.c", "return word[i] == 0 && at < len && bytes[at] == 0;",
                              "return word[i] == 0 && at < len;"),
    "a number of ten digits": ("tftp_request", "examples/tftp.c", "value < NO_NUMBER / 10", "value < NO_NUMBER"),
    "a byte behind the file": ("tftp_request", "examples/copy.h", "i < most && at < len", "i < most && at <= len"),
    "a frame behind the board's buffer": ("lan9118", "../portable/board/lan9118.c", "|| len > LAN9118_FRAME ? 0",
                                          "? 0"),
    "a byte behind a frame": ("lan9118", "../portable/board/lan9118.c", "k < 4 && at < len; k++)\n            word",
                              "k < 4; k++)\n            word"),
    "a carry that is lost": ("plain", "../portable/c/plain.c", "third = second % 65536 + second / 65536",
                             "third = second % 65536"),
    "a carry that is lost within": ("plain", "../portable/c/plain.c", "*carry = first | second", "*carry = first"),
    "a word that is added twice": ("plain", "../portable/c/plain.c", "*sum, word_at(bytes + 8)",
                                   "*sum, word_at(bytes + 4)"),
    "a carry that isn't counted": ("plain", "../portable/c/plain.c", "high += add_words(&low, *bytes, 0)",
                                   "add_words(&low, *bytes, 0)"),
    "a half that is swapped": ("plain", "../portable/c/plain.c", "at[0] + 256u * at[1]", "at[1] + 256u * at[0]"),
    "a last byte that is lost": ("plain", "../portable/c/plain.c", "return n == 0 ? sum : sum + bytes[0]",
                                 "return sum"),
    "a sum behind its bytes": ("plain", "../portable/c/plain.c", "*n >= 32; *n -= 32", "*n >= 16; *n -= 32"),
    "a move down that overlaps": ("plain", "../portable/c/plain.c", "above >= len && below >= len", "above >= len"),
    "a port beside": ("plain", "../portable/c/plain.c", "k < 16 && from[k]", "k < 15 && from[k]"),
    "a token of nine bytes": ("coap_parse", "examples/coap.c", "token > 8 ||", "token > 9 ||"),
    "a message without a head": ("coap", "examples/coap.c", "if (len < HEAD || bytes[0]", "if (bytes[0]"),
    "a place behind the responses": ("coap", "examples/coap.c", "server->given++ % COAP_RESPONSES", "server->given++"),
    "a resource that takes nothing": ("coap", "examples/coap.c", "&& resource->put != NULL ?", "?"),
    "a path that begins alike": ("coap_parse", "examples/coap.c", "return i == it->path_len && path[i] == 0;",
                                 "return i == it->path_len;"),
}  # fmt: skip


def test_mistakes_apply():
    files = {file: (TOP / "capi" / file).read_text(encoding="utf-8") for _, file, _, _ in PLANTED.values()}
    assert [mistake for mistake, (_, file, old, _) in PLANTED.items() if files[file].count(old) != 1] == []


@WP
@pytest.mark.planted
@pytest.mark.parametrize("mistake", PLANTED)
def test_planted(mistake, core, why3, tmp_path):
    name, file, old, new = PLANTED[mistake]
    capi = shutil.copytree(TOP / "capi", tmp_path / "capi")
    for folder in ("portable/c", "portable/board"):
        shutil.copytree(TOP / folder, tmp_path / folder)
    source = (capi / file).read_text(encoding="utf-8")
    assert source.count(old) == 1
    (capi / file).write_text(source.replace(old, new), encoding="utf-8")
    if name in PROOFS:
        assert found_by_wp(capi, why3, name)
    else:
        assert found_by_eva(capi, core, name, PARTS[name].machines()[0])
