"""The C header documents what each call returns, each of its errors with sign and name, and its parameters. And the
sections of its manual page, and the symbols of Debian's package."""
import re
import subprocess
import sys

import pytest

from tests.docs.pages import TOP, read
from tools import version

HEADER = read("capi/include/bsdudp.h")
BOTH = HEADER + read("capi/include/bsdudp_notes.h")
CALL = r"/\*((?:(?!\*/).)*)\*/\n((?:int|size_t|const char \*)\s?\*?(bsdudp_\w+)\([^;]*\);)"
CALLS = {name: (comment, call) for comment, call, name in re.findall(CALL, BOTH, re.S)}
# Boot needs no stack in the handle; the others take no handle.
WITHOUT_STACK = ["bsdudp_memory", "bsdudp_mark", "bsdudp_counter_name", "bsdudp_counter_cause"]
WITHOUT_STACK += ["bsdudp_error_name", "bsdudp_strerror", "bsdudp_boot_strerror", "bsdudp_version"]
SECTIONS = ["NAME", "SYNOPSIS", "DESCRIPTION", "CALLS", "RETURN VALUE", "ERRORS", "EXAMPLES"]


def test_each_call_has_a_comment():
    assert sorted(CALLS) == sorted(re.findall(r"(?m)^[a-z].*[ *](bsdudp_[a-z_]*)\(", BOTH))


@pytest.mark.parametrize("name", CALLS)
def test_call(name):
    """A call documents what it returns, its errors by full names and signs, and has names for its parameters."""
    comment, call = CALLS[name]
    assert "Returns" in comment
    arguments = re.search(r"\((.*)\)", call, re.S)[1]
    assert all(it.strip() == "void" or re.search(r"[ *]\w+$", it.strip()) for it in arguments.split(","))
    assert "struct bsdudp *," not in call and not call.endswith("struct bsdudp *);"), "the handle has no name"
    if name in WITHOUT_STACK:
        return
    errors = comment.partition("Errors")[2]
    assert "-BSDUDP_ENXIO" in errors or "those of bsdudp_" in errors
    known = re.findall(r"(BSDUDP_E[A-Z]+) = ", HEADER)
    assert set(re.findall(r"-(BSDUDP_E[A-Z]+)", errors)) <= set(known)
    assert not re.search(r"(?<!BSDUDP_)\bE[A-Z]{4,}\b", comment), "a bare name of an error"


def test_symbols_of_debian():
    """Each call has the version that brought it: the newest one if the last release's header lacks the call."""
    brought = dict(re.findall(r"(?m)^ (bsdudp_\w+)@Base (\S+)$", read("dist/debian/libbsdudp0.symbols")))
    assert sorted(brought) == sorted(CALLS)
    old, new = read("capi/tests/released/bsdudp.h"), f"{version.newest()}~"
    of_header = [it for it in brought if re.search(rf"\b{it}\(", HEADER)]
    assert [it for it in of_header if brought[it] == new] == [it for it in of_header if f"{it}(" not in old]


def test_sections_of_the_manual_page():
    page = subprocess.run([sys.executable, TOP / "dist/man3"], capture_output=True, text=True, check=True).stdout
    sections = re.findall(r"(?m)^\.SH (.*)$", page)
    assert sections[: len(SECTIONS)] == SECTIONS
    errors = page.split(".SH ERRORS")[1].split(".SH")[0]
    assert re.findall(r"\.B (BSDUDP_\w+) \(", errors) == re.findall(r"(BSDUDP_E(?!THER_)\w+) = ", HEADER)
