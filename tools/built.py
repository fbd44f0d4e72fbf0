"""The files that the gate has built, as files of an installation: each by its path below a prefix, with its bytes and
whether it's executable."""
from __future__ import annotations

import argparse
import os
import pathlib
import re
import shutil
import subprocess
import tempfile
from typing import Dict, Iterable, Iterator, NamedTuple, Tuple

from tools import crates, llvm, version
from tools.command_line import Stop

TOP = pathlib.Path(__file__).resolve().parent.parent
PROGRAMS = {name: TOP / f"crates/{name}/out/{name}" for name in ("bsdudp", "bsdplay")}
CORE = TOP / "crates/libbsdudp/out/liblibbsdudp.a"
PAGE = TOP / "page/out/bsdudp.html"
PORTABLE = TOP / "portable/out/bsdudp_portable.c"
TARGETS = TOP / "portable/out/core"
DOCUMENTS = "share/doc/bsdudp"
# Pages for developers, which the archive doesn't contain.
OF_THE_SOURCES = ("docs/maintain/", "docs/DECISIONS.md")

# The bytes of a file, and whether it's executable.
File = Tuple[bytes, bool]


class Need(NamedTuple):
    """What packages are made of: a file or a tool, whether it's there, the command that makes or installs it, and the
    name by which it can be left out, if it can."""

    what: str
    is_there: bool
    cure: str
    part: str = ""


def of_file(path: pathlib.Path, cure: str, part: str = "") -> Need:
    return Need(str(path.relative_to(TOP)), path.is_file(), cure, part)


def of_tool(name: str, package: str) -> Need:
    return Need(name, shutil.which(name) is not None, f"apt-get install {package}")


def needs() -> Iterator[Need]:
    """Yields what the archive and Debian's packages need."""
    yield Need("rt", shutil.which("rt") is not None, "put the folder bin of the Rattle toolchain on the path")
    yield of_tool(os.environ.get("CC", "cc"), "gcc")
    yield of_tool("ar", "binutils")
    for name, program in PROGRAMS.items():
        yield of_file(program, f"cd crates/{name} && rt run < /dev/null, up to an hour")
    yield of_file(CORE, "capi/build out, about 10 minutes")
    yield of_file(PAGE, "page/build, about 10 minutes, with wasm-opt (apt-get install binaryen)", "page")
    cure = "portable/build portable/out, with wasm-opt and wasm2c (apt-get install binaryen wabt)"
    yield of_file(PORTABLE, cure, "portable")


def needs_of_boards() -> Iterator[Need]:
    """Yields the C library for each processor, which only the archive has."""
    listed = subprocess.run([TOP / "portable/core", "targets"], check=True, stdout=subprocess.PIPE, text=True).stdout
    for name in (line.split()[0] for line in listed.splitlines()):
        folder = TARGETS / name
        yield of_file(folder / "libbsdudp.a", f"portable/core {name} {folder.relative_to(TOP)}, seconds", "boards")


def add_without(parser: argparse.ArgumentParser, *parts: str) -> None:
    """Adds the option that leaves out parts by name."""
    about = "leaves out a part; repeat it for more"
    parser.add_argument("--without", action="append", choices=parts, default=[], help=about)


def demand(wanted: Iterable[Need], without: Iterable[str]) -> None:
    """Raises Stop with all that is missing, except the parts that are left out."""
    if llvm.TRIAL:
        raise Stop("TRIAL is set, and packages have no unproved parts: unset TRIAL")
    missing = [it for it in wanted if not it.is_there and it.part not in without]
    if not missing:
        return
    lines = ["these are missing. `make prove` makes all files, in about 80 minutes; or one by one:"]
    lines += [f"  {it.what}: {it.cure}" for it in missing]
    names = list(dict.fromkeys(it.part for it in missing if it.part))
    if names:
        lines.append(f"What can be left out: {' '.join(f'--without {it}' for it in names)}")
    raise Stop("\n".join(lines))


def package_version() -> str:
    """Returns the version of a package: a number, and `~dev` after it until it's released, because that comes before
    the release. A program requests the number: in bsdudp.h, bsdudp.pc, CMake and Python's __version__."""
    return version.newest() + ("" if version.released() else "~dev")


def newest_glibc(binary: bytes) -> tuple[int, int]:
    """Returns the newest version of the C library whose functions a program or a library calls; (0, 0) if it calls
    none."""
    return max(((int(a), int(b)) for a, b in re.findall(rb"GLIBC_(\d+)\.(\d+)", binary)), default=(0, 0))


def is_new(file: pathlib.Path, crate: str) -> bool:
    """Returns whether a file is newer than each source of a crate and of the crates below it."""
    used = [crate, *crates.below(crate, crates.uses())]
    sources = (it for name in used for it in (TOP / "crates" / name).glob("s*/**/*") if it.is_file())
    return file.exists() and max(it.stat().st_mtime for it in sources) < file.stat().st_mtime


def files_below(folder: str) -> list[str]:
    """Yields the files in a folder, without those built there."""
    paths = (path.relative_to(TOP) for path in (TOP / folder).rglob("*") if path.is_file())
    return sorted(str(path) for path in paths if not {"out", "__pycache__"} & set(path.parts))


def manual_pages() -> Iterator[tuple[str, File]]:
    """Yields the manual pages of the programs."""
    with tempfile.TemporaryDirectory() as scratch:
        subprocess.run([TOP / "dist/man", scratch], check=True)
        for path in sorted(pathlib.Path(scratch).iterdir()):
            yield f"share/man/man1/{path.name}", (path.read_bytes(), False)


def programs() -> Iterator[tuple[str, File]]:
    """Yields bsdudp and bsdplay."""
    for name, program in PROGRAMS.items():
        yield f"bin/{name}", (program.read_bytes(), True)


def completions() -> Iterator[tuple[str, File]]:
    """Yields the completion in bash of each program, which bash-completion loads by the program's name."""
    for name in PROGRAMS:
        yield f"share/bash-completion/completions/{name}", ((TOP / "dist/completion").read_bytes(), False)


def judge() -> Iterator[tuple[str, File]]:
    """Yields the command bsdudp-conform with its package, and the adapters of other stacks."""
    starter = (TOP / "conform/bsdudp-conform").read_bytes()
    yield "bin/bsdudp-conform", (starter, True)
    scripts = ("conform/stacks", "conform/adapters/build")
    folders = ("conform/bsdudp_conform", "conform/adapters", "python/bsdudp")
    for name in ("conform/stacks", *(name for folder in folders for name in files_below(folder))):
        yield f"share/bsdudp/{name}", ((TOP / name).read_bytes(), name in scripts)


def licences() -> bytes:
    """Returns the licences of the toolchain's libraries that are compiled into the programs and the libraries."""
    kit = llvm.toolchain()
    used = crates.uses()
    named = [*dict.fromkeys(it for uses in used.values() for it in uses if it not in used), "std", "core", "os", "libc"]
    texts, without = [], []
    for name in sorted(set(named)):
        files = (kit / "rattle" / name / it for it in ("LICENSE-MIT", "LICENSE"))
        found = [it for it in files if it.is_file()]
        if found:
            texts.append(f"---- {name}\n\n{found[0].read_text(encoding='utf-8').strip()}\n")
        else:
            without.append(name)
    head = "The programs and the libraries contain compiled code of these libraries of the Rattle toolchain, each\n"
    head += "under the licence below. They load the C library of the system.\n\n"
    tail = f"---- {', '.join(without)}\n\nThese are the toolchain's own. It comes with no licence for them: ask its\n"
    tail += "maintainers before you pass on what is compiled with it.\n"
    return (head + "\n".join([*texts, tail])).encode()


def documents(without: Iterable[str] = ()) -> Dict[str, File]:
    """Yields the documents for users, the examples, and the files for simulators, below DOCUMENTS."""
    pages = (it for it in files_below("docs") if not it.startswith(OF_THE_SOURCES))
    named = ["LICENSE", "SECURITY.md", "CHANGELOG.md", "CITATION.cff", *pages]
    named += [*files_below("examples"), *files_below("simulators")]
    files: Dict[str, File] = {f"{DOCUMENTS}/{name}": ((TOP / name).read_bytes(), False) for name in named}
    files[f"{DOCUMENTS}/LICENSES-LINKED"] = (licences(), False)
    if "page" not in without:
        files[f"{DOCUMENTS}/bsdudp.html"] = (PAGE.read_bytes(), False)
    return files


def portable_c(without: Iterable[str] = ()) -> Dict[str, File]:
    """Yields the portable C with its header."""
    if "portable" in without:
        return {}
    files = {"bsdudp_portable.c": PORTABLE, "bsdudp.h": TOP / "capi/include/bsdudp.h"}
    return {f"share/bsdudp/{name}": (path.read_bytes(), False) for name, path in files.items()}


def with_links_of(files: Dict[str, File], name: str, page: bytes) -> bytes:
    """Returns a page in which a link to a missing file is replaced by its text."""

    def link(found: re.Match[str]) -> str:
        there = os.path.normpath(os.path.join(os.path.dirname(name), found[2]))
        return found[0] if any(it == there or it.startswith(f"{there}/") for it in files) else found[1]

    return re.sub(r"\[([^\]]+)\]\((?!\w+:|#)([^)#\s]+)[^)]*\)", link, page.decode()).encode()
