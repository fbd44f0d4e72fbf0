"""Makes WebAssembly from the LLVM module of a proved static library.

The toolchain proves a crate for WebAssembly, but can't compile one that allocates. So this gives another target to the
module for x86-64. clang compiles it, ld.lld links it with a heap in C, and binaryen's wasm-opt narrows its addresses to
32 bits. None of this is proved."""
import re

from tools.command_line import Stop
from tools.llvm import TOP, readable, run, with_target

LAYOUT = "e-m:e-p:64:64-p10:8:8-p20:8:8-i64:64-i128:128-n32:64-S128"
TARGET = "wasm64-unknown-unknown"
# The functions in heap.c. A module that calls another C function is rejected.
OF_HEAP = {"rattle_alloc", "rattle_realloc", "rattle_dealloc"}
FEATURES = ["memory64", "bulk-memory", "sign-ext", "mutable-globals", "nontrapping-float-to-int"]
# How a module is made from the LLVM module: whose memory it uses, and the arguments of clang, ld.lld and wasm-opt. The
# page has a stack of 1 MB below its heap. In bsdudp_portable.c, constants begin at address 16, and each call sets the
# place of the stack.
PAGE = ("heap.c", ["-O3"], ["--stack-first", "-z", f"stack-size={1 << 20}"], ["-O2"])
PORTABLE = ("c/arena.c", ["-O2"], ["--no-stack-first", "--global-base=16"], ["-O2", "-ocimfs", "0"])


def retargeted(text):
    """Returns the module's text with another target, and the functions that it exports."""
    text = with_target(text, TARGET, LAYOUT)
    called = {it for it in re.findall(r"(?m)^declare [^@]*@([\w.]+)\(", text) if not it.startswith("llvm.")}
    if called - OF_HEAP:
        raise Stop(f"the module calls {', '.join(sorted(called - OF_HEAP))}, which heap.c doesn't have")
    heads = re.findall(r"(?m)^define ([^@]*)@(bsdudp_\w+)\(", text)
    exports = [name for how, name in heads if not re.search(r"\b(internal|private)\b", how)]
    if not exports:
        raise Stop("the module exports no function whose name begins with bsdudp_")
    return text, exports


def compiled(module, kit, scratch, made):
    """Returns the module for WebAssembly with a 64-bit memory, linked with its heap."""
    heap, level, layout, _ = made
    clang = kit / "toolchain/bin/clang"
    text, exports = retargeted(readable(module, kit, scratch))
    (scratch / "wasm.ll").write_text(text)
    how = ["-c", f"--target={TARGET}", "-mcpu=lime1", "-mllvm", "-expand-div-rem-bits=64", *level]
    how += ["-ffunction-sections", "-fdata-sections"]
    run(clang, *how, "-x", "ir", scratch / "wasm.ll", "-o", scratch / "module.o")
    of_c = ["-ffreestanding", "-nostdinc", "-fwrapv", "-Wall", "-Werror"]
    run(clang, *how, *of_c, TOP / "portable" / heap, "-o", scratch / "heap.o")
    wanted = ["--no-entry", "--gc-sections", *layout]
    wanted += [f"--export={it}" for it in exports]
    linker = ["-flavor", "wasm", "-mwasm64", *wanted, scratch / "module.o", scratch / "heap.o"]
    linker += ["-o", scratch / "linked.wasm"]
    run(clang.parent / "ld.lld", *linker)
    return scratch / "linked.wasm"


def number_at(data, at):
    """Returns a number in LEB128, and its end."""
    number = shift = 0
    while True:
        byte = data[at]
        number |= (byte & 127) << shift
        at, shift = at + 1, shift + 7
        if byte < 128:
            return number, at


def without_table(data):
    """Returns the module without its function table, which ld.lld always writes, and without sections of names.
    binaryen can't read a 64-bit table. The table must be empty: then a call through it could only trap."""
    out, at = bytearray(data[:8]), 8
    while at < len(data):
        start, kind = at, data[at]
        size, at = number_at(data, at + 1)
        if kind == 9:
            raise Stop("the module fills its function table, which is known here as empty")
        if kind == 2:
            raise Stop("the module imports something")
        if kind not in (0, 4):
            out += data[start : at + size]
        at += size
    return bytes(out)


def lowered(module, kit, scratch, made):
    """Returns the module with 32-bit addresses. The caller has looked for wasm-opt."""
    (scratch / "plain.wasm").write_bytes(without_table(compiled(module, kit, scratch, made).read_bytes()))
    features = [f"--enable-{it}" for it in FEATURES]
    run("wasm-opt", *features, "--memory64-lowering", *made[-1], scratch / "plain.wasm", "-o", scratch / "lowered.wasm")
    return scratch / "lowered.wasm"
