"""The wrappers of a checked library (BSDUDP_CHECK=1 capi/build), made of its headers: each call of a header enters and
leaves through capi/checked.c, and the sources in capi/src define it by another name."""
import pathlib
import re
import sys

TOP = pathlib.Path(__file__).resolve().parent.parent
CALL = re.compile(r"(?m)^([a-z][\w ]*?[ *]+)(bsdudp_\w+)\(([^;]*?)\);")


def calls():
    """Returns the result's type, the name and the parameters of each call of the headers."""
    for header in sorted((TOP / "capi/include").glob("*.h")):
        yield from CALL.findall(re.sub(r"(?s)/\*.*?\*/", "", header.read_text(encoding="utf-8")))


def names_of(parameters):
    """Returns the names of parameters."""
    return [re.search(r"(\w+)(?:\[\w*\])?$", it.strip())[1] for it in parameters.split(",") if it.strip() != "void"]


def wrapper(result, name, parameters):
    """Returns a call's wrapper. A call without a handle, or that returns no number, is passed on."""
    names = names_of(parameters)
    plain = f"plain_{name}({', '.join(names)})"
    lines = [f"{result}plain_{name}({parameters});", f"{result}{name}({parameters})", "{"]
    if parameters.startswith("struct bsdudp *") and result == "int ":
        boots = int("_boot" in name)
        lines += [f'    bsdudp_enter({names[0]}, "{name}", {boots});', f"    return bsdudp_leave({names[0]}, {plain});"]
    else:
        lines.append(f"    return {plain};")
    return "\n".join([*lines, "}"])


def main():
    folder = pathlib.Path(sys.argv[1])
    found = list(calls())
    renamed = "".join(f"#define {name} plain_{name}\n" for _, name, _ in found)
    (folder / "renamed.h").write_text(renamed, encoding="utf-8")
    head = '#include "bsdudp_notes.h"\n\nvoid bsdudp_enter(const struct bsdudp *stack, const char *call, int boots);\n'
    head += "int bsdudp_leave(const struct bsdudp *stack, int answer);\n\n"
    body = "\n\n".join(wrapper(*it) for it in found)
    (folder / "wrappers.c").write_text(f"{head}{body}\n", encoding="utf-8")


if __name__ == "__main__":
    main()
