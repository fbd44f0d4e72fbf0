"""Joins flat_model and flat_wire in one crate, so that a wrong definition can be tried against the law of the wire.

flat_wire's proofs use the library flat_model, which can't be made with a wrong definition: flat_model has its own laws
about keys and identifications (`whole_key`, `next_number`), which fail first. In one crate, the prover can check only
the law of the wire. There its lemmas don't cite those two laws: each is proved from the definition itself, so the law
of the wire fails."""
from __future__ import annotations

import pathlib
import re
import shutil

NAME = "flat_model"
LAW = f"{NAME}::wire_laws::wire_law"
PARTS = ("src", "specs", "proofs")
# The fields of a key that the law needs, each with its index in the parts of `is_key`. It doesn't need the destination:
# UDP fragments from one address with one identification belong to one datagram.
FIELDS = {
    "source": "(and_parts _ _ (and_parts _ _ (and_parts _ _ e).0).0).0",
    "id": "(and_parts _ _ (and_parts _ _ e).0).1",
    "protocol": "(and_parts _ _ e).1",
}
# What a wrong definition can break in the law: the fields of a key, or a send.
LEMMAS = re.compile(rf"Rattle\.{NAME}\.proofs\.(Second\.key_\w+|Recorded\.\S+)")
LAWS = f"Rattle.{NAME}.proofs.Laws"
# Files of other laws, which cite what a wrong definition breaks; the law of the wire cites none of them.
OTHERS = tuple(
    f"proofs/{it}.antt"
    for it in ("Keyed", "Progress", "Moves", "Placing", "Accounting", "PlaceTable", "Conserved")
)


class Fault(Exception):
    """What differs from this module's assumptions."""


def replaced(text: str, old: str, new: str) -> str:
    if text.count(old) != 1:
        raise Fault(f"the law of the wire has this {text.count(old)} times: {old}")
    return text.replace(old, new)


def from_definitions(place: str, text: str) -> str:
    """Returns a file of proofs whose lemmas don't cite `whole_key` and `next_number`."""
    if place == "proofs/Recorded.antt":
        text = replaced(text, "next_number fd out x named ∙ ap (λ n. (n + 1) % 65536) got.0.id;", "left_is.id;")
        return replaced(text, " next_number,", "")
    if place == "proofs/Second.antt":
        for field, part in FIELDS.items():
            old = f"key_{field} k u e = ap (λ (x : Key). x.{field}) ((whole_key k u).0 e)"
            text = replaced(text, old, f"key_{field} k u e = eqb-true u.key.{field} k.{field} ({part})")
        return replaced(text, " whole_key,", "")
    return text


def cited(text: str) -> set[str]:
    """Returns the laws of flat_model that a file of proofs cites."""
    groups = re.findall(rf"use {re.escape(LAWS)}\.\{{([^}}]*)\}}", text)
    return {name.strip() for group in groups for name in group.split(",")}


def laws_of(text: str, names: set[str]) -> str:
    """Returns Laws.antt with only these names, so that no other lemma is read."""

    def kept(group: re.Match[str]) -> str:
        those = [it for it in map(str.strip, group[2].split(",")) if it in names]
        return f"pub use {group[1]}.{{{', '.join(those)}}}" if those else ""

    return re.sub(r"pub use ([\w.]+)\.\{([^}]*)\}", kept, text)


def make(crates: pathlib.Path, scratch: pathlib.Path) -> None:
    """Makes the crate in an empty folder."""
    for part in PARTS:
        shutil.copytree(crates / NAME / part, scratch / part)
    lib = scratch / "src/lib.rt"
    lib.write_text(replaced(lib.read_text("utf-8"), "\nmod usage;", "\nmod usage;\nmod wire_laws;"), "utf-8")
    names: set[str] = set()
    for file in sorted(it for part in PARTS for it in (crates / "flat_wire" / part).rglob("*") if it.is_file()):
        place = str(file.relative_to(crates / "flat_wire"))
        if place == "src/lib.rt":
            continue
        text = file.read_text("utf-8").replace("Rattle.flat_wire.", f"Rattle.{NAME}.")
        text = text.replace(f"Rattle.{NAME}.proofs.laws.", f"Rattle.{NAME}.proofs.wire_laws.")
        text = from_definitions(place, text)
        if place not in OTHERS:
            names |= cited(text)
        # (a module `laws` and a file Laws can't both be there)
        to = scratch / re.sub(r"\blaws\b", "wire_laws", place)
        if to.name == "Lib.antt":
            text = to.read_text("utf-8") + text
        elif to.exists():
            raise Fault(f"both crates have {place}")
        to.parent.mkdir(parents=True, exist_ok=True)
        to.write_text(text, "utf-8")
    laws = scratch / "proofs/Laws.antt"
    laws.write_text(laws_of(laws.read_text("utf-8"), names), "utf-8")
