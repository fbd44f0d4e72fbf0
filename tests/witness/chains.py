"""Random scripts of chains, played by `bsdudp chain` and by the mbuf calls of libusrsctp (mbufs.c).

After each call the bytes and the length of every chain are read: from bsdudp, from the witness, and from a list of byte
strings in Python. All three must agree. The witness doesn't get a call that bsdudp refuses, after which no chain may
have changed. Layouts are counted, but not compared: test_witness.py has examples of those that differ."""
from __future__ import annotations

import collections
import random
import re

from tests.packets import hexed
from tests.witness.player import Player

LENGTHS = [0, 1, 2, 3, 4, 8, 20, 27, 28, 29, 39, 40, 41, 55, 56, 72, 73, 99, 100, 101, 107, 108, 109, 200, 207, 208]
LENGTHS += [209, 216, 300, 308, 416, 1991, 1992, 1993, 2047, 2048, 2049, 2199, 2200, 2256, 4040, 4041, 4248, 6088, 9216]
HEADERS = [1, 2, 4, 8, 20, 28, 29, 56, 72, 73, 99, 100]
POOLS = [(512, 64), (512, 64), (512, 64), (60, 12), (20, 4), (65535, 4096)]
NEAR = [0, 0, 0, 0, -8, -1, 1, 8, 20]
NAMES = ["user", "wire", "copym", "split", "prepend", "pullup", "adj", "cat", "copyback", "free"]


def call(rng: random.Random, name: str, empty: list[str], borders: dict[str, list[int]]) -> str:
    """Returns a random call of this name. Its numbers are at borders between mbufs, or near one. `borders` has those
    of each chain, by its slot."""
    new, (slot, second, *_) = rng.choice(empty or [""]), [*rng.sample(list(borders), len(borders)), "0", "0"]
    at = borders.get(slot, [0])
    end = at[-1]

    def place() -> int:
        return min(max(rng.choice(at) + rng.choice(NEAR), 0), end)

    def octets(*lengths: int) -> str:
        return hexed(rng.randbytes(rng.choice(lengths)))

    low, high = (0, end) if rng.random() < 0.4 else sorted([place(), place()])
    past = end + rng.choice([1, 2, 107, 108, 109, 300])
    cut = rng.choice([1, -1]) * rng.choice([1, 2, 8, 20, 28, 100, place(), end - place()])
    words = {
        "user": f"{new} {octets(*LENGTHS)}",
        "wire": f"{new} {octets(*LENGTHS)}",
        "copym": f"{new} {slot} " + ("all" if (low, high) == (0, end) else f"{low} {high - low}"),
        "split": f"{new} {slot} {place()}",
        "prepend": f"{slot} {octets(*HEADERS)}",
        "pullup": f"{slot} {rng.choice([0, 1, 20, 28, 39, 40, 41, 100, 101, place(), place()])}",
        "adj": f"{slot} {cut}",
        "cat": f"{slot} {second}",
        "copyback": f"{slot} {place() if rng.random() < 0.8 else past} {octets(0, 1, 2, 20, 107, 108, 109, 250)}",
        "free": slot,
    }
    return f"{name} {words[name]}"


def octets_of(word: str) -> bytes:
    return bytes.fromhex(word.replace("-", ""))


def change(strings: dict[str, bytes], line: str) -> None:
    """Changes the strings as an accepted line does."""
    match line.split(" "):
        case ["user" | "wire", slot, data]:
            strings[slot] = octets_of(data)
        case ["copym", new, slot, "all"]:
            strings[new] = strings[slot]
        case ["copym", new, slot, off, count]:
            strings[new] = strings[slot][int(off) : int(off) + int(count)]
        case ["split", new, slot, count]:
            strings[new], strings[slot] = strings[slot][int(count) :], strings[slot][: int(count)]
        case ["prepend", slot, data]:
            strings[slot] = octets_of(data) + strings[slot]
        case ["adj", slot, count]:
            n, old = int(count), strings[slot]
            strings[slot] = old[n:] if n >= 0 else old[: max(len(old) + n, 0)]
        case ["cat", slot, second]:
            strings[slot] += strings.pop(second)
        case ["copyback", slot, off, data]:
            at, new_bytes, old = int(off), octets_of(data), strings[slot]
            strings[slot] = old[:at] + bytes(max(at - len(old), 0)) + new_bytes + old[at + len(new_bytes) :]
        case ["free", slot]:
            del strings[slot]


def compare(ours: Player, theirs: Player, rng: random.Random, counts: collections.Counter[str]) -> None:
    """Plays one random script, from empty slots on, and frees all chains."""
    slots = [str(it) for it in rng.sample(range(64), rng.randint(2, 6))]
    weights = [*rng.choices([1, 2, 4], k=len(NAMES) - 1), 1]
    strings: dict[str, bytes] = {}
    borders: dict[str, list[int]] = {}
    for _ in range(rng.choice([10, 30, 60, 120])):
        empty = [it for it in slots if it not in strings]
        at = 0 if empty else 4, 10 if strings else 2  # without an empty slot nothing is made, without a chain all is
        name = rng.choices(NAMES[at[0] : at[1]], weights[at[0] : at[1]])[0]
        line = call(rng, name, empty, borders)
        (our,) = ours.ask(line)
        counts[f"{name}: {our}"] += 1
        if our == "ok":
            (their,) = theirs.ask(line)
            if their == "shared":  # copyback, and the layouts differ
                counts["shared in the witness alone"] += 1
                break
            assert their == "ok", f"{line[:200]}: bsdudp ok, the witness {their}"
            change(strings, line)
        elif our == "shared":
            slot, off, data = line.split(" ")[1:]
            counts["shared in both"] += theirs.ask(f"writable {slot} {off} {len(octets_of(data))}") == ["shared"]
        borders = read(ours, theirs, strings, line, counts)
    theirs.ask("reset")
    ours.ask(*(f"free {it}" for it in strings))
    assert re.fullmatch(r"mbufs (\d+)/\1 clusters (\d+)/\2 refs 0 most 0", *ours.ask("mbstat"))


def read(
    ours: Player, theirs: Player, strings: dict[str, bytes], line: str, counts: collections.Counter[str]
) -> dict[str, list[int]]:
    """Compares all chains after a line. Returns the borders between the mbufs of each."""
    reads = [f"copydata {slot} 0 {len(string)}" for slot, string in strings.items()]
    reads += [f"show {slot}" for slot in strings]
    our, their = ours.ask(*reads), theirs.ask(*reads)
    for i, (slot, string) in enumerate(strings.items()):
        for name, said in ("bsdudp", our), ("the witness", their):
            data, layout = said[i], said[i + len(strings)]
            assert data == f"data {hexed(string)}", f"{line[:200]}: slot {slot}: {name} {data[:300]}"
            assert layout.startswith(f"len {len(string)} "), f"{line[:200]}: slot {slot}: {name} {layout[:300]}"
    counts["strings"] += len(strings)
    counts["equal layouts"] += sum(a == b for a, b in zip(our[len(strings) :], their[len(strings) :]))
    return {slot: borders_of(layout) for slot, layout in zip(strings, our[len(strings) :])}


def borders_of(layout: str) -> list[int]:
    """Returns the offsets of the mbufs in a reply to `show`, and the end of the last one."""
    at = [0]
    for length in re.findall(r" [PC](\d+)", layout):
        at.append(at[-1] + int(length))
    return at
