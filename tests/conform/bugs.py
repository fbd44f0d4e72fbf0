"""Bugs that are planted in the course's clean stack (conform/bsdudp_conform/lab/solution/c), one at a time: a name, the
file, old and new text."""
from __future__ import annotations

import pathlib
import subprocess
from typing import List, NamedTuple, Tuple

from tests.cases import TOP

LAB = TOP / "conform/bsdudp_conform/lab"
KIT = TOP / "conform/bsdudp_conform/templates"
FLAGS = ["-std=c99", "-D_POSIX_C_SOURCE=200809L", "-O1", "-Wall", "-Wextra", "-Wno-unused-function"]


class Bug(NamedTuple):
    name: str
    file: str
    edits: Tuple[Tuple[str, str], ...]


def bug(name: str, file: str, old: str, new: str) -> Bug:
    return Bug(name, file, ((old, new),))


def build(folder: pathlib.Path, planted: Bug | None = None) -> pathlib.Path:
    """Compiles the clean stack with a bug, and returns its adapter."""
    sources = [LAB / "handout/c/host.c", *sorted((LAB / "solution/c").glob("*.c"))]
    texts = {it.name: it.read_text(encoding="utf-8") for it in sources}
    for old, new in planted.edits if planted else ():
        assert texts[planted.file].count(old) == 1, f"{old!r} isn't in one place of {planted.file}"
        texts[planted.file] = texts[planted.file].replace(old, new)
    for name, text in texts.items():
        (folder / name).write_text(text, encoding="utf-8")
    words = ["cc", *FLAGS, f"-I{KIT}", f"-I{LAB / 'handout/c'}", *(folder / name for name in texts)]
    subprocess.run([*words, "-o", folder / "adapter"], check=True, capture_output=True)
    return folder / "adapter"


COUNTED = "static int n;\n    if (++n > 200) return true;"
FOUND = "    return at;\n}"
NOT_WHOLE = "    if (length == 0) return false;\n"
TOO_LONG = "    if (length - 8 > 32767) {\n        drop(at);\n        return false;\n    }\n"
SUM = "    if (get16(it->data + 6) == 0) return true;"
SOURCE_PORT = "uint16_t source_port = get16(it->data), port"
TO_BEST = "if (it->destination == HOST) deliver(best, it->source, source_port, it->data + 8, length - 8);"
LENGTHS = "if (length < 8 || length > it->length || !udp_sum_holds(it, length)) return true;"
ID = "    part.identification = ++identification;"
SAME = "one->source == other->source && one->destination == other->destination\n           && "
QUEUE = "    } else if (queued[number] < MOST_WAITING) {"

BUGS: List[Bug] = [
    bug("0xffff is taken as no checksum", "step2.c", SUM, SUM.replace("== 0)", "% 0xffff == 0)")),
    bug("a sum of 0 is sent as 0", "step4.c", "checksum == 0 ? 0xffff : checksum", "checksum"),
    bug("no checksum is dropped", "step2.c", SUM, SUM.replace("true", "false")),
    bug("an odd tail is summed as the low byte", "step2.c", "bytes[length - 1] << 8", "bytes[length - 1]"),
    bug("an odd tail is left out of the sum", "step2.c", "if (length % 2)", "if (length % 2 && sum > 0xfffffff0)"),
    bug("one carry is added", "step2.c", "while (sum >> 16)", "if (sum >> 16)"),
    bug("one identification for all", "step5.c", ID, ID.replace("++", "")),
    bug("one identification for each fragment", "step5.c", "        put_ip(", f"    {ID}\n        put_ip("),
    bug("a front is cut, and its bytes aren't advanced", "step6.c", "    it->bytes += begin - it->begin;\n", ""),
    bug("the key lacks the protocol", "step6.c", " && one->protocol == other->protocol", ""),
    bug("the key lacks the destination", "step6.c", SAME, SAME.replace("one->destination == other->destination", "1")),
    bug("the UDP length isn't looked at", "step3.c", "length = get16(it->data + 4);", "length = it->length;"),
    bug("options aren't skipped", "step1.c", ".data = packet + size,", ".data = packet + 20,"),
    bug("a time to live below 2 is dropped", "step1.c", "packet[0] >> 4 != 4", "packet[0] >> 4 != 4 || packet[8] < 2"),
    bug("a time to live of 0 is sent", "step4.c", "to[8] = 64;", "to[8] = 0;"),
    bug("padding is kept", "step1.c", ".length = total - size,", ".length = length - size,"),
    bug("an ICMP error for a broadcast", "host.c", "if (!taken && it.destination == HOST)", "if (!taken)"),
    bug("the length of a quote is swapped", "host.c", "    put16(message + 2, (uint16_t)~",
        "    put16(message + 10, (uint16_t)(message[11] << 8 | message[10]));\n    put16(message + 2, (uint16_t)~"),
    bug("a full queue replaces its newest", "host.c", QUEUE, QUEUE.replace("} else if", "} else {\n        if").replace(
        "queued[number] < MOST_WAITING) {", "queued[number] == MOST_WAITING) queued[number]--;")),
    bug("nothing expires", "step6.c", "if (now - (*at)->born < LIFE_MS) {", "if (now + 1 > 0) {"),
    bug("the time restarts with each fragment", "step6.c", FOUND, f"    (*at)->born = now;\n{FOUND}"),
    bug("fragments live 0.9 s", "step6.c", "LIFE_MS 60000", "LIFE_MS 900"),
    bug("offsets are no multiples of 8", "step5.c", "(mtu - 20) / 8 * 8", "mtu - 20"),
    bug("255.255.255.255 is dropped", "step1.c", " || to->destination == ONES", ""),
    bug("invalid sources are taken", "step1.c", "is_ours && is_host(to->source)", "is_ours && is_host(HOST)"),
    bug("a peer's port isn't compared", "step3.c", " && it->peer_port == source_port", " && source_port >= 0"),
    bug("the source port is swapped from 256 bytes on", "step3.c", TO_BEST, TO_BEST.replace(
        "source_port,", "length >= 264 ? (uint16_t)(source_port << 8 | source_port >> 8) : source_port,")),
    bug("data above 32,767 bytes is dropped", "step6.c", NOT_WHOLE, f"{NOT_WHOLE}{TOO_LONG}"),
    bug("nothing comes after 200 datagrams", "step3.c", LENGTHS, f"{LENGTHS}\n    {COUNTED}"),
    bug("identifications have 8 bits", "step5.c", "static uint16_t identification", "static uint8_t identification"),
    bug("data of 4,068 bytes is dropped", "step3.c", LENGTHS, f"{LENGTHS}\n    if (length == 4076) return true;"),
    bug("own fragments have don't fragment", "step4.c", "(it->more ? 0x2000 : 0)", "(it->more ? 0x6000 : 0)"),
]

# Ten more, which weren't known when the causes were written.
FROM = "deliver(&sockets[i], it->source,"
ZERO = f"{LENGTHS}\n    if (length > 8 && it->data[8] == 0) return true;"
CHECKSUM = "checksum == 0 ? 0xffff : checksum"
COUNT = (("    insert(in, new);", "    insert(in, new);\n    if (in->count++ >= 16) return false;"),
         ("    bool has_first;", "    bool has_first;\n    int count;"))  # fmt: skip
LATER: List[Bug] = [
    bug("the last fragment isn't waited for", "step6.c", "it->next == NULL && it->more", "it->next == NULL && end < 8"),
    bug("a broadcast has the host as its sender", "step3.c", FROM, FROM.replace("it->source", "HOST")),
    bug("packets with options are dropped", "step1.c", "if (size < 20 ||", "if (size != 20 ||"),
    bug("data that begins with 0 is dropped", "step3.c", LENGTHS, ZERO),
    Bug("at most 16 fragments", "step6.c", COUNT),
    bug("ports are compared by their low byte", "step3.c", "it->port == port", "(it->port & 255) == (port & 255)"),
    bug("long sends have no checksum", "step4.c", CHECKSUM, f"length > 4000 ? 0 : {CHECKSUM}"),
    bug("packets exceed the MTU by up to 8 bytes", "step5.c", "it->length <= mtu", "it->length <= mtu + 8"),
    bug("fragments live 25 s", "step6.c", "LIFE_MS 60000", "LIFE_MS 25000"),
    bug("the sum of ICMP errors isn't complemented", "host.c", "~ones_sum(message", "ones_sum(message"),
]
