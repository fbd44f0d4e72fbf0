"""Packets by name, `rx udp` and `rx raw`, with random fields from a seed. scapy builds the same packets, and each byte
must be equal. A right checksum must be scapy's, too."""
import random
import struct

import pytest

from tests.bsdplay.runs import of_lines, run, same
from tests.packets import HERE, PEER, hexed
from tests.pcaps import records

PORTS = (5000, 7)
SEED, PACKETS = 1, 400
# The word for a field, scapy's name for it, and the largest value that fits.
IP_FIELDS = {
    "version": ("version", 15),
    "ihl": ("ihl", 15),
    "tos": ("tos", 255),
    "len": ("len", 65535),
    "id": ("id", 65535),
    "ttl": ("ttl", 255),
    "proto": ("proto", 255),
    "sum": ("chksum", 65535),
}
FLAGS = {"rf": 4, "df": 2, "mf": 1}

# One process builds all of them, once.
pytestmark = [pytest.mark.needs("scapy"), pytest.mark.xdist_group("fields")]


def wrong(right):
    """Returns the checksum of `badsum` and `badudp`."""
    return right % 65535 + 1


def by_scapy(fields, flags, carried):
    """Returns a packet that scapy builds."""
    from scapy.all import IP, Raw  # noqa: PLC0415

    return bytes(IP(src=PEER, dst=HERE, flags=flags, **fields) / Raw(carried))


def datagram(chance, sent, words):
    """Returns the bytes of a UDP datagram with some fields, and appends the words for these to `words`."""
    from scapy.all import IP, UDP, Raw  # noqa: PLC0415

    length = 8 + len(sent)
    if chance.random() < 0.3:
        length = chance.choice((0, 7, 8, 9, length - 1, length + 1, 65515))
        words.append(f"udplen {length}")
    covered = IP(src=PEER, dst=HERE, len=20 + length) / UDP(sport=PORTS[0], dport=PORTS[1], len=length)
    right = struct.unpack_from("!H", bytes(covered / Raw(sent[: max(length - 8, 0)])), 26)[0]
    sums = {"": right, "nosum": 0, "badudp": wrong(right), f"udpsum {length}": length}
    word = chance.choice(list(sums))
    words += [word] * bool(word)
    return bytes(UDP(sport=PORTS[0], dport=PORTS[1], len=length, chksum=sums[word]) / Raw(sent))


def header(chance, words, whole):
    """Returns the fields and the flags of a random header, and the part of `whole` that the packet carries."""
    fields, flags = {"id": 1, "proto": 17}, 0
    for word, (name, most) in IP_FIELDS.items():
        if chance.random() < 0.2:
            fields[name] = chance.choice((0, 1, most, chance.randint(0, most)))
            words.append(f"{word} {fields[name]}")
    start = 8 * chance.randrange(len(whole) // 8 + 1)
    cut = chance.choice(("", "off", "at")) if start < len(whole) else ""
    for word, flag in FLAGS.items():
        if chance.random() < 0.2 and (word, cut) != ("mf", "at"):
            flags += flag
            words.append(word)
    if cut == "off":
        fields["frag"] = chance.randrange(8192)
        words.append(f"off {8 * fields['frag']}")
    elif cut == "at":
        more = chance.randrange(2)
        fields["frag"], flags, whole = start // 8, flags + more, whole[start:]
        words.append(f"at {start} {'more' if more else 'last'}")
    return fields, flags, whole


def packet(chance):
    """Returns a line that names a packet, and the packet that scapy builds."""
    sent, words = chance.randbytes(chance.choice((0, 1, 2, 9, 40))), []
    is_udp = chance.random() < 0.5
    fields, flags, carried = header(chance, words, datagram(chance, sent, words) if is_udp else sent)
    if chance.random() < 0.2:
        carried = carried[: chance.randint(0, len(carried))]
        words.append(f"size {len(carried)}")
    if "chksum" not in fields and chance.random() < 0.1:
        fields["chksum"] = wrong(struct.unpack_from("!H", by_scapy(fields, flags, carried), 10)[0])
        words.append("badsum")
    chance.shuffle(words)
    ends = f"{PEER}:{PORTS[0]} > {HERE}:{PORTS[1]}" if is_udp else f"{PEER} > {HERE}"
    line = f"rx {'udp' if is_udp else 'raw'} {ends} {hexed(sent)} {' '.join(words)}"
    return line, by_scapy(fields, flags, carried)


def random_packets():
    """Returns the lines that name packets, each with scapy's packet."""
    chance = random.Random(SEED)
    return [packet(chance) for _ in range(PACKETS)]


@pytest.fixture(scope="module")
def built(bsdplay, tmp_path_factory):
    """Returns each line with scapy's packet, and the packets that --pcap writes."""
    capture, packets = tmp_path_factory.mktemp("fields") / "built.pcap", random_packets()
    ended = run(bsdplay, "--quiet", "--pcap", capture, script=of_lines(line for line, _ in packets))
    came = [frame for _, _, frame in records(capture.read_bytes())]
    same("status and packets", (ended.returncode, len(came)), (0, PACKETS))
    return packets, came


@pytest.mark.parametrize("number", range(PACKETS))
def test_a_packet_by_name_is_the_one_that_scapy_builds(number, built):
    (line, wanted), came = built[0][number], built[1][number]
    same(line, came.hex(), wanted.hex())
