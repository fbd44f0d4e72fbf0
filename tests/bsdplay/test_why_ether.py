"""What `bsdplay why --ether` says of frames, as a host on an Ethernet does. The frames are packed by hand from RFC 894,
RFC 826 and RFC 792. Each one also arrives at a host of a script, which must count the same."""
import json
import struct

import pytest

from tests.bsdplay.runs import run
from tests.packets import ALL, HERE, PEER, checksum, datagram, fragment, ip
from tests.pcaps import ETHERNET, header, record

OURS, THEIRS, OTHERS = "020000000001", "020000000002", "020000000003"
EVERYBODY, GROUP, NOBODY = "ffffffffffff", "01005e000001", "000000000000"
STRANGER = "10.0.0.9"


def frame(body, to=OURS, source=THEIRS, kind=0x0800):
    return bytes.fromhex(to) + bytes.fromhex(source) + struct.pack("!H", kind) + body


def arp(op, sender, target, mac=THEIRS, to=EVERYBODY, front="0001080006 04"):
    """Returns a frame with an ARP packet (RFC 826)."""
    addresses = [bytes(map(int, it.split("."))) for it in (sender, target)]
    body = bytes.fromhex(front) + struct.pack("!H", op) + bytes.fromhex(mac) + addresses[0] + bytes(6) + addresses[1]
    return frame(body, to, kind=0x0806)


def icmp(kind, code, rest):
    """Returns an ICMP message with its checksum (RFC 792)."""
    body = struct.pack("!BBH", kind, code, 0) + rest
    return body[:2] + struct.pack("!H", checksum(body)) + body[4:]


def to_us(body, protocol=1):
    return ip(body, (PEER, HERE), protocol=protocol)


PING = icmp(8, 0, bytes(4) + b"abcdefgh")
SENT = datagram(b"hi", (1024, 9), (HERE, PEER))
CLOSED = icmp(3, 3, bytes(4) + SENT[:28])
WRONG_SUM = PING[:2] + bytes(2) + PING[4:]
HI = datagram(b"hi")
# Each frame, what `why --ether` calls it, and what a host counts for it: its link, or the stack.
FRAMES = {
    "a datagram": (frame(HI), "delivered", None),
    "one in a broadcast frame": (frame(HI, EVERYBODY), "delivered", None),
    "a broadcast": (frame(datagram(b"hi", between=(PEER, ALL)), EVERYBODY), "delivered", None),
    "to another hardware address": (frame(HI, OTHERS), "link dropped", "ignored"),
    "to a group": (frame(HI, GROUP), "link dropped", "ignored"),
    "with a VLAN tag": (frame(bytes.fromhex("00010800") + HI, kind=0x8100), "link dropped", "ignored"),
    "from loopback": (frame(datagram(b"hi", between=("127.0.0.1", HERE))), "link dropped", "martians"),
    "from a group": (frame(datagram(b"hi", between=("224.0.0.1", HERE))), "link dropped", "martians"),
    "from the broadcast address": (frame(datagram(b"hi", between=(ALL, HERE))), "link dropped", "martians"),
    "for another address": (frame(datagram(b"hi", between=(PEER, STRANGER))), "dropped", "not addressed to"),
    "an echo request": (frame(to_us(PING)), "link handled", "echoes"),
    "one in a broadcast frame, which gets no reply": (frame(to_us(PING), EVERYBODY), "dropped", "unknown protocol"),
    "one with a wrong checksum": (frame(to_us(WRONG_SUM)), "dropped", "unknown protocol"),
    "an echo reply": (frame(to_us(icmp(0, 0, bytes(4)))), "dropped", "unknown protocol"),
    "an ICMP error": (frame(to_us(CLOSED)), "link handled", "unknown protocol"),
    "one for another host's datagram": (
        frame(to_us(icmp(3, 3, bytes(4) + datagram(b"hi", between=(STRANGER, PEER))[:28]))), "dropped",
        "unknown protocol"),
    "TCP": (frame(to_us(bytes(20), 6)), "dropped", "unknown protocol"),
    "who has our address": (arp(1, PEER, HERE), "link answered", None),
    "a reply to us": (arp(2, PEER, HERE, to=OURS), "link learned", None),
    "who has another address": (arp(1, PEER, STRANGER), None, None),
    "another host has our address": (arp(1, HERE, STRANGER), "link conflict", "conflicts"),
    "ARP of a group": (arp(1, PEER, HERE, GROUP), "link bad_arp", "bad_arp"),
    "ARP of zeros": (arp(1, PEER, HERE, NOBODY), "link bad_arp", "bad_arp"),
    "ARP of our hardware address": (arp(1, PEER, HERE, OURS), "link bad_arp", "bad_arp"),
    "ARP of another network": (arp(1, PEER, HERE, front="0006080006 04"), "link bad_arp", "bad_arp"),
}  # fmt: skip


def why(bsdplay, tmp_path, frames, *words, link=ETHERNET):
    file = tmp_path / "it.pcap"
    file.write_bytes(header(link=link) + b"".join(record("<", 0, at, it) for at, it in enumerate(frames)))
    return run(bsdplay, "why", "--ether", "--addr", HERE, *words, file)


def rows(ended):
    """Returns the objects of records by their numbers, that of the link, and the summary."""
    found = [json.loads(it) for it in ended.stdout.splitlines()]
    return {it["number"]: it for it in found if "number" in it}, found[-2]["link"], found[-1]["summary"]


def verdict(row):
    """Returns what an object says of its frame, in a word or two."""
    return None if row is None else row.get("verdict") or f"link {row['link']}"


@pytest.mark.parametrize("name", FRAMES)
def test_a_frame_by_itself(name, bsdplay, tmp_path):
    sent, wanted, _ = FRAMES[name]
    ended = why(bsdplay, tmp_path, [sent], "--mac", "02:00:00:00:00:01", "--json")
    assert ended.returncode == (3 if wanted is None else 0)
    assert ended.stderr.endswith(b": no packet is for 10.0.0.1: no record has IPv4\n" if wanted is None else b"")
    found, link, summary = rows(ended)
    assert verdict(found.get(1)) == wanted
    assert (link["mac"], link["judge"]) == ("02:00:00:00:00:01", "ethernet host")
    assert summary["packets"] == (wanted in ("delivered", "dropped"))


@pytest.mark.parametrize("name", FRAMES)
def test_a_host_of_a_script_counts_the_same(name, bsdplay):
    sent, wanted, counted = FRAMES[name]
    lines = f"host a ether mac 02:00:00:00:00:01 --addr {HERE}\nwire a\na: socket\na: bind 3 0.0.0.0 7\n"
    ended = run(bsdplay, "-", script=f"{lines}carry all\na: frame {sent.hex()}\na: stat\n".encode())
    text = ended.stdout.decode()
    if counted is not None:
        assert counted in text, text
    elif wanted == "delivered":
        assert text.endswith("=> stat ip.total=1\n"), text


def test_all_in_one_capture(bsdplay, tmp_path):
    """The host's own frame, which shows its hardware address, comes first."""
    frames = [frame(SENT, THEIRS, OURS), *(it for it, _, _ in FRAMES.values())]
    found, link, summary = rows(why(bsdplay, tmp_path, frames, "--json"))
    assert [verdict(found.get(at + 2)) for at in range(len(FRAMES))] == [it for _, it, _ in FRAMES.values()]
    of_link = [it for _, it, _ in FRAMES.values() if it and it.startswith("link ")]
    assert link == {"judge": "ethernet host", "mac": "02:00:00:00:00:01", "dropped": of_link.count("link dropped"),
                    "handled": of_link.count("link handled"),
                    "answered": of_link.count("link answered"), "learned": of_link.count("link learned"),
                    "conflicts": of_link.count("link conflict"), "bad_arp": of_link.count("link bad_arp")}  # fmt: skip
    assert (summary["packets"], summary["delivered"], summary["dropped"]) == (9, 3, 6)


def test_the_lines(bsdplay, tmp_path):
    frames = [frame(SENT, THEIRS, OURS), frame(HI, OTHERS), frame(to_us(PING)), arp(1, PEER, HERE),
              frame(datagram(b"x", (5000, 9)))]  # fmt: skip
    text = why(bsdplay, tmp_path, frames, "--port", "7").stdout.decode()
    for line in (
        "A host on an Ethernet judges, with ARP and ICMP.",
        "2  0.000001  02:00:00:00:00:02 > 02:00:00:00:00:03 udp 10.0.0.2:5000 > 10.0.0.1:7, 2 bytes, id 1 => dropped by"
        " the link: to another hardware address",
        "=> handled by ICMP: the host sends an echo reply",
        "ARP who has 10.0.0.1, tell 10.0.0.2 => the host replies with its hardware address",
        '    the host sends the ICMP error "port unreachable" (RFC 1122, section 4.1.3.1)',
        "To 10.0.0.1: 1 packet. Delivered: 0. Kept as fragments: 0. Dropped: 1.",
        "By its link, 02:00:00:00:00:01: dropped: 1. Handled by ICMP: 1. ARP requests with a reply: 1. ARP replies: 0.",
    ):
        assert line in text, text


def test_the_line_of_the_link_is_below_the_unfinished_datagrams(bsdplay, tmp_path):
    text = why(bsdplay, tmp_path, [frame(fragment(datagram(b"x" * 40), 0, 1))]).stdout.decode()
    unfinished, link = text.splitlines()[-2:]
    assert unfinished.startswith("    unfinished: ") and link.startswith("By its link, "), text


def own_arp(op):
    """Returns a frame with an ARP packet that the host sends."""
    sent = arp(op, HERE, PEER, OURS)
    return sent[:6] + bytes.fromhex(OURS) + sent[12:]


@pytest.mark.parametrize("frames, mac, wanted", [
    ([frame(HI, OTHERS), frame(SENT, THEIRS, OURS)], OURS, "link dropped"), ([frame(HI, OTHERS)], OTHERS, "delivered"),
    ([frame(HI, OTHERS), own_arp(1)], OURS, "link dropped"), ([frame(HI, OTHERS), own_arp(2)], OURS, "link dropped"),
    ([frame(HI, GROUP), frame(HI, OTHERS)], OTHERS, "link dropped"),
])  # fmt: skip
def test_the_hardware_address_is_found(frames, mac, wanted, bsdplay, tmp_path):
    """It's that with which the host sends first, otherwise that to which the first frame for it goes."""
    found, link, _ = rows(why(bsdplay, tmp_path, frames, "--json"))
    assert (link["mac"].replace(":", ""), verdict(found[1])) == (mac, wanted)


def test_without_a_hardware_address_the_message_says_so(bsdplay, tmp_path):
    ended = why(bsdplay, tmp_path, [frame(datagram(b"hi", between=(PEER, STRANGER)))])
    assert (ended.returncode, b"--mac names its hardware address" in ended.stderr) == (2, True), ended
    ended = run(bsdplay, "why", "--ether", "--addr", HERE, "-", script=header(link=ETHERNET))
    assert (ended.returncode, b"--ether needs --mac" in ended.stderr) == (2, True), ended
    ended = run(bsdplay, "why", "--ether", "-", script=header(link=ETHERNET) + record("<", 0, 0, frame(HI)))
    assert (ended.returncode, b"Delivered: 1." in ended.stdout) == (0, True), ended


def test_the_host_sends_ten_errors_between_two_ticks(bsdplay, tmp_path):
    """A tick is half a second. The limit is this project's own (docs/behaviour.md)."""
    text = why(bsdplay, tmp_path, [frame(HI)] * 12, "--port", "9", "--mac", "02:00:00:00:00:01").stdout.decode()
    assert (text.count("no socket has the port: "), text.count("the host sends the ICMP error")) == (12, 10), text


@pytest.mark.parametrize("words, numbers", [([], [1, 2, 3]), (["--dropped"], [2]), (["--records", "3-3"], [3])])
def test_what_is_selected(words, numbers, bsdplay, tmp_path):
    frames = [frame(HI), frame(HI, OTHERS), arp(1, PEER, HERE)]
    found, link, _ = rows(why(bsdplay, tmp_path, frames, "--mac", "02:00:00:00:00:01", "--json", *words))
    assert (list(found), link["dropped"]) == (numbers, 1)


@pytest.mark.parametrize("frames, status", [([frame(HI)], 0), ([frame(HI, OTHERS)], 1), ([frame(to_us(PING))], 0)])
def test_a_drop_by_the_link_is_the_packets_fault(frames, status, bsdplay, tmp_path):
    words = ("--mac", "02:00:00:00:00:01", "--fail-on", "packet")
    assert why(bsdplay, tmp_path, frames, *words).returncode == status


@pytest.mark.parametrize("words", [["--ether", "--mac", "2"], ["--ether", "--mac", "01:00:00:00:00:01"],
                                   ["--mac", "02:00:00:00:00:01"]])  # fmt: skip
def test_a_wrong_hardware_address(words, bsdplay, tmp_path):
    file = tmp_path / "it.pcap"
    file.write_bytes(header(link=ETHERNET))
    ended = run(bsdplay, "why", *words, file)
    assert (ended.returncode, ended.stdout, b"--mac" in ended.stderr) == (2, b"", True)


def test_the_stack_alone_says_so(bsdplay, tmp_path):
    """It drops each ping, and takes frames to any hardware address."""
    file = tmp_path / "it.pcap"
    frames = frame(to_us(PING)), frame(HI, OTHERS)
    file.write_bytes(header(link=ETHERNET) + b"".join(record("<", 0, 0, it) for it in frames))
    ended = run(bsdplay, "why", "--addr", HERE, file)
    assert b"A UDP/IP stack alone judges; --ether" in ended.stdout
    assert b"Delivered: 1. Kept as fragments: 0. Dropped: 1." in ended.stdout
    ended = run(bsdplay, "why", "--addr", HERE, "--json", file)
    assert not any("link" in json.loads(it) for it in ended.stdout.splitlines())
