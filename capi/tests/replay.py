#!/usr/bin/env python3
"""The captures of tests/captures, played.

PCAP is the built capi/examples/pcap.c. Its counters are in NAME.stdout. The capture that it writes has the echo of each
datagram to port 7, with right checksums, and tshark, if it's installed, reports nothing about it. The same packets with
the headers of other link types get the same replies, also after a jump in time. TUN_ECHO is the built tun_echo.c: the
packets of ethernet.pcap are sent to it through its device, and it must send the same packets back, byte for byte. That
needs a network namespace (unshare -n). It prints the first fault, and then exits with 1."""
import pathlib
import resource
import shutil
import signal
import socket
import struct
import subprocess
import sys
import tempfile
import time

sys.dont_write_bytecode = True
sys.path.insert(0, str(pathlib.Path(__file__).resolve().parent.parent.parent))
from tools import command_line  # noqa: E402

CAPTURES = pathlib.Path(__file__).resolve().parent / "captures"
HOST, BROADCAST, ECHO = socket.inet_aton("10.0.0.1"), socket.inet_aton("10.0.0.255"), 7
ETHERNET, MORE, OFFSET, ETH_P_IP = 1, 0x2000, 0x1FFF, 0x0800
# The link types that pcap.c reads besides Ethernet, from https://www.tcpdump.org/linktypes.html: the number, and the
# headers of an IPv4 packet and of an IPv6 one. Linux cooked: the kind of packet, the kind of device, the length of its
# address, the address, and the EtherType. Version 2 has the number of the interface too, in another order.
COOKED, COOKED2 = "!HHH8sH", "!HHIHBB8s"
ADDRESS = bytes(range(2, 10))
LINKS = {
    "raw": (101, b"", None),
    "ipv4": (228, b"", None),
    "loopback": (0, struct.pack("<I", 2), struct.pack("<I", 30)),
    "loopback-big": (0, struct.pack(">I", 2), struct.pack(">I", 30)),
    "loop": (108, struct.pack(">I", 2), struct.pack(">I", 24)),
    "cooked": (113, *(struct.pack(COOKED, 0, 1, 6, ADDRESS, it) for it in (ETH_P_IP, 0x86DD))),
    "cooked2": (276, *(struct.pack(COOKED2, it, 0, 3, 1, 0, 6, ADDRESS) for it in (ETH_P_IP, 0x86DD))),
}
SECONDS = 20  # of processor time; pcap.c takes a hundredth of a second
LATEST = 0x7FFF_FFFF


class Wrong(Exception):
    """What is wrong."""


def packets(path):
    """Returns the IPv4 packets in a capture with their times, cut at their total lengths."""
    data = path.read_bytes()
    link, at = struct.unpack_from("<I", data, 20)[0], 24
    while at < len(data):
        seconds, parts, count, _ = struct.unpack_from("<IIII", data, at)
        frame = data[at + 16 : at + 16 + count]
        at += 16 + count
        if link == ETHERNET:
            frame = frame[14:] if frame[12:14] == b"\x08\x00" else b""
        if frame and frame[0] == 0x45:
            yield seconds + parts / 1e6, frame[: struct.unpack_from("!H", frame, 2)[0]]


def total(data):
    """The one's complement sum of the words (RFC 1071)."""
    data += b"\0" * (len(data) % 2)
    it = sum(struct.unpack(f"!{len(data) // 2}H", data))
    while it >> 16:
        it = (it & 0xFFFF) + (it >> 16)
    return it


def datagrams(timed):
    """Returns the UDP datagrams in packets: addresses, ports and bytes. Incomplete ones are dropped after 30
    seconds."""
    pieces, begun = {}, {}
    for now, packet in timed:
        if total(packet[:20]) != 0xFFFF:
            raise Wrong("a header's checksum is wrong")
        key, flags = packet[4:6] + packet[12:20], struct.unpack_from("!H", packet, 6)[0]
        if now - begun.setdefault(key, now) > 30:
            begun[key], pieces[key] = now, {}
        pieces.setdefault(key, {})[(flags & OFFSET) * 8] = (packet[20:], flags & MORE)
        data, more = b"", True
        while more and len(data) in pieces[key]:
            piece, more = pieces[key][len(data)]
            data += piece
        if not more:
            del pieces[key], begun[key]
            pseudo = packet[12:20] + struct.pack("!HH", 17, len(data))
            if data[6:8] != b"\0\0" and total(pseudo + data) != 0xFFFF:
                raise Wrong("a datagram's checksum is wrong")
            yield packet[12:16], packet[16:20], *struct.unpack_from("!HH", data), data[8:]


def echoes(path):
    """Returns the datagrams that the host must send for a capture."""
    heard = [it for it in datagrams(packets(path)) if it[1] in (HOST, BROADCAST) and it[3] == ECHO]
    return [(HOST, sender, ECHO, port, data) for sender, _, port, _, data in heard]


def read_by_tshark(path, count):
    """Fails unless tshark finds right checksums, no malformed packet, and nothing to report."""
    if not shutil.which("tshark"):
        return
    words = ["tshark", "-r", path, "-o", "ip.check_checksum:TRUE", "-o", "udp.check_checksum:TRUE", "-T", "fields"]
    for name in ("ip.checksum.status", "udp.checksum.status", "_ws.malformed", "_ws.expert.severity"):
        words += ["-e", name]
    said = subprocess.run(words, stdout=subprocess.PIPE, stderr=subprocess.DEVNULL, text=True, check=True).stdout
    rows = [line.split("\t") for line in said.splitlines()]
    wrong = [row for row in rows if row[0] != "1" or row[1] not in ("1", "") or row[2] or row[3]]
    if wrong or [row[1] for row in rows].count("1") != count:
        raise Wrong(f"tshark says of {path.name}: {wrong or rows}")


def played(program, source, scratch, counted):
    """Plays a capture with pcap.c, which must print its counters. Returns the file that it wrote."""
    written = pathlib.Path(scratch, "written.pcap")
    words = [program, source, written, "10.0.0.1", "10.0.0.255"]
    limit = (SECONDS, SECONDS)
    limited = {"preexec_fn": lambda: resource.setrlimit(resource.RLIMIT_CPU, limit)}
    said = subprocess.run(words, capture_output=True, text=True, check=False, **limited)
    if said.returncode or said.stdout != counted:
        raise Wrong(f"pcap left {said.returncode} and said {said.stdout + said.stderr!r} of {source.name}")
    return written


def by_pcap(program, name, scratch):
    """Plays a stored capture with pcap.c. Returns the packets that it wrote."""
    source = CAPTURES / f"{name}.pcap"
    written = played(program, source, scratch, source.with_suffix(".stdout").read_text(encoding="ascii"))
    wanted = echoes(source)
    if not wanted or list(datagrams(packets(written))) != wanted:
        raise Wrong(f"pcap replies otherwise to {name}.pcap")
    read_by_tshark(written, len(wanted))
    return [packet for _, packet in packets(written)]


def write(path, link, records):
    """Writes a capture of these records: the seconds of each, and its bytes."""
    head = struct.pack("<IHHiIII", 0xA1B2C3D4, 2, 4, 0, 0, 65_536, link)
    rows = [struct.pack("<IIII", seconds, 0, len(frame), len(frame)) + frame for seconds, frame in records]
    path.write_bytes(head + b"".join(rows))


def read_by_link(path, count):
    """Fails unless tshark finds this number of IPv4 packets after the headers of a link type."""
    if not shutil.which("tshark"):
        return
    words = ["tshark", "-r", path, "-Y", "ip.dst && !_ws.malformed", "-T", "fields", "-e", "ip.dst"]
    said = subprocess.run(words, stdout=subprocess.PIPE, stderr=subprocess.DEVNULL, text=True, check=True).stdout
    if len(said.splitlines()) != count:
        raise Wrong(f"tshark finds {len(said.splitlines())} packets in {path.name}, not {count}")


def by_links(program, scratch, wanted):
    """The packets of ethernet.pcap with the headers of the other link types get the same replies. Frames of another
    protocol, and those that end in their header, have no packet."""
    heard = [packet for _, packet in packets(CAPTURES / "ethernet.pcap")]
    counted = (CAPTURES / "ethernet.stdout").read_text(encoding="ascii")
    for name, (link, header, other) in LINKS.items():
        source = pathlib.Path(scratch, f"{name}.pcap")
        frames = [header + packet for packet in heard]
        if other is not None:
            frames[1:1] = [other + heard[0], header[:-1]]
        write(source, link, [(1, frame) for frame in frames])
        read_by_link(source, len(heard))
        if [packet for _, packet in packets(played(program, source, scratch, counted))] != wanted:
            raise Wrong(f"pcap replies otherwise to {source.name} than to ethernet.pcap")
    source = pathlib.Path(scratch, "other.pcap")
    write(source, 105, [(1, heard[0])])  # IEEE 802.11
    refused = subprocess.run([program, source, "/dev/null", "10.0.0.1", "10.0.0.255"], capture_output=True, check=False)
    if refused.returncode != 1 or not refused.stderr.startswith(b"unknown link type 105"):
        raise Wrong(f"pcap takes a link that it doesn't know: {refused}")


def by_jumps(program, scratch):
    """Two fragments of a datagram with the longest time between them that a capture can have: the first one is dropped.
    If the time goes back, there is no tick."""
    both = [packet for _, packet in packets(CAPTURES / "late.pcap")][:2]
    source = pathlib.Path(scratch, "jump.pcap")
    for times, told in (((0, LATEST), "ip.fragtimeout 1\n"), ((LATEST, 0), "ip.reassembled 1\nip.localout 1\n")):
        write(source, 228, zip(times, both))
        played(program, source, scratch, f"ip.total 2\nip.fragments 2\n{told}")


def device():
    """Waits for the device of tun_echo, and returns a socket that sends packets to it and receives from it."""
    for _ in range(1200):
        shown = subprocess.run(["ip", "addr", "show", "bsdudp0"], capture_output=True, text=True, check=False).stdout
        if "10.0.0.2" in shown and "UP" in shown:
            it = socket.socket(socket.AF_PACKET, socket.SOCK_RAW, socket.htons(ETH_P_IP))
            it.bind(("bsdudp0", ETH_P_IP))
            it.settimeout(60)
            return it
        time.sleep(0.05)
    raise Wrong("the device doesn't come up")


def by_tun_echo(program, name, wanted):
    """Plays a capture into the device of tun_echo.c, which must send these packets."""
    with subprocess.Popen([program, "1500"], stdout=subprocess.PIPE) as host:
        try:
            link = device()
            for _, packet in packets(CAPTURES / f"{name}.pcap"):
                link.send(packet)
            for one in wanted:
                while (came := link.recvfrom(65536))[1][2] == socket.PACKET_OUTGOING or came[0][9] != 17:
                    pass
                if came[0] != one:
                    raise Wrong(f"tun_echo replies otherwise to {name}.pcap than pcap")
        except TimeoutError:
            raise Wrong(f"tun_echo doesn't reply to all of {name}.pcap") from None
        finally:
            host.send_signal(signal.SIGTERM)


def main():
    parser = command_line.parser(__doc__)
    parser.add_argument("pcap", metavar="PCAP", help="the built pcap.c")
    parser.add_argument("tun_echo", metavar="TUN_ECHO", nargs="?", help="the built tun_echo.c")
    said = parser.parse_args()
    try:
        with tempfile.TemporaryDirectory() as scratch:
            sent = by_pcap(said.pcap, "ethernet", scratch)
            by_pcap(said.pcap, "late", scratch)
            by_links(said.pcap, scratch, sent)
            by_jumps(said.pcap, scratch)
        if not shutil.which("tshark"):
            print("capi: no tshark: what pcap writes isn't read by it")
        if said.tun_echo:
            by_tun_echo(said.tun_echo, "ethernet", sent)
    except Wrong as what:
        sys.exit(f"replay.py: {what}")


main()
