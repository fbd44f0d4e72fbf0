"""What `recvmsg` returns of a datagram's packet, compared with Linux's own recvmsg for the same packets; and
bsdudp_mark, compared with tshark."""
import ctypes
import fcntl
import os
import socket as host
import struct
import subprocess

import pytest

from capi.tests.relay import TUNSETIFF
from tests.device.conftest import Namespace, run
from tests.python.package import bsdudp

pytestmark = pytest.mark.needs("cc", "scapy")
IFF_TUN, IFF_NO_PI = 1, 0x1000
PORT = 2000
WAYS = [
    (to, ttl, tos)
    for to in ("10.0.0.1", "10.0.0.255", "255.255.255.255")
    for ttl, tos in ((1, 0), (64, 0xB8), (255, 1))
]
IPPROTO_IP = host.IPPROTO_IP


def packets(ways=WAYS):
    from scapy.all import IP, UDP, Raw  # noqa: PLC0415

    for number, (to, ttl, tos) in enumerate(ways):
        yield bytes(IP(src="10.0.0.2", dst=to, ttl=ttl, tos=tos) / UDP(sport=5000, dport=PORT) / Raw(bytes([number])))


def without_index(messages):
    """Linux numbers its interfaces; a stack has one."""
    return [(level, kind, data[4:] if kind == 8 else data) for level, kind, data in messages]


def of_linux(options, room):
    """Returns what Linux's recvmsg returns for these packets, which come from a TUN device."""
    namespace = Namespace()
    with namespace.inside():
        tun = os.open("/dev/net/tun", os.O_RDWR)
        fcntl.ioctl(tun, TUNSETIFF, struct.pack("16sH", b"tun0", IFF_TUN | IFF_NO_PI))
        run("ip", "addr", "add", "10.0.0.1/24", "broadcast", "10.0.0.255", "dev", "tun0")
        run("ip", "link", "set", "tun0", "up")
        with host.socket(host.AF_INET, host.SOCK_DGRAM) as it:
            it.bind(("", PORT))
            it.settimeout(5)
            for option in options:
                it.setsockopt(IPPROTO_IP, option, 1)
            for packet in packets():
                os.write(tun, packet)
            came = [it.recvmsg(100, room) for _ in WAYS]
        os.close(tun)
    return came


@pytest.mark.needs("netns", "tun", "ip")
@pytest.mark.parametrize("names", [("PKTINFO",), ("RECVTTL",), ("RECVTOS",), ("RECVTOS", "PKTINFO", "RECVTTL"), ()])
def test_as_linux(names):
    options = [getattr(bsdudp, f"IP_{it}") for it in names]
    wanted = of_linux(options, 200)
    with bsdudp.Stack("10.0.0.1") as stack:
        it = stack.socket()
        it.bind(("", PORT))
        for option in options:
            it.setsockopt(IPPROTO_IP, option, 1)
        for packet in packets():
            stack.rx(packet)
        twin = stack.copy()
        for one in (it, twin.sockets[it.descriptor]):
            came = [one.recvmsg(100, 200) for _ in WAYS]
            for row, linux in zip(came, wanted):
                assert (row[0], without_index(row[1]), row[2:]) == (linux[0], without_index(linux[1]), linux[2:])
    assert [len(row[1]) for row in wanted] == [len(names)] * len(WAYS)


@pytest.mark.needs("netns", "tun", "ip")
@pytest.mark.parametrize("room", [0, host.CMSG_LEN(12), host.CMSG_SPACE(12)], ids=["none", "length", "space"])
def test_room(room):
    """As much as the data need, or nothing: Linux says so, too."""
    wanted = of_linux([bsdudp.IP_PKTINFO], room)
    with bsdudp.Stack("10.0.0.1") as stack:
        it = stack.socket()
        it.bind(("", PORT))
        it.setsockopt(IPPROTO_IP, bsdudp.IP_PKTINFO, 1)
        for packet, row in zip(packets(), wanted):
            stack.rx(packet)
            came = it.recvmsg(100, room)
            assert (came[0], without_index(came[1]), came[2:]) == (row[0], without_index(row[1]), row[2:])
            assert row[2] == (0 if room else host.MSG_CTRUNC)


def test_options():
    with bsdudp.Host("10.0.0.1") as stack:
        it, other = stack.socket(), stack.socket()
        for option in (bsdudp.IP_PKTINFO, bsdudp.IP_RECVTTL, bsdudp.IP_RECVTOS):
            assert it.getsockopt(IPPROTO_IP, option) == 0
            it.setsockopt(IPPROTO_IP, option, 1)
            assert (it.getsockopt(IPPROTO_IP, option), other.getsockopt(IPPROTO_IP, option)) == (1, 0)
            it.setsockopt(IPPROTO_IP, option, 0)
            assert it.getsockopt(IPPROTO_IP, option) == 0
        it.bind(("", 7))
        it.setsockopt(IPPROTO_IP, bsdudp.IP_RECVTTL, 1)
        it.sendto(b"to itself", ("10.0.0.1", 7))
        assert it.recvmsg(100, 100) == (b"to itself", [], 0, ("10.0.0.1", 7))
        with pytest.raises(OSError):
            it.setsockopt(IPPROTO_IP, 1000, 1)
        it.close()
        with pytest.raises(OSError):
            it.setsockopt(IPPROTO_IP, bsdudp.IP_PKTINFO, 1)
        again = stack.socket()
        assert again.descriptor == 3 and again.getsockopt(IPPROTO_IP, bsdudp.IP_RECVTTL) == 0


@pytest.mark.needs("tshark")
def test_marks(tmp_path):
    """tshark reads both fields, and finds no wrong checksum."""
    from bsdudp._library import LIBRARY  # noqa: PLC0415
    from scapy.all import wrpcap  # noqa: PLC0415

    ways = [(ttl, tos) for ttl in (0, 1, 63, 64, 128, 255) for tos in (0, 1, 0xB8, 0xFF)]
    with bsdudp.Stack("10.0.0.1") as stack:
        it, marked = stack.socket(), []
        for ttl, tos in ways:
            it.sendto(bytes([ttl]) * 100, ("10.0.0.2", PORT))
            packet = bytearray(bytes(stack.tx()))
            data = (ctypes.c_uint8 * len(packet)).from_buffer(packet)
            assert LIBRARY._library.bsdudp_mark(data, ctypes.c_size_t(len(packet)), ttl, tos) == 0
            marked.append(bytes(packet))
    wrpcap(str(tmp_path / "marked.pcap"), marked, linktype=101)
    words = ["-o", "ip.check_checksum:TRUE", "-T", "fields"]
    words += [it for field in ("ip.ttl", "ip.dsfield", "ip.checksum.status") for it in ("-e", field)]
    done = subprocess.run(
        ["tshark", "-n", "-r", tmp_path / "marked.pcap", *words], capture_output=True, text=True, check=True
    )
    rows = [line.split() for line in done.stdout.splitlines()]
    assert [(int(ttl), int(tos, 16), status) for ttl, tos, status in rows] == [(*way, "1") for way in ways]
