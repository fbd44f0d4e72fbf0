"""`bsdudp.Host`: the arguments and frames that it accepts, and its queries. tests/capi/test_ethernet.py tests the
contents of its frames."""
import errno
import importlib
import ipaddress

import pytest

from tests.python.package import bsdudp

ALL, HEAD = "ffffffffffff", "0806 0001 0800 0604"
REQUEST = bytes.fromhex(f"{ALL} 020000000002 {HEAD} 0001 020000000002 0a000002 000000000000 0a000001")
ANNOUNCED = bytes.fromhex(f"{ALL} 020000000001 {HEAD} 0001 020000000001 0a000001 000000000000 0a000001")
REPLY = bytes.fromhex(f"020000000002 020000000001 {HEAD} 0002 020000000001 0a000001 020000000002 0a000002")


def test_a_neighbour_asks_and_is_known():
    with bsdudp.Host("10.0.0.1", gateway="10.0.0.254") as host:
        assert (host.mac, host.mask) == ("02:00:00:00:00:01", "255.255.255.0")
        assert (host.gateway, host.mtu) == ("10.0.0.254", 1500)
        assert host.uses_address
        host.receive(REQUEST)
        assert list(host.frames()) == [ANNOUNCED, REPLY]
        assert host.neighbours == [bsdudp.Neighbour("10.0.0.2", "02:00:00:00:00:02", 2400, 0)]
        host.tick(2)
        assert host.neighbours[0].ticks == 2398
        host.socket().sendto(b"hi", ("10.0.0.3", 7))
        frame = host.transmit()
        assert (frame.destination, frame.source) == ("ff:ff:ff:ff:ff:ff", host.mac)
        assert (frame.type, len(frame.body)) == (0x0806, 28)
        assert repr(frame) == "<Frame 02:00:00:00:00:01 > ff:ff:ff:ff:ff:ff, ARP, 42 bytes>"
        assert host.neighbours[1] == bsdudp.Neighbour("10.0.0.3", None, 3, 1)
        assert host.transmit() is None
        assert host.tallies == bsdudp.Tallies(*[0] * len(bsdudp.Tallies._fields))
        host.receive(b"")
        assert host.tallies.ignored == 1
    with pytest.raises(ValueError, match="has ended"):
        host.receive(REQUEST)


def test_a_datagram_comes_in_a_frame_and_goes_in_one():
    near, far = bsdudp.Host("10.0.0.1"), bsdudp.Host("10.0.0.2", b"\x02\0\0\0\0\2")
    service = far.socket()
    service.bind(("", 7))
    client = near.socket()
    client.sendto(bytes(5000), ("10.0.0.2", 7))
    for _ in range(3):
        for giver, taker in ((near, far), (far, near)):
            for frame in giver.frames():
                taker.receive(frame)
    assert service.recvfrom() == (bytes(5000), ("10.0.0.1", 1024))


def test_a_host_asks_first_for_its_address():
    host = bsdudp.Host(probe=True)
    assert not host.uses_address
    for _ in range(14):
        assert all(frame.type == 0x0806 for frame in host.frames())
        host.tick()
    assert host.uses_address
    host = bsdudp.Host("10.0.0.2", "02:00:00:00:00:09", probe=True)
    host.receive(REQUEST)
    with pytest.raises(OSError) as refused:
        host.uses_address
    assert refused.value.errno == errno.EADDRINUSE


def unreachable(code, port, peer_port):
    """Returns a frame with the ICMP error "destination unreachable" from 10.0.0.2, for a datagram from 10.0.0.1 to
    it."""
    sent = bytes.fromhex(f"4500001c 00010000 40110000 0a000001 0a000002 {port:04x}{peer_port:04x} 00080000")
    packet = with_sum(bytes.fromhex("45000038 00090000 40010000 0a000002 0a000001"), 10)
    return bytes.fromhex("020000000001 020000000002 0800") + packet + with_sum(bytes([3, code, *bytes(6)]) + sent, 2)


def with_sum(data, at):
    """Returns bytes with their checksum at an offset (RFC 1071)."""
    total = sum(int.from_bytes(data[k : k + 2], "big") for k in range(0, len(data), 2))
    return data[:at] + (~(total + (total >> 16)) & 0xFFFF).to_bytes(2, "big") + data[at + 2 :]


def test_a_reply_longer_than_the_mtu_goes_out_in_fragments():
    data = bytes(range(250)) * 4
    request = with_sum(bytes([8, 0, 0, 0, 0, 1, 0, 1]) + data, 2)
    packet = with_sum(bytes.fromhex("45000404 00070000 40010000 0a000002 0a000001"), 10) + request
    with bsdudp.Host(mtu=576) as host:
        host.receive(REQUEST)
        assert list(host.frames()) == [ANNOUNCED, REPLY]
        host.receive(bytes.fromhex("020000000001 020000000002 0800") + packet)
        bodies = [frame.body for frame in host.frames()]
        assert [(len(body), body[6:8].hex()) for body in bodies] == [(572, "2000"), (476, "0045")]
        assert b"".join(body[20:] for body in bodies) == with_sum(bytes([0, 0, 0, 0, 0, 1, 0, 1]) + data, 2)
        assert host.tallies.echoes == 1


def test_what_others_report_is_returned_once():
    with bsdudp.Host("10.0.0.1") as host:
        sock = host.socket()
        assert host.last_error(sock) is None
        sock.bind(("", 2000))
        sock.connect(("10.0.0.2", 9))
        host.receive(unreachable(3, 2000, 9))
        assert isinstance(host.last_error(sock), ConnectionRefusedError)
        assert host.last_error(sock) is None
        host.receive(unreachable(1, 2000, 9))
        assert host.last_error(sock).errno == errno.EHOSTUNREACH
        host.receive(unreachable(3, 2000, 10))
        assert host.last_error(sock) is None
        sock.close()
        with pytest.raises(OSError) as refused:
            host.last_error(sock)
        assert refused.value.errno == errno.EBADF
        with pytest.raises(ValueError, match="belong to this host"):
            host.last_error(bsdudp.Stack().socket())


def test_packets_dont_pass_the_link_by():
    host = bsdudp.Host()
    for call in (lambda: host.rx(bytes(20)), host.tx, lambda: list(host.packets())):
        with pytest.raises(OSError) as refused:
            call()
        assert refused.value.errno == errno.EOPNOTSUPP and "receive and transmit" in refused.value.strerror


@pytest.mark.parametrize(
    "words",
    [
        {"mac": "02:00:00:00:00"},
        {"mac": b"12345"},
        {"mac": "01:00:00:00:00:01"},
        {"mtu": 1501},
        {"mtu": 67},
        {"gateway": "10.0.1.1"},
        {"gateway": "10.0.0.1"},
        {"gateway": "10.0.0.255"},
        {"mask": "255.255.255"},
        {"mask": "255.0.255.0"},
        {"mac": "00:00:00:00:00:00"},
        {"mask": "255.255.0.0", "bcast": "10.0.0.255"},
        {"bcast": "10.0.255.255"},
        {"addr": "127.0.0.1"},
    ],
)
def test_wrong_arguments_are_refused(words):
    with pytest.raises(ValueError):
        bsdudp.Host(**words)


def test_broadcast_address_follows_from_the_mask():
    assert bsdudp.Host("10.0.0.1", mask="255.255.0.0").bcast == "10.0.255.255"
    assert bsdudp.Host("10.0.0.1", mask="255.255.255.252", bcast="10.0.0.3").bcast == "10.0.0.3"


def test_frames_are_bytes_or_have_an_ethernet_layer():
    host = bsdudp.Host(ipaddress.IPv4Address("10.0.0.1"), mask="255.0.0.0", gateway="10.9.9.9")
    host.receive(bytearray(REQUEST))
    host.receive(memoryview(REQUEST))
    assert list(host.frames()) == [ANNOUNCED, REPLY, REPLY]
    for wrong in ("a", 7, None):
        with pytest.raises(TypeError):
            host.receive(wrong)
    with pytest.raises(ValueError, match="at most 65549"):
        host.receive(bytes(65550))
    host.receive(bytes(65549))


@pytest.mark.needs("scapy")
def test_scapys_frames():
    layers = importlib.import_module("scapy.layers.l2")
    host = bsdudp.Host()
    asked = layers.ARP(op=1, hwsrc="02:00:00:00:00:02", psrc="10.0.0.2", pdst="10.0.0.1")
    host.receive(layers.Ether(dst="ff:ff:ff:ff:ff:ff", src="02:00:00:00:00:02") / asked)
    assert list(host.frames()) == [ANNOUNCED, REPLY]
    with pytest.raises(ValueError, match="Ethernet layer"):
        host.receive(asked)
