"""100,000 datagrams to each port of the device, to which there is no reply: its services work meanwhile and afterwards."""
from __future__ import annotations

import contextlib
import itertools
import socket
from typing import Iterator

import pytest

from tests import packets
from tests.device.conftest import BOARD, COAP, DEVICE, LINUX, TAP, TFTP, WAYS, Device, run
from tests.device.test_dhcp import CLIENTS, DNSMASQ, ON_LINUX, REQUEST, dnsmasq, start  # noqa: F401 (a fixture)

pytestmark = [pytest.mark.slow, pytest.mark.long]
TIMES, DHCP, CLOSED = 100_000, 68, 9
# The frames of a burst, and the least share of the flood that arrives: the card of QEMU's board holds few frames, and
# drops others.
BURSTS, SHARES = {"tap": 250, "dhcp": 250, "board": 20}, {"tap": 1, "board": 0.5}
# What gets no reply: a reset of CoAP (RFC 7252, 4.2), an error of TFTP (RFC 1350, 7), and a request of DHCP, not a reply.
SILENT = {COAP: b"\x70\0\0\0", TFTP: b"\0\5\0\0", DHCP: b"\1"}
ETHERNET = bytes.fromhex("020000000001 020000000002 0800")


def frames(port: int, to: str) -> list[bytes]:
    """Returns datagrams of several lengths, one of them in fragments, and one in fragments whose packets are padded; first
    fragments; and first of all a datagram to a port without a socket, which the device counts."""
    ends, ports = (LINUX, to), (9, port)
    closed = packets.datagram(b"", (9, CLOSED), ends)
    whole = [packets.datagram(SILENT[port] + bytes(size), ports, ends) for size in (0, 100, 400, 1400)]
    cut = packets.datagram(SILENT[port] + bytes(600), ports, ends, ident=7)
    short = packets.datagram(SILENT[port] + bytes(156), ports, ends, ident=8)
    parts = [packets.fragment(cut, first, 39) for first in (0, 40)]
    padded = [packets.fragment(short, first, 2) + bytes(256) for first in range(0, 21, 3)]
    lacking = [packets.fragment(packets.datagram(bytes(900), ports, ends, ident=ident), 0, 25) for ident in range(9, 40)]
    return [ETHERNET + it for it in (closed, *whole, *parts, *padded, *lacking)]


def flood(device: Device, port: int, to: str, times: int) -> int:
    """Sends this many frames, in bursts that the queue of Linux's device holds. After each, CoAP replies to a ping.
    Returns how many frames were to the port without a socket."""
    every, burst = itertools.cycle(frames(port, to)), BURSTS[device.name]
    with socket.socket(socket.AF_INET, socket.SOCK_DGRAM) as client:
        client.settimeout(1)
        client.connect((to, COAP))
        for number in range(times // burst):
            for frame in itertools.islice(every, burst):
                device.relay.card.send(frame)
            assert is_alive(client, number), f"no reply to a ping after {burst * number} frames to port {port}"
    return times // len(frames(port, to))


def is_alive(client: socket.socket, number: int) -> bool:
    """Returns whether there's a reply to a ping of CoAP (RFC 7252, 4.3), which may get lost some times."""
    ping = bytes([0x40, 0]) + number.to_bytes(2, "big")
    for _ in range(60):
        client.send(ping)
        with contextlib.suppress(TimeoutError):
            while client.recv(100) != b"\x70" + ping[1:]:  # the second reply to the last one
                continue
            return True
    return False


def serves(device: Device, address: str) -> None:
    assert run("coap-client-notls", "-B", "20", "-m", "get", f"coap://{address}/led") in ("0\n", "1\n")
    run("coap-client-notls", "-B", "20", "-m", "put", "-e", "1", f"coap://{address}/led")


def counted(address: str, name: str) -> int:
    """Returns a counter of drops."""
    said = run("coap-client-notls", "-B", "20", "-m", "get", f"coap://{address}/drops")
    return sum(int(line.split()[1]) for line in said.splitlines() if line.startswith(f"{name} "))


@contextlib.contextmanager
def started(way: str, folder, flash: bytes, request) -> Iterator[Device]:
    (folder / "flash").write_bytes(flash)
    it = WAYS[way](folder, flash, request)
    with it.namespace.inside():
        yield it
        assert it.process.poll() is None, "the device ended"
    it.ended()


@pytest.mark.parametrize("way", [TAP, BOARD])
@CLIENTS
def test_flood_of_each_port(way, flash, request, tmp_path, library):
    """With a fixed address, the port of DHCP has no socket."""
    closed = 0
    with started(way, tmp_path, flash, request) as device:
        serves(device, DEVICE)
        for port in (COAP, TFTP):
            for _ in range(4):
                closed += flood(device, port, DEVICE, TIMES // 4)
                serves(device, DEVICE)
                run("curl", "-sS", "-m", "50", "-r", "0-511", "-o", tmp_path / "came", f"tftp://{DEVICE}/flash")
        run("curl", "-sS", "-m", "50", "-o", tmp_path / "came", f"tftp://{DEVICE}/flash")
        assert (tmp_path / "came").read_bytes() == flash
        assert counted(DEVICE, "udp.noport") >= SHARES[way] * closed, f"only {counted(DEVICE, 'udp.noport')} of {closed}"


@ON_LINUX
@DNSMASQ
@CLIENTS
def test_flood_of_a_client_of_dhcp(start):  # noqa: F811
    """The lease is renewed during the flood, and the servers serve."""
    it = start()
    with dnsmasq(it.folder, "10.0.0.50", "10.0.0.50"):
        address = it.gets(r"10\.0\.0\.50")
        before = len(it.messages(REQUEST))
        for port in (COAP, TFTP, DHCP):
            for _ in range(4):
                flood(it, port, address, TIMES // 4)
                it.serves(address)
        assert len(it.messages(REQUEST)) > before and it.addresses()[-1] == address
