"""Linux as the peer of capi/examples/tap_host.c, and of a host of the Python package, in a network namespace of its own
(unshare -n). Frames pass through this program, which can lose them, from the TAP device of Linux to that of the host,
and are written to CAPTURE. At the end two hosts are on one bridge with Linux. It prints the first fault and exits with
1. A test that lacks a tool is skipped, with one line."""
import argparse
import contextlib
import errno
import fcntl
import os
import pathlib
import random
import re
import select
import shutil
import socket
import struct
import subprocess
import sys
import time

import bsdudp
from relay import IFF_NO_PI, IFF_TAP, LINUX_MAC, TUNSETIFF, Capture, Fault, Relay, check, device_up, must, run

HOST, HOST_MAC = "10.0.0.1", "02:00:00:00:00:01"
ARP, IPV4 = b"\x08\x06", b"\x08\x00"
ECHO, CLOSED = 7, 9
WAIT, TRIES = 20, 3  # seconds: much more than any test needs, for a busy computer
IP_MTU_DISCOVER = 10


def has(tool, what):
    if shutil.which(tool):
        return True
    print(f"ethernet: no {tool}: {what} is skipped")
    return False


@contextlib.contextmanager
def tap_host(program, *words):
    """A host while the block lasts, and what it printed at its end, in a list."""
    said = []
    with subprocess.Popen([program, *words], stdout=subprocess.PIPE, stderr=subprocess.STDOUT, text=True) as child:
        try:
            yield said
        finally:
            child.terminate()
            said.append(child.communicate()[0])
    check(child.returncode == 0, f"the host ended with {child.returncode}: {said[0].strip()}")


def is_announcement(frame):
    """An ARP packet with the same sender and target address (RFC 5227)."""
    return frame[12:14] == ARP and frame[28:32] == frame[38:42]


def client(source=""):
    it = socket.socket(socket.AF_INET, socket.SOCK_DGRAM)
    it.setsockopt(socket.SOL_SOCKET, socket.SO_BROADCAST, 1)
    it.setsockopt(socket.SOL_SOCKET, socket.SO_RCVBUF, 1 << 20)
    it.setsockopt(socket.IPPROTO_IP, IP_MTU_DISCOVER, 0)
    it.bind((source, 0))
    it.settimeout(WAIT)
    return it


def echoed(it, data, to=HOST):
    """Sends a datagram until it comes back. No other datagram may arrive."""
    for _ in range(TRIES):
        it.sendto(data, (to, ECHO))
        with contextlib.suppress(TimeoutError):
            back, sender = it.recvfrom(65536)
            check(back == data, f"{len(data)} bytes came back as {len(back)} others from {sender}")
            return
    raise Fault(f"{len(data)} bytes to {to} didn't come back")


def pings(wanted, *words):
    """Pings until `wanted` replies have arrived. If a reply is late on a busy computer, it tries again."""
    for _ in range(TRIES):
        said = run("ping", "-q", *words)
        if f" {wanted} received" in said:
            return
    raise Fault(f"ping {' '.join(words)}: {said.strip().splitlines()[-1] if said.strip() else 'nothing'}")


# ---- tests


def known(relay):
    """ARP and ping."""
    if has("ping", "ping"):
        pings(3, "-c", "3", "-i", "0.2", HOST)
        pings(2, "-c", "2", "-i", "0.2", "-s", "1472", HOST)
        pings(2000, "-f", "-c", "2000", "-w", "30", HOST)
    echoed(client(), b"hello")
    check(HOST_MAC in run("ip", "neigh", "show", "dev", "lin0"), "Linux doesn't know the host's hardware address")
    if has("arping", "arping"):
        said = run("arping", "-c", "2", "-w", str(WAIT), "-I", "lin0", HOST)
        check("Received 2 response" in said, f"arping: {said.strip().splitlines()[-1]}")
        said = run("arping", "-D", "-c", "1", "-w", str(WAIT), "-I", "lin0", HOST)
        check("Received 1 response" in said, "a probe of the host's address gets no reply")
    del relay


def datagrams(relay):
    """Datagrams of all lengths, with all kinds of addresses."""
    it = client()
    for length in [*range(0, 9217, 16), 1471, 1472, 1473, 9215, 9216]:
        echoed(it, os.urandom(length))
    echoed(it, b"to all", "10.0.0.255")
    must("ip addr add 192.168.1.9/32 dev lin0")
    far = client("192.168.1.9")
    for length in (100, 3000):
        echoed(far, os.urandom(length))
    it.connect((HOST, CLOSED))
    for _ in range(TRIES):
        it.send(b"x")
        try:
            it.recv(10)
        except ConnectionRefusedError:
            return
        except TimeoutError:
            pass
    del relay
    raise Fault("Linux gets no port unreachable")


def moved(relay):
    """Linux gets another hardware address, and the host learns it."""
    must("ip link set lin0 down")
    must("ip link set lin0 address 02:00:00:00:00:99")
    must("ip link set lin0 up")
    must(f"ip neigh replace {HOST} lladdr {HOST_MAC} dev lin0 nud permanent")
    it = client()
    relay.loses = lambda frame: frame[12:14] == ARP
    relay.gave.clear()
    it.sendto(b"x", (HOST, ECHO))
    for _ in range(WAIT * 20):
        gave = [frame for frame in relay.gave if frame[12:14] == IPV4]
        if gave:
            break
        time.sleep(0.05)
    to = gave[0][:6].hex(":") if gave else "nowhere"
    check(to == LINUX_MAC, f"the host sends to {to}, and not to the latest hardware address")
    relay.loses = lambda frame: False
    if has("arping", "an announcement"):
        run("arping", "-c", "1", "-U", "-I", "lin0", "10.0.0.2")
        echoed(it, os.urandom(9216))
    must(f"ip neigh del {HOST} dev lin0")


def lossy(relay):
    """2,000 datagrams while frames are lost, also those of ARP, and Linux sometimes forgets the host: none is wrong."""
    rng = random.Random(7)
    relay.loses = lambda frame: rng.random() < 0.1
    it, back = client(), 0
    sent = {}
    for k in range(2000):
        data = k.to_bytes(4, "big") + rng.randbytes(rng.choice((0, 10, 500, 1468, 1469, 3000)))
        sent[data[:4]] = data
        if k % 200 == 0:
            run("ip", "neigh", "flush", "dev", "lin0")
        with contextlib.suppress(TimeoutError):  # too many datagrams wait for a lost ARP reply
            it.sendto(data, (HOST, ECHO))
        if k % 10 == 9:
            back += drained(it, sent, 0.02)
    back += drained(it, sent, 2)
    relay.loses = lambda frame: False
    check(back >= 200, f"{back} of 2,000 datagrams came back over a lossy wire")


def drained(it, sent, wait):
    """Returns how many datagrams arrive until none does for a while. Each is one that was sent."""
    came = 0
    it.settimeout(wait)
    with contextlib.suppress(TimeoutError):
        while True:
            data = it.recv(65536)
            check(sent.get(data[:4]) == data, "a datagram came back as another over a lossy wire")
            came += 1
    return came


def asked(relay):
    """A host without neighbours keeps seven fragments for one request."""
    relay.gave.clear()
    must(f"ip neigh replace {HOST} lladdr {HOST_MAC} dev lin0 nud permanent")
    echoed(client(), os.urandom(9216))
    kinds = [frame[12:14] for frame in relay.gave if not is_announcement(frame)]
    check(kinds == [ARP] + 7 * [IPV4], f"the host gave {[kind.hex() for kind in kinds]}")


def until_reported(device, host, sock, capture):
    """Returns the error reported about a socket's datagrams. It sends until there is one."""
    for _ in range(WAIT):
        sock.send(b"x")
        until = time.monotonic() + 1.1  # Linux sends an error for one peer once in a second
        while (left := until - time.monotonic()) > 0:
            for frame in host.frames():
                capture.add(bytes(frame))
                os.write(device, bytes(frame))
            ready, _, _ = select.select([device], [], [], min(left, 0.1))
            if ready:
                frame = os.read(device, 2048)
                capture.add(frame)
                host.receive(frame)
            error = host.last_error(sock)
            if error:
                return error
        host.tick(2)
    return None


def reported(capture):
    """Linux reports that no socket has a port, and that there is no route to an address: the host's caller gets both
    errors."""
    device = os.open("/dev/net/tun", os.O_RDWR)
    fcntl.ioctl(device, TUNSETIFF, struct.pack("16sH", b"rep0", IFF_TAP | IFF_NO_PI))
    device_up("rep0")
    must("ip addr add 10.0.1.2/24 dev rep0")
    must("ip route add unreachable 10.0.2.0/24")
    pathlib.Path("/proc/sys/net/ipv4/conf/rep0/forwarding").write_text("1")
    wanted = {("10.0.1.2", CLOSED): errno.ECONNREFUSED, ("10.0.2.2", ECHO): errno.EHOSTUNREACH}
    with bsdudp.Host("10.0.1.1", mac="02:00:00:00:00:21", gateway="10.0.1.2") as host:
        for peer, number in wanted.items():
            sock = host.socket()
            sock.connect(peer)
            error = until_reported(device, host, sock, capture)
            check(error and error.errno == number, f"of datagrams to {peer} Linux reports {error!r} to the host")
    os.close(device)


def bridged(program):
    """Two hosts on one bridge with Linux."""
    if "Error" in run("ip", "link", "add", "br0", "type", "bridge"):
        print("ethernet: the kernel has no bridge: two hosts on one are left out")
        return
    must("ip addr flush dev lin0")
    must("ip addr add 10.0.0.2/24 broadcast 10.0.0.255 dev br0")
    device_up("br0")
    words = {"10.0.0.11": "02:00:00:00:00:11", "10.0.0.12": "02:00:00:00:00:12"}
    with contextlib.ExitStack() as hosts:
        for at, (addr, mac) in enumerate(words.items()):
            hosts.enter_context(tap_host(program, f"h{at}", addr, mac))
            device_up(f"h{at}")
            must(f"ip link set h{at} master br0")
        it = client()
        for length in (0, 100, 1472, 1473, 9216):
            for addr in words:
                echoed(it, os.urandom(length), addr)
        for addr in words:
            if shutil.which("ping"):
                pings(3, "-c", "3", "-i", "0.2", addr)
        # a broadcast reaches both, and each echoes it
        it.sendto(b"both", ("10.0.0.255", ECHO))
        came = {it.recvfrom(100)[1][0] for _ in words}
        check(came == set(words), f"a broadcast got replies from {sorted(came)}")
        near = run("ip", "neigh", "show", "dev", "br0")
        check(all(mac in near for mac in words.values()), "Linux doesn't know both hosts")


def main(program, path):
    capture = Capture(path)
    relay = Relay(capture)
    relay.start()
    try:
        with tap_host(program, "h0", HOST, HOST_MAC, "10.0.0.2") as said:
            relay.plug("h0")
            for tried in (known, datagrams, moved, lossy):
                tried(relay)
        told = re.search(r"echoes (\d+), unreachable (\d+)", said[0])
        check(told and int(told[2]) > 0, f"the host's tallies: {said[0].strip()}")
        with tap_host(program, "h0", HOST, HOST_MAC):
            relay.plug("h0")
            asked(relay)
        reported(capture)
        bridged(program)
    except Fault as fault:
        sys.exit(f"ether_peer.py: {fault}")
    finally:
        relay.is_over = True
        relay.join()
        capture.file.close()


if __name__ == "__main__":
    parser = argparse.ArgumentParser(description=__doc__)
    parser.add_argument("program", metavar="TAP_HOST", help="the built program")
    parser.add_argument("capture", metavar="CAPTURE", help="the file that is written")
    said = parser.parse_args()
    main(said.program, said.capture)
