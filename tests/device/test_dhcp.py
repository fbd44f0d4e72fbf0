"""The device's address: DHCP (RFC 2131) with Debian's dnsmasq and ISC's server as peers, link-local addresses (RFC
3927), and a server of the tests' own that makes mistakes. Ticks of the Linux program take 20 ms, so a lease of two
minutes lasts 4.8 s, and it's renewed after 0.8 s, because dnsmasq says so. Ticks of the board take 100 ms."""
from __future__ import annotations

import contextlib
import pathlib
import random
import re
import socket
import struct
import subprocess
import time
from typing import Callable, Iterator

import pytest

from tests.cases import TOP
from tests.device.conftest import LINUX, MACHINE, Device, run
from tests.made import made

try:
    import scapy.all as scapy
except ImportError:
    pass  # the tests are skipped

ON_LINUX = pytest.mark.needs("netns", "tun", "ip", "cc", "asan", "scapy")
DNSMASQ, ISC = pytest.mark.needs("dnsmasq"), pytest.mark.needs("dhcpd")
CLIENTS = pytest.mark.needs("coap-client", "curl")
pytestmark = [pytest.mark.slow]

MAC, TICK, NEVER = "02:00:00:00:00:01", 0.02, "0.0.0.0"
HALF_A_SECOND = 12_500_000  # of the board's clock
T1 = 20  # seconds of the device, two ticks each
DISCOVER, OFFER, REQUEST, DECLINE, ACK, NAK = range(1, 7)
MALFORMED, LINUX_MAC = 2000, bytes.fromhex("020000000002")
# Frames of the device that tshark can't read to their end, or with a wrong checksum.
WRONG = f"""_ws.malformed || (eth.src == {MAC} && (ip.checksum.status == "Bad" || udp.checksum.status == "Bad"))"""


def until(holds: Callable[[], object], what: str, seconds: float = 40) -> None:
    end = time.monotonic() + seconds
    while not holds():
        assert time.monotonic() < end, what
        time.sleep(0.01)


class Client(Device):
    """A device that gets its address by DHCP."""

    def __init__(self, folder: pathlib.Path, words: list, tick: float = TICK) -> None:
        self.folder, self.read, self.came = folder, 0, []
        super().__init__("dhcp", words, folder, (folder / "flash").read_bytes(), 0, tick)

    def addresses(self) -> list[str]:
        """Returns the addresses that it had. 0.0.0.0 stands for none."""
        return re.findall(r"(?m)^address (\S+)$", (self.folder / "said").read_text(encoding="utf-8"))

    def gets(self, pattern: str, seconds: float = 40) -> str:
        """Waits until its address matches, and returns it."""
        until(lambda: re.fullmatch(pattern, (self.addresses() or [""])[-1]), f"no {pattern}", seconds)
        return self.addresses()[-1]

    def messages(self, kind: int = 0) -> list:
        """Returns the DHCP messages that it sent, of this type or of all."""
        for frame in self.relay.gave[self.read :]:
            self.read += 1
            if frame[23:24] == b"\x11" and frame[36:38] == b"\x00\x43":
                self.came.append(scapy.Ether(frame))
        return [it for it in self.came if not kind or option(it, "message-type") == kind]

    def serves(self, address: str) -> None:
        """Linux programs reach both of its servers."""
        assert run("coap-client-notls", "-B", "20", "-m", "get", f"coap://{address}/led") in ("0\n", "1\n")
        run("curl", "-sS", "-m", "50", "-o", self.folder / "came", f"tftp://{address}/flash")
        assert (self.folder / "came").read_bytes() == self.flash


def option(frame, name: str):
    found = [it[1] for it in frame[scapy.DHCP].options if isinstance(it, tuple) and it[0] == name]
    return found[0] if found else None


@pytest.fixture
def start(on_linux, tmp_path, flash) -> Iterator[Callable[..., Client]]:
    """start(WORDS ..) starts a device that gets its address by DHCP, and enters its namespace."""
    (tmp_path / "flash").write_bytes(flash[:20000])
    with contextlib.ExitStack() as stack:

        def starts(*words: str) -> Client:
            how = [on_linux, "h0", tmp_path / "flash", int(1000 * TICK), "dhcp", *words]
            it = Client(tmp_path, how)
            stack.callback(ends, it)
            stack.enter_context(it.namespace.inside())
            return it

        yield starts


def ends(it: Client) -> None:
    said = it.ended()
    assert it.process.returncode in (0, -15), f"it ended with {it.process.returncode}: {said}"


@contextlib.contextmanager
def dnsmasq(folder: pathlib.Path, first: str, last: str) -> Iterator[None]:
    """Serves this range, for two minutes, the least that it grants. What it logs is in the file "dnsmasq"."""
    how = ["dnsmasq", "--no-daemon", "--conf-file=/dev/null", "--port=0", "--interface=lin0", "--bind-interfaces"]
    how += [f"--dhcp-range={first},{last},255.255.255.0,2m", f"--dhcp-leasefile={folder}/leases", "--log-dhcp"]
    how += [f"--dhcp-option=option:T1,{T1}"]
    with open(folder / "dnsmasq", "a", encoding="utf-8") as log:
        words = [*how, "--no-ping", "--dhcp-authoritative", "--user=root"]
        with subprocess.Popen(words, stdout=log, stderr=log) as child:
            try:
                yield
            finally:
                child.terminate()


@contextlib.contextmanager
def isc(folder: pathlib.Path, first: str, last: str) -> Iterator[None]:
    """The same by ISC's server, with the log in the file "isc". Its leases are as short as is renewed at T1."""
    (folder / "isc.leases").touch()
    (folder / "isc.conf").write_text(
        f"authoritative; ping-check false; default-lease-time {2 * T1}; max-lease-time {2 * T1};\n"
        f"subnet 10.0.0.0 netmask 255.255.255.0 {{ range {first} {last}; option routers 10.0.0.2; }}\n",
        encoding="utf-8",
    )
    how = ["dhcpd", "-4", "-f", "-d", "-cf", folder / "isc.conf", "-lf", folder / "isc.leases", "--no-pid"]
    with open(folder / "isc", "a", encoding="utf-8") as log:
        with subprocess.Popen([*map(str, how), "lin0"], stdout=log, stderr=log) as child:
            try:
                yield
            finally:
                child.terminate()


# ---- Linux's servers


@ON_LINUX
@DNSMASQ
@CLIENTS
@pytest.mark.needs("tshark")
def test_first_lease(start):
    """What it sends is what RFC 2131, 4.1 and 4.4.1 with table 5, and RFC 5227, 2.1 want."""
    it = start()
    with dnsmasq(it.folder, "10.0.0.50", "10.0.0.60"):
        address = it.gets(r"10\.0\.0\.(5\d|60)")
        it.serves(address)
    first = [option(frame, "message-type") for frame in it.messages()].index(REQUEST)
    discover, request = it.messages()[first - 1 : first + 1]
    assert option(discover, "message-type") == DISCOVER
    for frame in (discover, request):
        ip, bootp = frame[scapy.IP], frame[scapy.BOOTP]
        assert (frame.src, frame.dst, ip.src, ip.dst) == (MAC, "ff:ff:ff:ff:ff:ff", NEVER, "255.255.255.255")
        assert (ip.sport, ip.dport, bootp.op, bootp.htype, bootp.hlen, bootp.hops) == (68, 67, 1, 1, 6, 0)
        assert (bootp.ciaddr, bootp.yiaddr, bootp.giaddr, int(bootp.flags)) == (NEVER, NEVER, NEVER, 0x8000)
        assert bootp.chaddr == bytes.fromhex(MAC.replace(":", "")) + bytes(10) and len(bootp) >= 300
        assert {1, 3, 51} <= set(option(frame, "param_req_list")) and "end" in frame[scapy.DHCP].options
    assert option(discover, "server_id") is None and option(discover, "requested_addr") is None
    assert (option(request, "server_id"), option(request, "requested_addr")) == (LINUX, address)
    assert (request.xid, request.secs) == (discover.xid, discover.secs)
    arps = [frame for frame in map(scapy.Ether, it.relay.gave) if frame.haslayer(scapy.ARP) and frame.pdst == address]
    assert [frame.psrc for frame in arps[:4]] == [NEVER, NEVER, NEVER, address]
    it.relay.capture.file.flush()
    words = ["-r", str(it.folder / "frames.pcap"), "-o", "ip.check_checksum:TRUE", "-o", "udp.check_checksum:TRUE"]
    done = subprocess.run(["tshark", "-n", *words, "-Y", WRONG], capture_output=True, text=True, check=True)
    assert done.stdout == ""


@ON_LINUX
@pytest.mark.parametrize("server", [pytest.param(dnsmasq, marks=DNSMASQ), pytest.param(isc, marks=ISC)])
@CLIENTS
def test_renewal(start, server):
    """By unicast, from the address, with neither a wanted address nor a server (4.3.2): the host goes on as it was."""
    it = start()
    with server(it.folder, "10.0.0.50", "10.0.0.60"):
        address = it.gets(r"10\.0\.0\.(5\d|60)")
        run("coap-client-notls", "-m", "put", "-e", "1", f"coap://{address}/led")
        until(lambda: len(it.messages(REQUEST)) >= 4, "no renewal")
        assert run("coap-client-notls", "-m", "get", f"coap://{address}/led") == "1\n"
    for frame in it.messages(REQUEST)[1:]:
        ip, bootp = frame[scapy.IP], frame[scapy.BOOTP]
        assert (ip.src, ip.dst, bootp.ciaddr, int(bootp.flags)) == (address, LINUX, address, 0)
        assert option(frame, "server_id") is None and option(frame, "requested_addr") is None
    assert it.addresses() == [address] and len(it.messages(DISCOVER)) >= 1


@ON_LINUX
@DNSMASQ
@CLIENTS
def test_another_address_at_renewal(start):
    """The server has another range now, so it refuses the renewal (NAK). The servers' sockets move with the host."""
    it = start()
    with dnsmasq(it.folder, "10.0.0.50", "10.0.0.50"):
        it.serves(it.gets(r"10\.0\.0\.50"))
    (it.folder / "leases").unlink()
    with dnsmasq(it.folder, "10.0.0.77", "10.0.0.77"):
        it.serves(it.gets(r"10\.0\.0\.77"))
    assert it.addresses() == ["10.0.0.50", NEVER, "10.0.0.77"]
    assert (it.folder / "dnsmasq").read_text(encoding="utf-8").count("DHCPNAK(") == 1  # the first one ends the lease


@ON_LINUX
@DNSMASQ
@pytest.mark.parametrize("is_known", [True, False], ids=["its own", "another's"])
def test_an_address_that_it_remembers(start, is_known):
    """INIT-REBOOT (3.2): a request without a server and without DISCOVER before it. After NAK it begins again."""
    own = "10.0.0.57" if is_known else "10.0.0.200"
    it = start(own)
    with dnsmasq(it.folder, "10.0.0.50", "10.0.0.60"):
        address = it.gets(r"10\.0\.0\.(5\d|60)")
    first, discovers = it.messages()[0], it.messages(DISCOVER)
    assert option(first, "message-type") == REQUEST and option(first, "server_id") is None
    assert (option(first, "requested_addr"), first.ciaddr) == (own, NEVER)
    assert (address == own, discovers == []) == (is_known, is_known)


@ON_LINUX
@DNSMASQ
@ISC
@CLIENTS
def test_server_that_goes_away(start):
    """The device asks all servers from T2 on, and is silent when the lease ends. Then it takes a link-local address,
    until a server is there again. Its sockets outlast all of it."""
    it = start()
    with isc(it.folder, "10.0.0.50", "10.0.0.50"):
        it.gets(r"10\.0\.0\.50")
    it.gets(re.escape(NEVER))
    to_all = [frame for frame in it.messages(REQUEST) if frame[scapy.IP].dst != LINUX and frame.ciaddr != NEVER]
    assert to_all and all((frame[scapy.IP].src, frame.ciaddr) == ("10.0.0.50", "10.0.0.50") for frame in to_all)
    assert all(frame[scapy.IP].dst == "255.255.255.255" and frame.dst == "ff:ff:ff:ff:ff:ff" for frame in to_all)
    local = it.gets(r"169\.254\.\d+\.\d+")
    assert 1 <= int(local.split(".")[2]) <= 254  # RFC 3927, 2.1
    run("ip", "addr", "add", "169.254.0.9/16", "dev", "lin0")
    it.serves(local)
    with dnsmasq(it.folder, "10.0.0.50", "10.0.0.50"):
        it.serves(it.gets(r"10\.0\.0\.50"))
    assert it.addresses() == ["10.0.0.50", NEVER, local, NEVER, "10.0.0.50"]


@ON_LINUX
@DNSMASQ
@ISC
def test_two_servers(start):
    """It takes one offer, and its request names that server; the other one takes its offer back (3.1)."""
    it = start()
    it.relay.loses = lambda frame: True
    with dnsmasq(it.folder, "10.0.0.50", "10.0.0.59"), isc(it.folder, "10.0.0.60", "10.0.0.69"):
        until(lambda: "started" in (it.folder / "dnsmasq").read_text(encoding="utf-8"), "no dnsmasq")
        until(lambda: "starting service" in (it.folder / "isc").read_text(encoding="utf-8"), "no dhcpd")
        it.relay.loses = lambda frame: False
        address = it.gets(r"10\.0\.0\.[56]\d")
        wanted = {option(frame, "requested_addr") for frame in it.messages(REQUEST)} - {None}
        assert address in wanted
        until(lambda: offered(it.folder) == {"50", "60"}, "one of the servers offers nothing")
    of_dnsmasq = MAC in (it.folder / "leases").read_text(encoding="utf-8")
    of_isc = "binding state active" in (it.folder / "isc.leases").read_text(encoding="utf-8")
    assert of_dnsmasq if address < "10.0.0.60" else of_isc
    if len(wanted) == 1:  # on a busy computer a server may reply too late
        assert of_dnsmasq != of_isc


def offered(folder: pathlib.Path) -> set[str]:
    """Returns the tens of the addresses that servers offered."""
    logs = "".join((folder / it).read_text(encoding="utf-8") for it in ("dnsmasq", "isc"))
    return {it + "0" for it in re.findall(r"DHCPOFFER.* 10\.0\.0\.(\d)\d", logs)}


@ON_LINUX
@DNSMASQ
def test_an_address_that_another_host_has(start):
    """Linux has the address, too, and replies to the probe. The device declines it (4.4.1, table 5), and begins again
    after ten seconds or more."""
    it = start()
    run("ip", "addr", "add", "10.0.0.50/32", "dev", "lin0")
    with dnsmasq(it.folder, "10.0.0.50", "10.0.0.50"):
        until(lambda: it.messages(DECLINE), "nothing is declined")
        run("ip", "addr", "del", "10.0.0.50/32", "dev", "lin0")
        it.gets(r"10\.0\.0\.50")
    declined = it.messages(DECLINE)
    assert {option(frame, "requested_addr") for frame in declined} == {"10.0.0.50"}
    for frame in declined:
        assert (frame.ciaddr, option(frame, "server_id"), option(frame, "param_req_list")) == (NEVER, LINUX, None)
        assert (frame[scapy.IP].src, frame[scapy.IP].dst) == (NEVER, "255.255.255.255")
    assert it.addresses() == ["10.0.0.50"]
    assert "DHCPDECLINE" in (it.folder / "dnsmasq").read_text(encoding="utf-8")


@ON_LINUX
@DNSMASQ
@CLIENTS
def test_over_a_wire_that_loses(start):
    """5 % of the frames in each direction, for the time of a lease, which is renewed up to six times."""
    it = start()
    with it.lossy(100), dnsmasq(it.folder, "10.0.0.50", "10.0.0.50"):
        it.gets(r"10\.0\.0\.50")
        time.sleep(240 * TICK)
        it.gets(r"10\.0\.0\.50")
        assert run("coap-client-notls", "-m", "get", "coap://10.0.0.50/led") == "0\n"


@pytest.mark.needs("netns", "tun", "ip", "rt", "wasm-opt", "cc", "arm-none-eabi", "qemu-arm", "scapy")
@DNSMASQ
@CLIENTS
def test_on_the_board(on_board, tmp_path, flash):
    """In QEMU: the first lease, and another address when it's renewed."""
    (tmp_path / "flash").write_bytes(flash[:20000])
    device = on_board(tmp_path / "flash", f"-DHALF_A_SECOND={HALF_A_SECOND // 5}")
    it = Client(tmp_path, [*MACHINE, "-kernel", device], 0.1)
    with it.namespace.inside():
        with dnsmasq(tmp_path, "10.0.0.50", "10.0.0.50"):
            it.serves(it.gets(r"10\.0\.0\.50", 60))
        (tmp_path / "leases").unlink()
        with dnsmasq(tmp_path, "10.0.0.77", "10.0.0.77"):
            it.serves(it.gets(r"10\.0\.0\.77", 60))
            used = re.search(r"call stack (\d+)", run("coap-client-notls", "-m", "get", "coap://10.0.0.77/stats"))[1]
    ends(it)
    sizes = run("arm-none-eabi-size", device).splitlines()[1].split()
    assert int(sizes[1]) + int(sizes[2]) + int(used) < 65536


# ---- servers that make mistakes


def messages(rng: random.Random, count: int) -> Iterator[bytes]:
    """Yields servers' messages that scapy builds, with options of all kinds."""
    for _ in range(count):
        kind = rng.choice([OFFER, OFFER, ACK, ACK, NAK, rng.randrange(256)])
        address = rng.choice(["10.0.0.99", "10.0.0.50", NEVER, "224.0.0.1"])
        options = [("renewal_time", 1), ("rebinding_time", 2), ("router", "10.0.0.9"), (52, bytes([rng.randrange(5)]))]
        options += [(43, rng.randbytes(rng.randrange(256))), ("lease_time", rng.choice([0, 9, 10, 30]))]
        options += [(rng.choice([1, 3, 51, 52, 53, 54, 58]), rng.randbytes(rng.randrange(9)))]
        server = [("server_id", LINUX)] * (rng.random() < 0.9)
        every = [("message-type", kind), *server, ("lease_time", 120), *rng.sample(options, 3), "end"]
        fields = {"file": rng.randbytes(128), "sname": rng.randbytes(64)}
        if rng.random() < 0.3:  # options, with OVERLOAD among them, which counts only in the options field
            fields = {"file": bytes([52, 1, rng.randrange(5), 255]), "sname": b"\1\4" + rng.randbytes(4) + b"\xff"}
        client = bytes.fromhex(MAC.replace(":", ""))
        yield bytes(scapy.BOOTP(op=2, yiaddr=address, chaddr=client, **fields) / scapy.DHCP(options=every))


def damaged(rng: random.Random, data: bytes) -> bytes:
    """Returns the same bytes with changed ones, or with a part removed or repeated."""
    data = bytearray(data)
    for _ in range(rng.randrange(1, 5)):
        at = rng.randrange(len(data) + 1)
        kind = rng.randrange(5)
        if kind == 0 and at < len(data):
            data[at] ^= 1 << rng.randrange(8)
        elif kind == 1 and at < len(data):
            data[at] = rng.choice([0, 1, 4, 52, 53, 255])
        elif kind == 2:
            del data[at : at + rng.randrange(5)]
        elif kind == 3:
            data[at:at] = rng.randbytes(rng.randrange(5))
        elif rng.random() < 0.3:
            del data[at:]
    return bytes(data)


def frame_of(message: bytes) -> bytes:
    """Returns a frame with right headers, without a UDP checksum."""
    udp = struct.pack(">HHHH", 67, 68, 8 + len(message), 0) + message
    ip = struct.pack(">BBHIBBH", 0x45, 0, 20 + len(udp), 0, 64, 17, 0) + socket.inet_aton(LINUX) + b"\xff" * 4
    ip = ip[:10] + struct.pack(">H", scapy.checksum(ip)) + ip[12:]
    return b"\xff" * 6 + LINUX_MAC + b"\x08\x00" + ip + udp


@ON_LINUX
@DNSMASQ
def test_malformed(start):
    """In the states SELECTING, REQUESTING and RENEWING. It goes on, and gets the address of a right server."""
    scapy.random.seed(100)
    rng, it = random.Random(100), start()
    known = list(messages(rng, 100))

    def sends(count: int) -> None:
        for _ in range(count):
            asked = [frame for frame in it.relay.gave[-20:] if frame[36:38] == b"\x00\x43"][-1:]
            message = rng.choice(known)
            message = damaged(rng, message[:4] + (asked[0][46:50] if asked else bytes(4)) + message[8:])
            it.relay.to_host(frame_of(message) if rng.random() < 0.8 else damaged(rng, frame_of(message)))
            time.sleep(0.001)

    until(it.messages, "no message")
    sends(MALFORMED // 2)
    with dnsmasq(it.folder, "10.0.0.50", "10.0.0.50"):
        it.gets(r"10\.0\.0\.50")
        until(lambda: {frame.ciaddr for frame in it.messages(REQUEST)} > {NEVER}, "it renewed nothing")
        sends(MALFORMED // 2)
        it.gets(r"10\.0\.0\.50")
    assert it.process.poll() is None


# A device without a server for 20 hours: it prints the seconds in its last DISCOVER, and how many it sent.
LONELY = """
#include "dhcp.h"
#include <stdio.h>
static unsigned char memory[BSDUDP_ETHER_MEMORY(16, 4)] __attribute__((aligned(BSDUDP_ALIGNMENT)));
static uint8_t frame[BSDUDP_ETHER_ROOM];
int main(void)
{
    static struct bsdudp host;
    static struct dhcp it = {.host = &host, .config = {0, 0, 16, 4, 1500, 1}, .link = {.mac = {2, 0, 0, 0, 0, 1}},
                             .memory = memory, .memory_len = sizeof memory};
    unsigned tick, sent = 0, seconds = 0;
    if (dhcp_start(&it) != 0)
        return 1;
    for (tick = 0; tick < 2 * 20 * 3600; tick++) {
        dhcp_tick(&it);
        while (dhcp_transmit(&it, frame) > 0)
            if (frame[23] == 17 && frame[37] == 67) {
                seconds = (unsigned)frame[50] << 8 | frame[51];
                sent++;
            }
    }
    printf("%u %u\\n", seconds, sent);
    return bsdudp_end(&host);
}
"""


@pytest.mark.needs("cc", "asan")
def test_seconds_of_a_long_wait(library, tmp_path):
    """The field `secs` has 16 bits (RFC 2131, 2): after 18 hours it stays at its largest value. DISCOVER is repeated
    each 64 seconds, with one more or less (4.1)."""
    (tmp_path / "lonely.c").write_text(LONELY, encoding="utf-8")
    sources = [TOP / f"capi/examples/{it}.c" for it in ("dhcp", "dhcp_message")]
    words = ["-std=gnu99", "-fsanitize=address,undefined", "-fno-sanitize-recover=all", f"-I{TOP}/capi/examples"]
    made("cc", *words, f"-I{TOP}/capi/include", tmp_path / "lonely.c", *sources, library.archive, "-o",
         tmp_path / "lonely")  # fmt: skip
    seconds, sent = map(int, run(tmp_path / "lonely").split())
    assert seconds == 0xFFFF and abs(sent - 20 * 3600 // 64) < 20


# A client without a network. It obeys lines: `tick`; `frame LENGTH HEX`; `send`. After each one it prints its state, the type of
# the message that waits, and the frame that it sent.
STEPS = """
#include "dhcp.h"
#include <stdio.h>
static unsigned char memory[BSDUDP_ETHER_MEMORY(16, 4)] __attribute__((aligned(BSDUDP_ALIGNMENT)));
static uint8_t frame[BSDUDP_ETHER_ROOM];
int main(void)
{
    static struct bsdudp host;
    static struct dhcp it = {.host = &host, .config = {0, 0, 16, 4, 1500, 1}, .link = {.mac = {2, 0, 0, 0, 0, 1}},
                             .memory = memory, .memory_len = sizeof memory};
    char word[8];
    unsigned byte;
    size_t len, k;
    if (dhcp_start(&it) != 0)
        return 1;
    while (scanf("%7s", word) == 1) {
        len = 0;
        if (word[0] == 't') {
            dhcp_tick(&it);
        } else if (word[0] == 'f') {
            if (scanf("%zu", &len) != 1 || len > sizeof frame)
                return 1;
            for (k = 0; k < len && scanf("%2x", &byte) == 1; k++)
                frame[k] = (uint8_t)byte;
            dhcp_receive(&it, frame, len);
            len = 0;
        } else {
            len = dhcp_transmit(&it, frame);
        }
        printf("%d %d ", it.state, it.message);
        for (k = 0; k < len; k++)
            printf("%02x", frame[k]);
        printf("\\n");
        fflush(stdout);
    }
    return 0;
}
"""
INIT, SELECTING, REQUESTING, REBOOTING, BOUND = range(5)


class Steps:
    """A client without a network, and what it does next."""

    def __init__(self, program: pathlib.Path) -> None:
        self.child = subprocess.Popen([program], stdin=subprocess.PIPE, stdout=subprocess.PIPE, text=True)
        self.state = self.waits = 0

    def does(self, line: str) -> bytes:
        """Returns the frame that it sent."""
        self.child.stdin.write(line + "\n")
        self.child.stdin.flush()
        state, waits, sent = self.child.stdout.readline().split(" ")
        self.state, self.waits = int(state), int(waits)
        return bytes.fromhex(sent)

    def ticks(self) -> None:
        """Lets time pass until a message waits."""
        for _ in range(200):
            self.does("tick")
            if self.waits:
                return
        pytest.fail("no message waits")

    def replies(self, kind: int) -> None:
        """A server's reply to the last message arrives."""
        options = [("message-type", kind), ("server_id", LINUX), ("lease_time", 120), ("subnet_mask", "255.0.0.0"), "end"]
        client = bytes.fromhex(MAC.replace(":", ""))
        head = scapy.BOOTP(op=2, xid=self.xid, yiaddr="10.0.0.50", chaddr=client)
        frame = frame_of(bytes(head / scapy.DHCP(options=options)))
        self.does(f"frame {len(frame)} {frame.hex()}")

    def sends(self) -> int:
        """Returns the type of the message that it sends, or 0."""
        frame = self.does("send")
        if frame[36:38] != b"\x00\x43":
            return 0
        self.xid = int.from_bytes(frame[46:50], "big")
        return option(scapy.Ether(frame), "message-type")


@pytest.fixture
def steps(library, tmp_path) -> Iterator[Steps]:
    """A client that waits for offers."""
    (tmp_path / "steps.c").write_text(STEPS, encoding="utf-8")
    sources = [TOP / f"capi/examples/{it}.c" for it in ("dhcp", "dhcp_message")]
    words = ["-std=gnu99", "-fsanitize=address,undefined", "-fno-sanitize-recover=all", f"-I{TOP}/capi/examples"]
    made("cc", *words, f"-I{TOP}/capi/include", tmp_path / "steps.c", *sources, library.archive, "-o", tmp_path / "steps")
    it = Steps(tmp_path / "steps")
    with it.child:
        it.ticks()
        assert it.sends() == DISCOVER and it.state == SELECTING
        yield it
        it.child.stdin.close()
    assert it.child.returncode == 0


@pytest.mark.needs("cc", "asan", "scapy")
def test_refusal_in_the_round_of_a_request(steps):
    """A REQUEST that is due again isn't sent after its NAK: it would name neither an address nor a server (4.3.2)."""
    steps.replies(OFFER)
    assert steps.sends() == REQUEST and steps.state == REQUESTING
    steps.ticks()
    steps.replies(NAK)
    assert steps.state == INIT and steps.sends() == 0


@pytest.mark.needs("cc", "asan", "scapy")
def test_reply_before_the_request(steps):
    """An ACK or NAK with the DISCOVER's number, before a REQUEST left, grants and refuses nothing (3.1)."""
    steps.replies(OFFER)
    for kind in (ACK, NAK):
        steps.replies(kind)
        assert steps.state == REQUESTING and steps.waits == REQUEST
    assert steps.sends() == REQUEST
    steps.replies(ACK)
    assert steps.state == BOUND


@pytest.mark.needs("cc", "asan", "scapy")
def test_grant_in_the_round_of_a_request(steps):
    """A REQUEST that is due again isn't sent after its ACK."""
    steps.replies(OFFER)
    assert steps.sends() == REQUEST
    steps.ticks()
    steps.replies(ACK)
    assert steps.state == BOUND and steps.waits == 0 and steps.sends() == 0


READER = """
#include "dhcp_message.h"
#include <stdio.h>
#include <stdlib.h>
#include <string.h>
int main(void)
{
    static const uint8_t mac[6] = {2, 0, 0, 0, 0, 1};
    int high, low;
    while ((high = getchar()) >= 0 && (low = getchar()) >= 0) {
        const size_t len = (size_t)(high << 8 | low);
        uint8_t *bytes = malloc(len + 1), *exact = realloc(NULL, len);
        struct dhcp_lease it;
        uint32_t in_frame;
        if (bytes == NULL || fread(bytes, 1, len, stdin) != len)
            return 1;
        memcpy(exact, bytes, len);
        in_frame = dhcp_len(exact, len, mac);
        if (in_frame > 0 && dhcp_read(&it, exact + DHCP_HEAD, in_frame, 0x01020304, mac))
            printf("%u %u %u %u %u %u %u %u\\n", it.type, it.addr, it.mask, it.router, it.server, it.seconds,
                   it.t1, it.t2);
        else
            printf("none\\n");
        free(bytes);
        free(exact);
    }
    return 0;
}
"""
# The options that the device reads, by their numbers in RFC 2132, with their place in the reader's line.
READ = {53: 0, 1: 2, 3: 3, 54: 4, 51: 5, 58: 6, 59: 7}


def what_it_says(frame: bytes) -> str:
    """Returns the line of the reader for a frame, by RFC 791, 768, 2131 (2, 4.1) and 2132."""
    ip, udp, words = frame[14:34], frame[34:42], lambda it: int.from_bytes(it, "big")
    total, length = words(frame[16:18]), words(frame[38:40])
    if len(frame) < 42 or frame[:6] not in (b"\xff" * 6, b"\2\0\0\0\0\1") or frame[12:15] != b"\x08\x00\x45":
        return "none"
    if scapy.checksum(ip) or ip[9] != 17 or words(ip[6:8]) & 0x3FFF or not 28 <= total <= len(frame) - 14:
        return "none"
    if udp[:4] != b"\x00\x43\x00\x44" or not 8 <= length <= total - 20:
        return "none"
    data = frame[42 : 34 + length]
    pseudo = ip[12:20] + struct.pack(">HH", 17, length)
    if udp[6:] != b"\0\0" and scapy.checksum(pseudo + udp + data):
        return "none"
    head = data[:3] + data[4:8] + data[28:34] + data[236:240]
    if head != b"\2\1\6\1\2\3\4\2\0\0\0\0\1\x63\x82\x53\x63":
        return "none"
    found, overload = [0, words(data[16:20]), 0, 0, 0, 0, 0, 0], [0]
    if not options_of(data[240:], found, overload) or overload[0] > 3:
        return "none"
    if overload[0] & 1 and not options_of(data[108:236], found, [0]):
        return "none"
    if overload[0] & 2 and not options_of(data[44:108], found, [0]):
        return "none"
    return " ".join(map(str, found)) if found[4] else "none"


def options_of(data: bytes, found: list[int], overload: list[int]) -> bool:
    """Reads the options of one field. Returns False if one doesn't fit, or END is missing."""
    while data and data[0] != 255:
        if data[0] == 0:
            data = data[1:]
            continue
        if len(data) < 2 or len(data) < 2 + data[1]:
            return False
        code, value, data = data[0], data[2 : 2 + data[1]], data[2 + data[1] :]
        fits = len(value) == 1 if code in (52, 53) else len(value) == 4 or code == 3 and value and len(value) % 4 == 0
        if code == 52 and fits:
            overload[0] = value[0]
        elif code in READ and fits:
            found[READ[code]] = int.from_bytes(value[:4], "big")
    return bool(data)


@pytest.mark.needs("cc", "asan", "scapy")
def test_reads_what_a_message_says(tmp_path):
    """The same frames, in memory of exactly their size, with a sanitizer: the device reads what the RFCs say."""
    rng = random.Random(100)
    scapy.random.seed(100)
    known = [it[:4] + b"\1\2\3\4" + it[8:] for it in messages(rng, 200)]
    frames = [frame_of(rng.choice(known)) for _ in range(MALFORMED)]
    changed = [rng.choice([damaged, with_other_headers, with_other_message])(rng, it) for it in frames]
    frames = changed + frames[: MALFORMED // 4]
    frames = [with_sum(it) if rng.random() < 0.3 else it for it in frames]
    (tmp_path / "reader.c").write_text(READER, encoding="utf-8")
    made("cc", "-std=c99", "-g", "-fsanitize=address,undefined", "-fno-sanitize-recover=all", f"-I{TOP}/capi/examples",
         tmp_path / "reader.c", TOP / "capi/examples/dhcp_message.c", "-o", tmp_path / "reader")  # fmt: skip
    data = b"".join(len(it).to_bytes(2, "big") + it for it in frames)
    done = subprocess.run([tmp_path / "reader"], input=data, capture_output=True, check=False)
    assert done.returncode == 0, done.stderr[-1000:].decode()
    wanted, came = [what_it_says(it) for it in frames], done.stdout.decode().splitlines()
    assert [(a, b, c.hex()) for a, b, c in zip(wanted, came, frames) if a != b] == [] and len(came) == len(frames)
    assert len(frames) // 5 < wanted.count("none") < len(frames) * 4 // 5


def with_other_headers(rng: random.Random, frame: bytes) -> bytes:
    """Returns a frame with other lengths or another field of its headers. The header's sum is mostly right again."""
    ip, at = bytearray(frame[14:42]), rng.choice([0, 2, 3, 3, 6, 7, 8, 9, 21, 23, 24, 25, 25])
    ip[at] = (ip[at] + rng.choice([-9, -1, 1, 2, 16, 32, 64])) % 256
    if rng.random() < 0.1:
        ip[2:4] = bytes([0, rng.randrange(30)])
    if rng.random() < 0.8:
        ip[10:12] = struct.pack(">H", scapy.checksum(bytes(ip[:10]) + b"\0\0" + bytes(ip[12:20])))
    return frame[:14] + bytes(ip) + frame[42:]


def with_other_message(rng: random.Random, frame: bytes) -> bytes:
    return frame_of(damaged(rng, frame[42:]))


def with_sum(frame: bytes) -> bytes:
    """Returns a frame with a UDP checksum, if its lengths are right."""
    if len(frame) < 42 or int.from_bytes(frame[38:40], "big") != len(frame) - 34:
        return frame
    udp = frame[34:40] + b"\0\0" + frame[42:]
    value = scapy.checksum(frame[26:34] + struct.pack(">HH", 17, len(udp)) + udp) or 0xFFFF
    return frame[:40] + value.to_bytes(2, "big") + frame[42:]
