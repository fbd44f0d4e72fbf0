"""Malformed packets that scapy builds from a seed: the only responses are those in the RFCs, and both servers keep
running."""
import random
import re
import select
import time

import pytest

from tests.device.conftest import COAP, DEVICE, TFTP, run
from tests.device.test_coap import PING, answers, coap, message
from tests.device.test_tftp import ACK, DATA, ERROR, NO_FILE, RRQ, UNKNOWN, Client

try:
    import scapy.all as scapy
    from scapy.contrib.coap import CoAP
    from scapy.layers.tftp import TFTP as Packet
    from scapy.layers.tftp import TFTP_ACK, TFTP_DATA, TFTP_ERROR, TFTP_OACK, TFTP_RRQ, TFTP_WRQ
except ImportError:
    pass  # the tests are skipped

pytestmark = [pytest.mark.slow, pytest.mark.needs("scapy", "coap-client", "curl")]

COUNT = 1000


def damaged(rng, data):
    """Returns the same packet, or one with changed bits or bytes, or with a part removed or repeated."""
    data = bytearray(data)
    for _ in range(rng.randrange(4)):
        at = rng.randrange(len(data) + 1)
        kind = rng.randrange(4)
        if kind == 0 and at < len(data):
            data[at] ^= 1 << rng.randrange(8)
        elif kind == 1:
            del data[at : at + rng.randrange(5)]
        elif kind == 2:
            data[at:at] = rng.randbytes(rng.randrange(5))
        else:
            del data[at:]
    return bytes(data)


def coap_packet(rng):
    if rng.random() < 0.15:
        return bytes(scapy.fuzz(CoAP()))
    numbers = [11, 11, 23, 17, 15, 3, 6, 27, 60, 35]
    texts = [b"led", b"flash", b"stats", b"\x06", b"", b"0", rng.randbytes(rng.randrange(20))]
    options = [(rng.choice(numbers), rng.choice(texts)) for _ in range(rng.randrange(5))]
    kind, code = rng.choice([0, 0, 0, 1, 1, 3]), rng.choice([0, 1, 1, 1, 2, 3, 4, 31, 32, 69, 255])
    payload = b"\xff" + rng.choice([b"", b"1", b"0", b"on"]) if rng.random() < 0.4 else b""
    token = rng.randbytes(rng.randrange(9))
    return damaged(rng, message(kind, code, token=token, options=options, number=rng.randrange(65535)) + payload)


def option_ends(data, at):
    """Returns the end of the options that begin at an offset, or None if they're malformed (RFC 7252, 3 and 3.1)."""
    number = 0
    while at < len(data) and data[at] != 0xFF:
        steps, at = [data[at] >> 4, data[at] & 15], at + 1
        for which, step in enumerate(steps):
            size = {13: 1, 14: 2}.get(step, 0)
            if step == 15 or at + size > len(data):
                return None
            if size:
                steps[which] = {1: 13, 2: 269}[size] + int.from_bytes(data[at : at + size], "big")
                at += size
        number, at = number + steps[0], at + steps[1]
        if at > len(data) or number > 65535:
            return None
    return at


def what_is_due(data):
    """Returns what a server sends for a message: nothing, a reset, or a response to a request (RFC 7252, 4.2 and
    4.3)."""
    if len(data) < 4 or data[0] >> 6 != 1 or data[0] >> 4 & 3 > 1:
        return "nothing"
    is_confirmable, token = data[0] >> 4 & 3 == 0, data[0] & 15
    end = option_ends(data, 4 + token) if token < 9 and 4 + token <= len(data) else None
    is_whole = end is not None and (end == len(data) or end + 1 < len(data))
    if not is_whole or not 1 <= data[1] <= 31:
        return "reset" if is_confirmable else "nothing"
    return "answer" if is_confirmable else "answer or nothing"  # an option may silence it


def test_coap(device, client):
    scapy.random.seed(79)
    rng, it, counted = random.Random(79), client(COAP), {}
    for _ in range(COUNT):
        data = coap_packet(rng)
        due, came = what_is_due(data), answers(it, data) if data[:4] != PING else []
        if due == "reset":
            assert came == [b"\x70\x00" + data[2:4]], data.hex()
        elif due == "nothing":
            assert came == [], data.hex()
        else:
            assert len(came) == 1 or (not came and due != "answer"), data.hex()
            assert all(one[1] >> 5 in (2, 4, 5) for one in came), data.hex()
        counted[due] = counted.get(due, 0) + 1
    assert min(counted.values()) > COUNT / 40 and len(counted) == 4, counted
    assert coap("get", "led") in ("0\n", "1\n")


def tftp_packet(rng):
    kinds = [
        TFTP_RRQ(filename=rng.choice(["nothing", "flash\0", "x" * 600]), mode=rng.choice(["octet", "mail", ""])),
        TFTP_WRQ(filename=rng.choice(["nothing", "flash"]), mode="octet"),
        TFTP_DATA(block=rng.randrange(65536)) / scapy.Raw(rng.randbytes(rng.randrange(600))),
        TFTP_ACK(block=rng.randrange(65536)),
        TFTP_ERROR(errorcode=rng.randrange(9), errormsg="x"),
        TFTP_OACK(),
    ]
    whole = Packet() / rng.choice(kinds)
    return damaged(rng, bytes(scapy.fuzz(Packet()) if rng.random() < 0.2 else whole) + b"blksize\0" * rng.randrange(2))


def heard(it, sentinel):
    """Returns all that arrived at a client, with the source ports, after its messages were processed: a later request
    of another client is refused."""
    assert sentinel.ask(RRQ, "nothing")[:2] == (ERROR, NO_FILE)
    came = []
    while select.select([it.socket], [], [], 0)[0]:
        came.append((*it.came()[:2], it.port))
    return came


def test_tftp(device, client, tmp_path):
    """Sends to the server's port, and from another port to the port of a transfer, which continues."""
    scapy.random.seed(79)
    rng, stranger, reader, sentinel = random.Random(79), Client(client), Client(client), Client(client)
    reader.ask(RRQ, "flash")
    for number in range(1, COUNT // 2 + 1):
        reader.ack(number)
        assert reader.block(number + 1) == device.flash[512 * number : 512 * (number + 1)]
        for port in (reader.port, TFTP):
            stranger.port, data = port, tftp_packet(rng)
            stranger.send(data)
            came = heard(stranger, sentinel)
            assert {it[0] for it in came} <= {DATA, ACK, ERROR}, data.hex()
            refused = [it[:2] for it in came if it[2] == reader.port]
            is_due = port == reader.port and len(data) >= 4 and data[:2] != b"\0\5"
            assert refused == [(ERROR, UNKNOWN)] * is_due, data.hex()
    reader.give_up()
    run("curl", "-sS", "-m", "50", "-o", tmp_path / "came", f"tftp://{DEVICE}/flash")
    assert (tmp_path / "came").read_bytes() == device.flash


def test_all_buffers_are_free_at_the_end(device):
    """After the last transfers have ended."""
    end = time.monotonic() + 60 * device.tick
    while True:
        said = coap("get", "stats")
        pools = re.findall(r"free \w+ (\d+) of (\d+)", said)
        if len(pools) == 2 and all(free == of for free, of in pools):
            return
        assert time.monotonic() < end, said
        time.sleep(device.tick)
