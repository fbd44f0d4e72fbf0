"""CoAP (RFC 7252, RFC 7959), with Debian's coap-client as the peer, and with messages that scapy builds and reads."""
import re
import socket
import time

import pytest

from tests.device.conftest import COAP, DEVICE, LINUX, run

try:
    from scapy.contrib import coap as scapy
except ImportError:
    pass  # the tests are skipped

pytestmark = [pytest.mark.slow, pytest.mark.needs("scapy", "coap-client")]

CON, NON, ACK, RST = range(4)
EMPTY, GET, POST, PUT, DELETE = range(5)
CHANGED, CONTENT, BAD_REQUEST, BAD_OPTION, NOT_FOUND, NOT_ALLOWED, NOT_ACCEPTABLE, NO_PROXY = (
    kind << 5 | detail for kind, detail in ((2, 4), (2, 5), (4, 0), (4, 2), (4, 4), (4, 5), (4, 6), (5, 5))
)
PATH, ACCEPT, BLOCK2 = 11, 17, 23
PING = b"\x40\x00\xff\xff"
ids = iter(range(1000, 60000))


def message(kind, code, *path, token=b"", options=(), payload=b"", number=None):
    """Returns a message that scapy builds, with a new id."""
    every = [*((PATH, it.encode()) for it in path), *options]
    head = scapy.CoAP(
        type=kind, code=code, msg_id=next(ids) if number is None else number, token=token, options=every,
        paymark=b"\xff" if payload else b"",
    )  # fmt: skip
    return bytes(head) + payload


def answers(it, *messages):
    """Returns all that arrives for messages, up to the reset of a ping that follows them."""
    for one in messages:
        it.send(one)
    it.send(PING)
    came = [it.recv(2048)]
    while came[-1] != b"\x70\x00\xff\xff":
        came.append(it.recv(2048))
    return came[:-1]


def answer(it, one):
    """Returns the only response to a message, read by scapy: its code, its options, and its payload."""
    came = answers(it, one)
    assert len(came) == 1, f"{one.hex()} is answered by {[it.hex() for it in came]}"
    read = scapy.CoAP(came[0])
    kind, confirmable = read.type, one[0] >> 4 & 3 == CON
    assert kind == (ACK if confirmable else NON)
    assert read.msg_id == int.from_bytes(one[2:4], "big") or not confirmable
    assert read.token == one[4 : 4 + (one[0] & 15)]
    names = {"ETag": 4, "Content-Format": 12}
    options = {names.get(name, name): value for name, value in read.options}
    return read.code, options, bytes(read.payload)


def coap(method, path, *words):
    return run("coap-client-notls", "-B", "20", "-m", method, *words, f"coap://10.0.0.1/{path}")


# ---- coap-client


def test_lists_its_resources(device):
    assert set(re.findall(r"</([^>]*)>", coap("get", ".well-known/core"))) == {"led", "stats", "drops", "flash", "ram"}


def test_says_what_was_dropped(device):
    """Datagrams for a closed port are in /drops, and so is the neighbour that sent them."""

    def number(name):
        found = re.search(rf"(?m)^{name} (\d+)$", coap("get", "drops"))
        return int(found[1]) if found else 0

    with socket.socket(socket.AF_INET, socket.SOCK_DGRAM) as it:
        before = number("udp.noport")
        for _ in range(3):
            it.sendto(b"nobody", (DEVICE, 9))
        assert number("udp.noport") == before + 3
    assert re.search(rf"(?m)^neighbour {re.escape(LINUX)}$", coap("get", "drops"))
    assert "udp.noport" not in coap("get", "stats")


@pytest.mark.parametrize("way", [[], ["-N"]], ids=["confirmable", "not confirmable"])
def test_put_and_get(device, way):
    for value in "101":
        assert coap("put", "led", "-e", value, *way) == ""
        assert coap("get", "led", *way) == f"{value}\n"


@pytest.mark.parametrize(
    "method, path, words, code",
    [
        ("get", "", [], "4.04"),
        ("get", "nothing", [], "4.04"),
        ("get", "led/more", [], "4.04"),
        ("put", "nothing", ["-e", "1"], "4.04"),
        ("put", "stats", ["-e", "1"], "4.05"),
        ("put", ".well-known/core", ["-e", "1"], "4.05"),
        ("post", "led", ["-e", "1"], "4.05"),
        ("delete", "led", [], "4.05"),
        ("fetch", "led", [], "4.05"),
        ("put", "led", ["-e", "2"], "4.00"),
        ("get", "led", ["-A", "42"], "4.06"),
        ("get", "led", ["-O", "65001,x"], "4.02"),
        ("get", "led", ["-O", "1,x"], "4.02"),
    ],
)
def test_refused(device, method, path, words, code):
    assert coap(method, path, *words).split()[0] == code


@pytest.mark.parametrize("size", [16, 64])
def test_text_by_small_blocks(device, size):
    assert coap("get", ".well-known/core", "-b", size) == coap("get", ".well-known/core")


def test_file_by_blocks(device, tmp_path):
    """Its 4,096 blocks."""
    coap("get", "flash", "-o", tmp_path / "came")
    assert (tmp_path / "came").read_bytes() == device.flash


def test_over_a_wire_that_loses(device):
    """Each request is carried out once, and gets its response."""
    with device.lossy(1):
        for value in "10":
            assert coap("put", "led", "-e", value) == ""
            assert coap("get", "led") == f"{value}\n"
        assert "</ram>" in coap("get", ".well-known/core", "-b", "16")


# ---- scapy's messages


@pytest.mark.parametrize("kind", [CON, NON])
@pytest.mark.parametrize("length", range(9))
def test_token_comes_back(device, client, kind, length):
    code, _, payload = answer(client(COAP), message(kind, GET, "led", token=bytes(range(length))))
    assert code == CONTENT and payload in (b"0", b"1")


@pytest.mark.parametrize("exponent", range(7))
def test_block(device, client, exponent):
    """Each block size at its limits. If it's larger than the server's, the server uses its own, from the same byte
    on."""
    it, asked = client(COAP), 16 << exponent
    for number in (0, 1, 2, 15, 16, len(device.flash) // asked - 1):
        option = (BLOCK2, (number << 4 | exponent).to_bytes(3, "big").lstrip(b"\0"))
        code, options, payload = answer(it, message(CON, GET, "flash", options=[option]))
        told = int.from_bytes(options[BLOCK2], "big")
        size, start = 16 << (told & 7), (told >> 4) << (4 + (told & 7))
        assert (code, size, start) == (CONTENT, min(asked, 256), number * asked)
        assert payload == device.flash[start : start + size]
        assert bool(told & 8) == (start + size < len(device.flash))


def test_block_behind_the_end(device, client):
    it = client(COAP)
    for exponent in range(7):
        number = len(device.flash) // (16 << exponent)
        option = (BLOCK2, (number << 4 | exponent).to_bytes(3, "big"))
        assert answer(it, message(CON, GET, "flash", options=[option]))[0] == BAD_REQUEST
    for block in (b"\x07", b"\x17", b"\xff\xff\xff"):  # the size that is none
        assert answer(it, message(CON, GET, "flash", options=[(BLOCK2, block)]))[0] == BAD_REQUEST


@pytest.mark.parametrize(
    "options, code",
    [
        ([(3, b"board.example")], CONTENT),
        ([(3, b"")], BAD_OPTION),
        ([(3, b"a"), (3, b"b")], BAD_OPTION),
        ([(7, b"\x16\x33")], CONTENT),
        ([(7, b"\x01\x16\x33")], BAD_OPTION),
        ([(15, b"a=b"), (15, b"c")], CONTENT),
        ([(ACCEPT, b"")], CONTENT),
        ([(ACCEPT, b"\x2a")], NOT_ACCEPTABLE),
        ([(ACCEPT, b"\x00\x00\x00")], BAD_OPTION),
        ([(ACCEPT, b""), (ACCEPT, b"")], BAD_OPTION),
        ([(BLOCK2, b"\x00\x00\x00\x00")], BAD_OPTION),
        ([(6, b""), (60, b"\x01"), (258, b"\x02")], CONTENT),
        ([(9, b"")], BAD_OPTION),
        ([(27, b"\x00")], BAD_OPTION),
        ([(35, b"coap://10.0.0.9/led")], NO_PROXY),
        ([(39, b"http")], NO_PROXY),
    ],
)
def test_option(device, client, options, code):
    """With an unknown critical option, a confirmable request gets an error, and another one is ignored (5.4.1)."""
    it = client(COAP)
    if max(number for number, _ in options) < 269:  # scapy 2.5 writes longer steps the wrong way round
        assert answer(it, message(CON, GET, "led", options=options))[0] == code
        if code in (BAD_OPTION, NO_PROXY):
            assert answers(it, message(NON, GET, "led", options=options)) == []


@pytest.mark.parametrize("path", ["led/", "/led", "led\0", "l" * 31, "l" * 255, "stats/led"])
def test_path_that_no_resource_has(device, client, path):
    it = client(COAP)
    assert answer(it, message(CON, GET, *path.split("/")))[0] == NOT_FOUND
    assert answer(it, message(CON, GET, "led", *["a"] * 40))[0] == NOT_FOUND
    assert answer(it, message(CON, GET, "a/b"))[0] == NOT_FOUND


def test_request_that_comes_again_gets_the_same_answer(device, client):
    it = client(COAP)
    request = message(CON, GET, "stats")
    first = answers(it, request)
    time.sleep(2 * device.tick)
    assert first == answers(it, request) != answers(it, message(CON, GET, "stats"))


def test_last_answers_are_kept(device, client):
    """The limit is six, also for requests within one tick."""
    it = client(COAP)
    requests = [message(CON, GET, "stats") for _ in range(15)]
    first = [answers(it, one) for one in requests]
    time.sleep(2 * device.tick)
    assert [answers(it, one) for one in requests[-6:]] == first[-6:]
    assert answers(it, requests[0]) != first[0]


def test_request_that_comes_again_is_not_done_again(device, client):
    """A late copy of an older PUT doesn't undo a newer one."""
    it = client(COAP)
    older, newer = (message(CON, PUT, "led", payload=it) for it in (b"1", b"0"))
    first = [answers(it, one) for one in (older, newer)]
    assert [one[0][1] for one in first] == [CHANGED, CHANGED]
    assert answers(it, older) == first[0]
    assert answer(it, message(CON, GET, "led"))[2] == b"0"
    again = message(NON, PUT, "led", payload=b"1")
    assert len(answers(it, again)) == 1
    assert answers(it, newer) == first[1]
    assert answers(it, again) == []


def test_same_id_from_another_client_is_another_request(device, client):
    one, other = client(COAP), client(COAP)
    set_on, set_off = (message(CON, PUT, "led", payload=it, number=77) for it in (b"1", b"0"))
    for it, request, value in ((one, set_on, b"1"), (other, set_off, b"0"), (one, set_on, b"0")):
        assert answer(it, request)[0] == CHANGED
        assert answer(it, message(CON, GET, "led"))[2] == value


@pytest.mark.parametrize(
    "sent, is_reset",
    [
        ("40000001", True),  # empty: a ping
        ("4100000101", True),  # empty, with a token
        ("400000010a", True),  # empty, with a byte behind it
        ("49010001" + "00" * 9, True),  # a token of 9 bytes
        ("4f010001" + "00" * 15, True),
        ("44010001aabb", True),  # shorter than its token
        ("40010001ff", True),  # a marker with nothing behind it
        ("40010001f0", True),  # an option's delta of 15
        ("400100010f", True),  # an option's length of 15
        ("40010001d0", True),  # an option that ends within its delta
        ("40010001e000", True),
        ("40010001b46c6564", True),  # an option longer than the message
        ("40010001be0000", True),
        ("40010001e0ffff", True),  # an option's number above 65,535
        ("40200001", True),  # a code of class 1
        ("40c00001", True),  # of class 6
        ("40e00001", True),  # of class 7
        ("40450001", True),  # an answer that nobody waits for
        ("00010001", False),  # another version
        ("80010001", False),
        ("c0010001", False),
        ("400100", False),  # no message
        ("40", False),
        ("", False),
        ("60450001", False),  # an acknowledgement
        ("60000001", False),
        ("70000001", False),  # a reset
    ],
)
def test_malformed(device, client, sent, is_reset):
    """Section 4: a confirmable message is reset if it has an id. Others are ignored."""
    it, data = client(COAP), bytes.fromhex(sent)
    assert answers(it, data) == ([b"\x70\x00" + data[2:4]] if is_reset else [])
    if is_reset:
        assert answers(it, bytes([data[0] | NON << 4]) + data[1:]) == []


def test_broadcast_is_not_answered(device, client):
    it = client()
    it.setsockopt(socket.SOL_SOCKET, socket.SO_BROADCAST, 1)
    it.sendto(message(NON, GET, "led"), ("10.0.0.255", COAP))
    it.connect(("10.0.0.1", COAP))
    assert answers(it) == []
