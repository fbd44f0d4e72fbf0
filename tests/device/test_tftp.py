"""TFTP (RFC 1350, 2347 to 2349), with curl and Debian's tftp as peers, and with a client in this file that makes
mistakes."""
import contextlib
import select
import socket
import subprocess
import time

import pytest

from tests.device.conftest import BOARD, DEVICE, HASTY, TFTP, run

pytestmark = [pytest.mark.slow, pytest.mark.needs("curl", "tftp")]

RRQ, WRQ, DATA, ACK, ERROR, OACK = range(1, 7)
IN_USE, NO_FILE, NO_ACCESS, FULL, ILLEGAL, UNKNOWN = range(6)


def url(name):
    return f"tftp://{DEVICE}/{name}"


def curl(*words):
    return ["curl", "-sS", "-m", "50", *map(str, words)]


def stored(device, folder, length, *words):
    """Writes this number of bytes to "ram" with curl, reads them back, and compares them."""
    data = device.flash[:length]
    (folder / "data").write_bytes(data)
    run(*curl(*words, "-T", folder / "data", url("ram")))
    read_back(folder, data)


def read_back(folder, data):
    """With Debian's tftp, because curl 7.88 refuses an empty file."""
    run("tftp", "-m", "binary", DEVICE, "-c", "get", "ram", folder / "back")
    assert (folder / "back").read_bytes() == data


# ---- Linux programs


@pytest.mark.parametrize("size", [512, 1428, 8192])
def test_file_by_curl(device, tmp_path, size):
    """1 MB. A packet of 8,196 bytes has six fragments."""
    run(*curl("--tftp-blksize", size, "-o", tmp_path / "came", url("flash")))
    assert (tmp_path / "came").read_bytes() == device.flash


def test_file_by_tftp(device, tmp_path):
    run("tftp", "-m", "binary", DEVICE, "-c", "get", "flash", tmp_path / "came")
    assert (tmp_path / "came").read_bytes() == device.flash


@pytest.mark.parametrize("size", [512, 1428, 8192])
def test_write_and_read(device, tmp_path, size):
    """The largest file, which is a multiple of some block sizes, and an empty one."""
    most = min(device.most, len(device.flash))
    for length in (most, most - 1, 0):
        stored(device, tmp_path, length, "--tftp-blksize", size)


def test_more_than_it_takes(device, tmp_path):
    """With tsize, curl gets an error at once; without it, when the memory is full."""
    (tmp_path / "data").write_bytes(bytes(device.most + 1))
    run(*curl("-T", tmp_path / "data", url("ram")), status=70)
    run(*curl("--tftp-no-options", "-T", tmp_path / "data", url("ram")), status=70)
    stored(device, tmp_path, 1000)


@pytest.mark.parametrize("size", [1428, 8192])
def test_clients_at_once(device, tmp_path, size):
    """Two clients read while a third one writes."""
    data = device.flash[: min(device.most, len(device.flash))]
    (tmp_path / "data").write_bytes(data)
    words = [["-o", tmp_path / it, url("flash")] for it in "01"] + [["-T", tmp_path / "data", url("ram")]]
    children = [subprocess.Popen(curl("--tftp-blksize", size, *it)) for it in words]
    assert [it.wait(60) for it in children] == [0, 0, 0]
    assert (tmp_path / "0").read_bytes() == (tmp_path / "1").read_bytes() == device.flash
    read_back(tmp_path, data)


# ---- a client in this file


def word(number):
    return number.to_bytes(2, "big")


def request(opcode, name, mode="octet", **options):
    texts = [name, mode, *(str(it) for pair in options.items() for it in pair)]
    return word(opcode) + b"".join(it.encode() + b"\0" for it in texts)


class Client:
    """A client with its own socket. `port` is the port of the server's transfer, after its first message."""

    def __init__(self, opened):
        self.socket, self.port = opened(), TFTP

    def send(self, data):
        self.socket.sendto(data, (DEVICE, self.port))

    def ask(self, *words, **options):
        self.port = TFTP
        self.send(request(*words, **options))
        return self.came()

    def came(self):
        """Returns the next message: its opcode, its number, and the rest. An option acknowledgement has no number."""
        data, place = self.socket.recvfrom(65536)
        assert place[0] == DEVICE
        self.port = place[1]
        opcode = int.from_bytes(data[:2], "big")
        if opcode == OACK:
            texts = data[2:].split(b"\0")
            assert texts.pop() == b""
            return opcode, dict(zip(texts[::2], texts[1::2]))
        return opcode, int.from_bytes(data[2:4], "big"), data[4:]

    def block(self, number):
        """Returns the bytes of this block. On a busy computer the one before it may be repeated first."""
        opcode, told, data = self.came()
        while (opcode, told) == (DATA, number - 1):
            opcode, told, data = self.came()
        assert (opcode, told) == (DATA, number)
        return data

    def drained(self):
        """Returns all that has arrived."""
        came = []
        while select.select([self.socket], [], [], 0)[0]:
            came.append(self.came())
        return came

    def ack(self, number):
        self.send(word(ACK) + word(number))

    def give_up(self):
        """Ends the transfer, and waits until the device refuses a later message."""
        self.send(word(ERROR) + word(0) + b"over\0")
        self.port = TFTP
        self.send(word(9) + word(0))
        while self.came()[:2] != (ERROR, ILLEGAL):
            pass


@pytest.fixture
def peer(device, client):
    """peer() returns a Client. Its transfers are aborted at the end of the test."""
    peers = []

    def make():
        peers.append(Client(client))
        return peers[-1]

    yield make
    for it in peers:
        with contextlib.suppress(OSError):
            it.give_up()


def written(it, data, size):
    """Writes bytes to "ram", and repeats a block that isn't acknowledged within 30 ms."""
    it.socket.settimeout(0.03)
    sent, wanted = request(WRQ, "ram", blksize=size), (OACK, {b"blksize": str(size).encode()})
    for number in range(1, len(data) // size + 3):
        for _ in range(50):
            it.send(sent)
            with contextlib.suppress(TimeoutError):
                while it.came()[:2] != wanted:
                    pass
                break
        else:
            raise AssertionError(f"no {wanted}")
        sent, wanted = word(DATA) + word(number) + data[size * (number - 1) : size * number], (ACK, number)


@pytest.mark.parametrize("size, length, share", [(1428, 1 << 20, 0.05), (8192, 1 << 18, 0.02)])
@pytest.mark.parametrize("running", [HASTY], indirect=True)
def test_over_a_wire_that_loses(device, peer, tmp_path, size, length, share):
    """curl reads 1 MB. The client in this file writes it: curl repeats after 5 seconds, when a server with such short
    ticks has given up."""
    with device.lossy(size, share):
        run(*curl("--tftp-blksize", size, "-o", tmp_path / "came", url("flash")))
        written(peer(), device.flash[:length], size)
    assert (tmp_path / "came").read_bytes() == device.flash
    read_back(tmp_path, device.flash[:length])


@pytest.mark.parametrize("size", [512, 1428])
@pytest.mark.parametrize("running", [BOARD], indirect=True)
def test_board_over_a_wire_that_loses(device, tmp_path, size):
    """curl writes the largest file that the board accepts, and reads it back."""
    (tmp_path / "data").write_bytes(device.flash[: device.most])
    with device.lossy(size):
        run(*curl("--tftp-blksize", size, "-T", tmp_path / "data", url("ram")))
    read_back(tmp_path, device.flash[: device.most])


def stranger(peer, port):
    """Sends from another client to a transfer's port. Returns the response, after all earlier messages were
    processed."""
    it = peer()
    it.port = port
    it.ack(1)
    return it.came()


def test_each_transfer_has_a_port(device, peer):
    one, other = peer(), peer()
    for it in (one, other):
        assert it.ask(RRQ, "flash") == (DATA, 1, device.flash[:512])
    assert len({one.port, other.port, TFTP}) == 3
    for number in (2, 3):
        for it in (one, other):
            it.ack(number - 1)
            assert it.block(number) == device.flash[512 * (number - 1) : 512 * number]


@pytest.mark.parametrize(
    "opcode, options, agreed",
    [
        (RRQ, {"blksize": 8}, {b"blksize": b"8"}),
        (RRQ, {"BlkSize": 1024}, {b"blksize": b"1024"}),
        (RRQ, {"blksize": 65464}, {b"blksize": b"8192"}),
        (RRQ, {"tsize": 0}, {b"tsize": b"1048576"}),
        (RRQ, {"blksize": 512, "windowsize": 4, "tsize": 0}, {b"blksize": b"512", b"tsize": b"1048576"}),
        (WRQ, {"tsize": 1000, "blksize": 1024}, {b"blksize": b"1024", b"tsize": b"1000"}),
        *((RRQ, it, None) for it in ({"blksize": 7}, {"blksize": 65465}, {"blksize": "9x"}, {"blksize": ""})),
        *((RRQ, it, None) for it in ({"blksize": 4294967816}, {"windowsize": 4}, {"blksiz": 8}, {"blksizes": 8})),
    ],
)  # fmt: skip
def test_options(device, peer, opcode, options, agreed):
    it = peer()
    came = it.ask(opcode, "flash" if opcode == RRQ else "ram", **options)
    if agreed is None:
        assert came == (DATA, 1, device.flash[:512])
        return
    assert came == (OACK, agreed)
    if opcode == RRQ:
        size = int(agreed.get(b"blksize", 512))
        for number in (1, 2):
            it.ack(number - 1)
            assert it.block(number) == device.flash[size * (number - 1) : size * number]


@pytest.mark.parametrize(
    "sent, code",
    [
        (request(RRQ, "nothing"), NO_FILE),
        (request(RRQ, ""), NO_FILE),
        (request(WRQ, "nothing"), NO_FILE),
        (request(WRQ, "flash"), NO_ACCESS),
        (request(WRQ, "ram", tsize=99999999), FULL),
        (request(RRQ, "flash", "netascii"), ILLEGAL),
        (request(RRQ, "flash", "octets"), ILLEGAL),
        (request(RRQ, "flash")[:-1], ILLEGAL),
        (b"\0\1flash", ILLEGAL),
        (b"\0\1", ILLEGAL),
        (b"\0", ILLEGAL),
        (b"", ILLEGAL),
        (request(0, "flash"), ILLEGAL),
        (request(7, "flash"), ILLEGAL),
        (request(257, "flash"), ILLEGAL),
        (word(DATA) + word(1) + b"x", ILLEGAL),
        (word(ACK) + word(1), ILLEGAL),
        (word(OACK) + b"blksize\0008\0", ILLEGAL),
    ],
)
def test_refused(device, peer, sent, code):
    it = peer()
    it.send(sent)
    opcode, number, text = it.came()
    assert (opcode, number) == (ERROR, code)
    assert len(text) > 1 and text.index(0) == len(text) - 1


def test_error_is_not_answered(device, peer):
    it = peer()
    it.send(word(ERROR) + word(1) + b"x\0")
    it.send(request(RRQ, "nothing"))
    assert it.came()[:2] == (ERROR, NO_FILE)
    assert it.drained() == []


def test_file_in_use(device, peer):
    one, other = peer(), peer()
    assert one.ask(WRQ, "ram") == (ACK, 0, b"")
    assert [other.ask(it, "ram")[:2] for it in (RRQ, WRQ)] == [(ERROR, IN_USE)] * 2
    one.send(word(DATA) + word(1) + b"short")
    assert one.came() == (ACK, 1, b"")
    assert other.ask(RRQ, "ram") == (DATA, 1, b"short")
    assert one.ask(WRQ, "flash")[:2] == (ERROR, NO_ACCESS)


def test_second_acknowledgement_sends_nothing(device, peer):
    """The sorcerer's apprentice (RFC 1123, 4.2.3.1)."""
    it, seen = peer(), 0
    it.ask(RRQ, "flash")
    for number in range(1, 50):
        start = time.monotonic()
        it.ack(number)
        it.ack(number)
        it.ack(number - 1)
        assert stranger(peer, it.port)[:2] == (ERROR, UNKNOWN)
        came = [came[:2] for came in it.drained()]
        if time.monotonic() - start < device.tick:  # else the tick may have sent it again
            assert came == [(DATA, number + 1)]
            seen += 1
        if seen == 3:
            return
    raise AssertionError("this machine is too busy")


@pytest.mark.parametrize("opcode", [RRQ, WRQ])
def test_stranger_is_refused_and_ends_nothing(device, peer, opcode):
    it, other = peer(), peer()
    it.ask(opcode, "flash" if opcode == RRQ else "ram")
    for sent in (word(ACK) + word(1), word(DATA) + word(1) + b"x", word(9) + word(0), request(RRQ, "flash")):
        other.port = it.port
        other.send(sent)
        assert other.came()[:2] == (ERROR, UNKNOWN)
    other.send(word(ERROR) + word(0) + b"over\0")
    if opcode == RRQ:
        it.ack(1)
        assert it.block(2) == device.flash[512:1024]
    else:
        it.send(word(DATA) + word(1) + b"mine")
        assert it.came() == (ACK, 1, b"")
        assert other.ask(RRQ, "ram") == (DATA, 1, b"mine")
    assert other.drained() == []


@pytest.mark.parametrize("opcode, options", [(RRQ, {}), (RRQ, {"blksize": 512}), (WRQ, {})])
def test_sends_again_what_is_not_answered(device, peer, opcode, options):
    """The same message is repeated after one to two ticks, and again four ticks later, until it's acknowledged."""
    it = peer()
    first = it.ask(opcode, "flash" if opcode == RRQ else "ram", **options)
    start = time.monotonic()
    assert it.came() == first
    assert 0.9 * device.tick < time.monotonic() - start < 2 * device.tick + 1
    assert it.came() == first
    assert 4.9 * device.tick < time.monotonic() - start
    if opcode == RRQ:
        it.ack(0 if options else 1)
        number = 1 if options else 2
        assert it.came() == (DATA, number, device.flash[512 * (number - 1) : 512 * number])
    else:
        it.send(word(DATA) + word(1) + b"x")
        assert it.came() == (ACK, 1, b"")


@pytest.mark.parametrize("running", [HASTY], indirect=True)
def test_options_of_a_writer_are_not_sent_again_by_the_tick(device, peer):
    """Unless the request is repeated. curl 7.88 takes repeated options for an acknowledgement, and sends its second
    block as its first."""
    it = peer()
    first = it.ask(WRQ, "ram", blksize=1024)
    port = it.port
    time.sleep(8 * device.tick)
    assert it.drained() == []
    assert it.ask(WRQ, "ram", blksize=1024) == first == (OACK, {b"blksize": b"1024"})
    assert it.port == port
    it.send(word(DATA) + word(1) + b"x")
    assert it.came() == (ACK, 1, b"")


@pytest.mark.parametrize("running", [HASTY], indirect=True)
def test_gives_up(device, peer):
    """It gives up after six tries, in 38 ticks."""
    it = peer()
    first = it.ask(RRQ, "flash")
    it.socket.settimeout(20 * device.tick)
    for _ in range(5):
        assert it.came() == first
    with pytest.raises(TimeoutError):
        it.came()
    it.socket.connect((DEVICE, it.port))
    it.socket.send(word(ACK) + word(1))
    with pytest.raises(ConnectionRefusedError):
        it.socket.recv(100)


def test_last_block_that_comes_again_is_acknowledged_again(device, peer):
    it = peer()
    assert it.ask(WRQ, "ram") == (ACK, 0, b"")
    for number, data in ((1, b"a" * 512), (1, b"b" * 512), (2, b"c"), (2, b"d"), (2, b"c")):
        it.send(word(DATA) + word(number) + data)
        assert it.came() == (ACK, number, b"")
    it.send(word(DATA) + word(4) + b"e")
    it.send(word(DATA) + word(1) + b"f")
    assert peer().ask(RRQ, "ram", blksize=1024, tsize=0) == (OACK, {b"blksize": b"1024", b"tsize": b"513"})
    assert it.drained() == []
    assert peer().ask(RRQ, "ram") == (DATA, 1, b"a" * 512)


def test_finished_transfers_keep_no_place(device, peer):
    """More clients write a file than there are transfers, and each gets a transfer at once."""
    for number in range(6):
        it = peer()
        assert it.ask(WRQ, "ram") == (ACK, 0, b"")
        it.send(word(DATA) + word(1) + b"%d" % number)
        assert it.came() == (ACK, 1, b"")
    assert peer().ask(RRQ, "ram") == (DATA, 1, b"5")


def test_request_that_comes_again_begins_nothing(device, peer):
    it = peer()
    for opcode, name in ((RRQ, "flash"), (WRQ, "ram")):
        first = it.ask(opcode, name)
        port = it.port
        it.port = TFTP
        it.send(request(opcode, name))
        it.port = port
        it.send(word(DATA) + word(1) + b"x" if opcode == WRQ else word(ACK) + word(1))
        came = it.came()
        while came == first and it.port == port:
            came = it.came()
        assert came[:2] == ((ACK, 1) if opcode == WRQ else (DATA, 2))
        if opcode == WRQ:
            it.port = TFTP
            it.send(request(opcode, name))  # late: the file is there already
        assert stranger(peer, port)[:2] == (ERROR, UNKNOWN)
        assert it.drained() in ([], [came])
        assert it.port in (port, TFTP)
        it.port = port
        it.send(word(ERROR) + word(0) + b"over\0")
    assert peer().ask(RRQ, "ram") == (DATA, 1, b"x")


def test_error_of_the_client_ends_the_transfer(device, peer):
    it = peer()
    it.ask(RRQ, "flash")
    it.send(word(ERROR) + word(8) + b"no\0")
    it.socket.connect((DEVICE, it.port))
    it.socket.send(word(ACK) + word(1))
    with pytest.raises(ConnectionRefusedError):
        it.socket.recv(100)
    it.socket.close()


@pytest.mark.parametrize("length", [513, 600, 8193, 9000])
def test_block_longer_than_agreed(device, peer, length):
    it = peer()
    it.ask(WRQ, "ram", **({"blksize": 8192} if length > 8000 else {}))
    it.send(word(DATA) + word(1) + bytes(length))
    assert it.came()[:2] == (ERROR, ILLEGAL)


def test_wrong_message_of_the_client_ends_the_transfer(device, peer):
    for opcode, sent in ((RRQ, word(DATA) + word(1) + b"x"), (WRQ, word(ACK) + word(0)), (RRQ, word(9) + word(1))):
        it = peer()
        it.ask(opcode, "flash" if opcode == RRQ else "ram")
        it.send(sent)
        assert it.came()[:2] == (ERROR, ILLEGAL)


def test_broadcast_is_not_answered(device, peer):
    """RFC 1123, 4.2.3.5."""
    it = peer()
    it.socket.setsockopt(socket.SOL_SOCKET, socket.SO_BROADCAST, 1)
    it.socket.sendto(request(RRQ, "flash"), ("10.0.0.255", TFTP))
    assert it.ask(RRQ, "nothing")[:2] == (ERROR, NO_FILE)
    assert it.drained() == []
