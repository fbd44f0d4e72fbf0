"""Each error with the computer's errno, and each wrong argument before the library is called."""
import array
import copy
import errno
import gc
import importlib
import pickle
import random
import resource
import socket as host
import tracemalloc

import pytest

from tests.python.package import bsdudp


def refused(number, call, *arguments, text=""):
    with pytest.raises(OSError) as fault:
        call(*arguments)
    assert fault.value.errno == number
    assert text in fault.value.strerror
    return fault.value


@pytest.mark.parametrize("name", ["Stack", "Host"])
def test_a_refused_boot_keeps_no_memory(name, monkeypatch):
    kind = getattr(bsdudp, name)
    boot_in = kind._boot_in
    tracemalloc.start()
    try:
        with monkeypatch.context() as less:
            less.setattr(kind, "_boot_in", lambda self, at, size: boot_in(self, at, 64))
            for _ in range(3):
                refused(errno.ENOMEM, kind)
        gc.collect()
        assert tracemalloc.get_traced_memory()[0] < 20_000
        with kind():
            assert tracemalloc.get_traced_memory()[0] > 20_000
    finally:
        tracemalloc.stop()


@pytest.fixture
def stack():
    with bsdudp.Stack() as it:
        yield it


def test_package_and_library_are_one_version():
    assert bsdudp.library_version.removesuffix(", unproved build") == bsdudp.__version__


def test_nothing_waits(stack):
    with pytest.raises(BlockingIOError):
        stack.socket().recvfrom()


def test_sockets_run_out(stack):
    assert [stack.socket().descriptor for _ in range(64)] == list(range(3, 67))
    refused(errno.EMFILE, stack.socket)


def test_bind(stack):
    first, second = stack.socket(), stack.socket()
    first.bind(("", 7))
    refused(errno.EINVAL, first.bind, ("", 8), text="already has a local address or port")
    refused(errno.EADDRINUSE, second.bind, ("", 7), text="another socket has this address and port")
    refused(errno.EADDRNOTAVAIL, second.bind, ("10.0.0.9", 7), text="the address must belong to this host")
    second.bind(("", 0))
    assert second.getsockname() == ("0.0.0.0", 1024)


def test_bind_random(stack):
    """A port of the range, by Python's random numbers: the same one at the same seed."""
    first, second = stack.socket(), stack.socket()
    for low, high in [(0, 9), (7, 6), (7, 65536), (-1, 7)]:
        with pytest.raises(ValueError):
            first.bind_random("", low, high, random.Random(1))
    refused(errno.EADDRNOTAVAIL, first.bind_random, "10.0.0.9", 7, 9, random.Random(1), text="must belong to this host")
    assert first.getsockname() == ("0.0.0.0", 0)
    port = first.bind_random("", 49152, 65535, random.Random(1))
    assert first.getsockname() == ("0.0.0.0", port)
    assert port == 49152 + random.Random(1).getrandbits(32) % 16384
    refused(errno.EINVAL, first.bind_random, "", 7, 9, random.Random(1), text="already has a local address or port")
    refused(errno.EADDRINUSE, second.bind_random, "", port, port, random.Random(1), text="each port of the range")
    assert second.bind_random("10.0.0.1", port, min(port + 1, 65535), random.SystemRandom()) == port + 1
    assert second.getsockname() == ("10.0.0.1", port + 1)
    ports = set()
    for seed in range(200):
        with stack.socket() as it:
            ports.add(it.bind_random("", 7, 10, random.Random(seed)))
    assert ports == {7, 8, 9, 10}


def test_connect(stack):
    it = stack.socket()
    refused(errno.ENOTCONN, it.getpeername)
    refused(errno.EADDRNOTAVAIL, it.connect, ("10.0.0.2", 0), text="the port to connect to must not be 0")
    refused(errno.EHOSTUNREACH, it.connect, ("224.0.0.1", 7))
    it.connect(("10.0.0.2", 7))
    assert it.getpeername() == ("10.0.0.2", 7)
    assert it.getsockname() == ("10.0.0.1", 1024)


def test_send(stack):
    it = stack.socket()
    refused(errno.EDESTADDRREQ, it.send, b"hi")
    refused(errno.EMSGSIZE, it.sendto, bytes(9217), ("10.0.0.2", 7), text="at most 9,216 bytes, not 9,217")
    refused(errno.EADDRNOTAVAIL, it.sendto, b"hi", ("10.0.0.2", 0), text="the port to send to must not be 0")
    refused(errno.EHOSTUNREACH, it.sendto, b"hi", ("224.0.0.1", 7))
    refused(errno.EACCES, it.sendto, b"hi", ("10.0.0.255", 7))
    it.setsockopt(host.SOL_SOCKET, host.SO_BROADCAST, 1)
    assert it.getsockopt(host.SOL_SOCKET, host.SO_BROADCAST) == 1
    assert it.sendto(b"hi", ("10.0.0.255", 7)) == 2
    text = "at most 1,472 bytes at an MTU of 1,500, not 1,473"
    refused(errno.EMSGSIZE, it.sendto, bytes(1473), ("10.0.0.255", 7), text=text)
    it.connect(("10.0.0.2", 7))
    refused(errno.EISCONN, it.sendto, b"hi", ("10.0.0.2", 7))
    assert it.send(b"hi") == 2


def test_option(stack):
    it = stack.socket()
    refused(errno.ENOPROTOOPT, it.setsockopt, host.SOL_SOCKET, host.SO_KEEPALIVE, 1)
    refused(errno.ENOPROTOOPT, it.getsockopt, host.SOL_SOCKET, host.SO_KEEPALIVE)
    refused(errno.ENOPROTOOPT, it.getsockopt, host.IPPROTO_IP, host.SO_BROADCAST)
    for name in (host.SO_BROADCAST, host.SO_REUSEPORT):
        assert it.getsockopt(host.SOL_SOCKET, name) == 0
        it.setsockopt(host.SOL_SOCKET, name, 7)
        assert it.getsockopt(host.SOL_SOCKET, name) == 1
        it.setsockopt(host.SOL_SOCKET, name, 0)
        assert it.getsockopt(host.SOL_SOCKET, name) == 0


def test_size_of_a_queue(stack):
    """A size that is refused changes nothing. A queue of 512 bytes holds three datagrams of 128 bytes: 3 * (16 + 128)
    bytes, and in 3 * (1 + 2) mbufs of 128 bytes, which is more than 2 * 512. So it holds two."""
    it, other = stack.socket(), stack.socket()
    assert it.getsockopt(host.SOL_SOCKET, host.SO_RCVBUF) == 0
    for wrong in (0, -1, 65536, 1 << 40):
        with pytest.raises(ValueError, match="SO_RCVBUF must be 1 to 65535"):
            it.setsockopt(host.SOL_SOCKET, host.SO_RCVBUF, wrong)
    for wrong in (True, 512.0, "512", None):
        with pytest.raises(TypeError):
            it.setsockopt(host.SOL_SOCKET, host.SO_RCVBUF, wrong)
    assert it.getsockopt(host.SOL_SOCKET, host.SO_RCVBUF) == 0
    for size in (1, 65535, 512):
        it.setsockopt(host.SOL_SOCKET, host.SO_RCVBUF, size)
        assert it.getsockopt(host.SOL_SOCKET, host.SO_RCVBUF) == size
    assert other.getsockopt(host.SOL_SOCKET, host.SO_RCVBUF) == 0
    it.bind(("", 7))
    for _ in range(4):
        other.sendto(bytes(128), ("10.0.0.1", 7))
    assert (it.waiting.datagrams, stack.counters["udp.fullsock"]) == (2, 2)
    twin = stack.copy()
    assert twin.sockets[it.descriptor].getsockopt(host.SOL_SOCKET, host.SO_RCVBUF) == 512
    it.close()
    again = stack.socket()
    assert (again.descriptor, again.getsockopt(host.SOL_SOCKET, host.SO_RCVBUF)) == (3, 0)


def test_buffers_lack():
    with bsdudp.Stack(mbufs=4, clusters=0) as stack:
        assert refused(errno.ENOBUFS, stack.socket().sendto, bytes(1000), ("10.0.0.2", 7)).lack == "pool"


def test_queue_is_full(stack):
    it = stack.socket()
    for _ in range(50):
        it.sendto(b"hi", ("10.0.0.2", 7))
    fault = refused(errno.ENOBUFS, it.sendto, b"hi", ("10.0.0.2", 7))
    assert isinstance(fault, bsdudp.NoBuffersError) and fault.lack == "queue"


def test_cut_datagram(stack):
    it = stack.socket()
    it.bind(("", 7))
    for _ in range(4):
        it.sendto(b"hello", ("127.0.0.1", 7))
    assert it.waiting == bsdudp.Waiting(("127.0.0.1", 7), 5, 4)
    with pytest.warns(bsdudp.CutDatagramWarning):
        assert it.recvfrom(2) == (b"he", ("127.0.0.1", 7))
    assert it.recvmsg(4) == (b"hell", [], host.MSG_TRUNC, ("127.0.0.1", 7))
    assert it.recvmsg(5) == (b"hello", [], 0, ("127.0.0.1", 7))
    assert it.recv() == b"hello"
    assert it.waiting is None


@pytest.mark.parametrize(
    "config, fault",
    [
        ({"addr": "10.0.0"}, ValueError),
        ({"addr": 7}, TypeError),
        ({"addr": "127.0.0.1"}, ValueError),
        ({"addr": "224.0.0.1"}, ValueError),
        ({"addr": "10.0.0.1", "bcast": "10.0.0.1"}, ValueError),
        ({"mtu": 67}, ValueError),
        ({"mtu": 4353}, ValueError),
        ({"mtu": "1500"}, TypeError),
        ({"mtu": True}, TypeError),
        ({"mbufs": 0}, ValueError),
        ({"mbufs": 65536}, ValueError),
        ({"clusters": -1}, ValueError),
        ({"clusters": 4097}, ValueError),
        ({"first_id": 65536}, ValueError),
    ],
)
def test_configuration(config, fault):
    with pytest.raises(fault):
        bsdudp.Stack(**config)


def test_arguments(stack):
    it = stack.socket()
    for address in [("10.0.0.2", 65536), ("10.0.0.2", -1), ("example.com", 7)]:
        with pytest.raises(ValueError):
            it.sendto(b"hi", address)
    for address in ["10.0.0.2", ("10.0.0.2",), (7, 7), ("10.0.0.2", "7"), None]:
        with pytest.raises(TypeError):
            it.sendto(b"hi", address)
    with pytest.raises(TypeError):
        it.sendto("hi", ("10.0.0.2", 7))
    with pytest.raises(TypeError):
        stack.rx("hi")
    with pytest.raises(ValueError):
        stack.rx(bytes(65536))
    with pytest.raises(ValueError):
        stack.tick(-1)
    with pytest.raises(ValueError):
        it.recvfrom(-1)


@pytest.mark.needs("scapy")
def test_a_frame_of_scapy(stack):
    scapy = importlib.import_module("scapy.all")
    with pytest.raises(ValueError):
        stack.rx(scapy.Ether() / scapy.ARP())


def test_after_close_and_end(stack):
    """A closed socket raises EBADF, as Python's sockets do, and so does a socket of a stack that has ended."""
    it, other = stack.socket(), stack.socket()
    it.close()
    it.close()
    assert it.descriptor == -1
    buffer = bytearray(8)
    calls = [
        lambda who: who.send(b"hi"),
        lambda who: who.sendto(b"hi", ("10.0.0.2", 7)),
        lambda who: who.bind(("", 7)),
        lambda who: who.bind_random("", 7, 9, random.Random(1)),
        lambda who: who.connect(("10.0.0.2", 7)),
        lambda who: who.recvfrom(),
        lambda who: who.recv_into(buffer),
        lambda who: who.recvmsg(8),
        lambda who: who.getsockname(),
        lambda who: who.getpeername(),
        lambda who: who.setsockopt(host.SOL_SOCKET, host.SO_BROADCAST, 1),
        lambda who: who.getsockopt(host.SOL_SOCKET, host.SO_BROADCAST),
        lambda who: who.setsockopt(host.SOL_SOCKET, host.SO_RCVBUF, 512),
        lambda who: who.getsockopt(host.SOL_SOCKET, host.SO_RCVBUF),
        lambda who: who.waiting,
    ]
    for call in calls:
        refused(errno.EBADF, call, it)
    stack.end()
    stack.end()
    assert other.descriptor == -1 and repr(other) == "<Socket, closed>"
    for call in calls:
        refused(errno.EBADF, call, other)
    assert it.connect_ex(("10.0.0.2", 7)) == errno.EBADF
    other.close()
    for call in [stack.tick, stack.tx, stack.socket, lambda: stack.counters, lambda: stack.rx(b"")]:
        with pytest.raises(ValueError):
            call()


def test_closed_descriptor_is_reused(stack):
    """A closed socket stays closed when another one has its descriptor."""
    first = stack.socket()
    first.close()
    second = stack.socket()
    assert second.descriptor == 3
    refused(errno.EBADF, first.bind, ("", 7))
    first.close()
    second.bind(("", 7))


@pytest.mark.parametrize("make", [copy.copy, copy.deepcopy, pickle.dumps], ids=["copy", "deepcopy", "pickle"])
def test_no_copies(stack, make):
    """The module copy and pickle can't copy an object with memory of the library: the error names the Stack."""
    wire = bsdudp.Wire([stack])
    for it in (stack, stack.socket(), wire, wire.sender(stack)):
        with pytest.raises(TypeError, match=f"a {type(it).__name__} can't be (copied|pickled).*: .* Stack"):
            make(it)
        with pytest.raises(TypeError, match="can't be"):
            make(it if make is copy.copy else [it])
    assert stack.socket().descriptor == 4


def test_what_is_told_can_be_pickled(stack):
    stack.socket().sendto(b"hi", ("10.0.0.2", 7))
    for it in (stack.tx(), stack.mbstat, stack.counters, bsdudp.Waiting(("10.0.0.2", 7), 1, 1)):
        again = pickle.loads(pickle.dumps(it))
        assert again == it and type(again) is type(it)
    fault = pickle.loads(pickle.dumps(bsdudp.NoBuffersError(errno.ENOBUFS, "why", "pool")))
    assert (fault.errno, fault.strerror, fault.lack) == (errno.ENOBUFS, "why", "pool")


class Seven:
    """A number that isn't an int, such as numpy's."""

    def __index__(self):
        return 7


@pytest.mark.needs("numpy")
def test_numbers_by_index():
    numpy = importlib.import_module("numpy")
    for seven in (Seven(), numpy.int64(7), numpy.uint16(7)):
        with bsdudp.Stack(mtu=numpy.int32(576), mbufs=numpy.uint16(64), clusters=seven, first_id=seven) as stack:
            it = stack.socket()
            it.bind(("", seven))
            it.setsockopt(host.SOL_SOCKET, host.SO_BROADCAST, seven)
            assert it.sendto(numpy.array([1, 2, 3], dtype=numpy.uint8), ("127.0.0.1", seven)) == 3
            assert it.recvmsg(seven)[0] == b"\1\2\3"
            stack.tick(seven)
            wire = bsdudp.Wire([stack], loss=numpy.float32(0.5), repeat=numpy.int64(0), delay=(seven, seven), seed=seven)
            assert wire.run(carries=seven)
            assert (stack.mtu, stack.mbstat.clusters) == (576, 7)
    for wrong in (7.0, "7", None, True, numpy.float64(7)):
        with pytest.raises(TypeError):
            bsdudp.Stack(clusters=wrong)


def test_receive_into(stack):
    it = stack.socket()
    it.bind(("", 7))
    for _ in range(5):
        it.sendto(b"hello", ("127.0.0.1", 7))
    buffer = bytearray(b"........")
    assert it.recv_into(buffer) == 5 and buffer == b"hello..."
    words = array.array("H", [0, 0, 0])
    assert it.recvfrom_into(words) == (5, ("127.0.0.1", 7)) and words.tobytes() == b"hello\0"
    with pytest.warns(bsdudp.CutDatagramWarning) as told:
        assert it.recv_into(memoryview(buffer)[6:], 1) == 1 and buffer == b"hello.h."
    assert told[0].filename == __file__
    for wrong in (b"read only", "text", 7, memoryview(bytearray(8))[::2]):
        with pytest.raises(TypeError):
            it.recv_into(wrong)
    for wrong in (-1, 9):
        with pytest.raises(ValueError):
            it.recv_into(buffer, wrong)
    with pytest.raises(ValueError):
        it.recv_into(buffer, 0, host.MSG_OOB)
    assert it.waiting.datagrams == 2
    for call in (it.recv, it.recvfrom):
        it.sendto(b"hello", ("127.0.0.1", 7))
        with pytest.warns(bsdudp.CutDatagramWarning) as told:
            call(1)
        assert told[0].filename == __file__
    with pytest.warns(bsdudp.CutDatagramWarning):
        assert it.recv_into(bytearray()) == 0
    assert it.recv() == b"hello"
    with pytest.raises(BlockingIOError):
        it.recv_into(buffer)


def test_nothing_blocks(stack):
    it = stack.socket()
    it.settimeout(0)
    it.settimeout(0.0)
    it.setblocking(False)
    assert (it.gettimeout(), it.timeout, it.getblocking(), it.proto) == (0.0, 0.0, False, 0)
    for wrong in (None, 1, 0.5, -1):
        with pytest.raises(ValueError):
            it.settimeout(wrong)
    with pytest.raises(ValueError):
        it.setblocking(True)


def test_connect_ex(stack):
    it = stack.socket()
    assert it.connect_ex(("10.0.0.2", 0)) == errno.EADDRNOTAVAIL
    assert it.connect_ex(("10.0.0.2", 7)) == 0
    with pytest.raises(TypeError):
        it.connect_ex("10.0.0.2")


def test_bytes_like(stack):
    it = stack.socket()
    for data in (bytearray(b"hi"), memoryview(b"h-i")[::2], array.array("B", b"hi"), b"hi"):
        assert it.sendto(data, 0, ("10.0.0.2", 7)) == 2
        packet = stack.tx()
        assert packet[28:] == b"hi"
        stack.rx(memoryview(packet))
    with pytest.raises(ValueError):
        it.sendto(b"hi", 1, ("10.0.0.2", 7))
    for wrong in [(b"hi",), (b"hi", 0, ("10.0.0.2", 7), 0), (7, ("10.0.0.2", 7))]:
        with pytest.raises(TypeError):
            it.sendto(*wrong)


def test_pictures(stack):
    it = stack.socket()
    it.bind(("", 7))
    it.sendto(b"hi", ("10.0.0.2", 9))
    assert "0.0.0.0:7" in stack._repr_html_()
    packet = stack.tx()
    assert "identification 1" in packet._repr_html_()
    assert repr(packet) == "<Packet 10.0.0.1 > 10.0.0.2 udp 7 > 9, id 1, 30 bytes>"


def test_unfinished(stack):
    """The last and the first of three fragments of 3,008 bytes, worked out by hand: the ranges kept, and for how
    long."""
    with bsdudp.Stack("10.0.0.2", first_id=9) as other:
        other.socket().sendto(bytes(3_000), (stack.addr, 7))
        first, second, last = other.packets()
    assert stack.unfinished == []
    assert "unfinished" not in stack._repr_html_()
    stack.rx(last)
    stack.tick(2)
    stack.rx(first)
    held = (bsdudp.HeldRange(0, 1480, True), bsdudp.HeldRange(2960, 48, False))
    (it,) = stack.unfinished
    assert it == bsdudp.UnfinishedDatagram("10.0.0.2", "10.0.0.1", 9, 17, 58, 1528, held)
    assert it.missing == ((1480, 2960),)
    assert "<td>0 to 1479, 2960 to 3007</td>" in stack._repr_html_()
    stack.rx(second)
    assert stack.unfinished == []


def test_why(stack):
    before = stack.counters
    stack.rx(b"short")
    assert stack.why(before) == ["packet shorter than a header"]
    assert dict(stack.counters.since(before)) == {"ip.total": 1, "ip.toosmall": 1}


def test_memory_does_not_grow(stack):
    it = stack.socket()
    it.bind(("", 7))

    def send(count):
        for _ in range(count):
            it.sendto(b"x" * 100, ("127.0.0.1", 7))
            it.recvfrom()

    send(10_000)
    before = resource.getrusage(resource.RUSAGE_SELF).ru_maxrss
    send(100_000)
    assert resource.getrusage(resource.RUSAGE_SELF).ru_maxrss - before < 1024
    usage = stack.mbstat
    assert (usage.free_mbufs, usage.free_clusters) == (usage.mbufs, usage.clusters)
