"""Several threads on one stack: a method fails in a second thread, or runs as if there were no other thread. A method
that makes several calls of the library is atomic."""
import contextlib
import ctypes
import sys
import threading
from collections import Counter

import pytest

from tests.cases import TOP
from tests.packets import HERE, datagram
from tests.python.package import bsdudp

THREADS = 3
DATAGRAMS = 4_000
HOME = "127.0.0.1"
PACKAGE = str(TOP / "python/bsdudp")
PR_SET_TIMERSLACK, PR_GET_TIMERSLACK = 29, 30


@contextlib.contextmanager
def switching():
    """Switches threads after a microsecond instead of five milliseconds. By default, a timer of Linux may be 50
    microseconds late; here the limit is one nanosecond."""
    interval = sys.getswitchinterval()
    control = getattr(ctypes.CDLL(None), "prctl", lambda *words: 0)
    slack = control(PR_GET_TIMERSLACK, 0, 0, 0, 0)
    sys.setswitchinterval(1e-6)
    control(PR_SET_TIMERSLACK, 1, 0, 0, 0)
    try:
        yield
    finally:
        sys.setswitchinterval(interval)
        control(PR_SET_TIMERSLACK, slack, 0, 0, 0)


def at_each_line(call, other):
    """Makes a call. At each line of the package that it runs, another thread tries another call once, and runs to its
    end before the next line. Returns the call's result, and those of the other calls that weren't refused."""
    came, faults = [], []

    def try_it():
        try:
            came.append(other())
        except (RuntimeError, BlockingIOError):
            pass
        except Exception as fault:  # the test raises it
            faults.append(fault)

    def trace(frame, event, _):
        if not frame.f_code.co_filename.startswith(PACKAGE):
            return None
        if event == "line":
            thread = threading.Thread(target=try_it)
            thread.start()
            thread.join()
        return trace

    before = sys.gettrace()
    sys.settrace(trace)
    try:
        answer = call()
    finally:
        sys.settrace(before)
    if faults:
        raise faults[0]
    return answer, came


def again(call):
    """Returns a call's result, when no other thread uses the stack."""
    while True:
        try:
            return call()
        except RuntimeError:
            continue


def all_of(*runs):
    """Runs each function in its own thread. An exception in one is raised here."""
    faults = []

    def guarded(run):
        try:
            run()
        except BaseException as fault:  # noqa: B036 a thread's fault is the test's
            faults.append(fault)

    threads = [threading.Thread(target=guarded, args=(run,)) for run in runs]
    with switching():
        for thread in threads:
            thread.start()
        for thread in threads:
            thread.join()
    if faults:
        raise faults[0]


def taken(it, into):
    """Returns the oldest datagram, with `recvmsg` or `recv_into`. It isn't truncated."""
    if not into:
        data, _, flag, _ = it.recvmsg(200)
        assert flag == 0
        return data
    buffer = bytearray(200)
    return bytes(buffer[: it.recv_into(buffer)])


@pytest.mark.parametrize("into", [False, True])
def test_whole_datagrams(into):
    """Datagrams of 1 and 90 bytes in turn: two threads receive each of them once, and complete."""
    with bsdudp.Stack() as stack:
        it = stack.socket()
        it.bind(("", 7))
        sent = [bytes([at]) * (90 if at % 2 else 1) for at in range(80)]
        for data in sent:
            it.sendto(data, (HOME, 7))
        first, came = at_each_line(lambda: taken(it, into), lambda: taken(it, into))
        assert came
        while it.waiting:
            came.append(it.recv())
        assert Counter([first, *came]) == Counter(sent)


def test_counters_of_one_moment():
    """A packet that is too short increases two counters: no thread sees only one of the changes."""
    with bsdudp.Stack() as stack:
        seen, came = at_each_line(lambda: stack.counters, lambda: stack.rx(b"short"))
        assert came and seen["ip.total"] == seen["ip.toosmall"]
        assert stack.counters["ip.total"] == len(came)


@pytest.mark.parametrize("begun", range(1, 5))
def test_unfinished_of_one_moment(begun):
    """The unfinished datagrams are reported consistently, while they end and others begin."""
    with bsdudp.Stack("10.0.0.1") as stack, bsdudp.Stack("10.0.0.2") as other:
        sender = other.socket()
        pieces = []
        for _ in range(60):
            sender.sendto(bytes(5_000), ("10.0.0.1", 9))
            pieces.extend(other.packets())
        for piece in pieces[:begun]:
            stack.rx(piece)
        coming = pieces[: begun - 1 : -1]

        def come():
            stack.rx(coming[-1])
            coming.pop()  # a refused packet is tried again later

        held, came = at_each_line(lambda: stack.unfinished, come)
        assert came
        for it in held:
            assert it.length == sum(part.length for part in it.ranges)
        _, came = at_each_line(stack._repr_html_, come)
        assert came


def test_packets_of_one_room():
    """Each packet for the link is returned once, with its own bytes."""
    with bsdudp.Stack() as stack:
        it = stack.socket()
        for _ in range(50):
            it.sendto(b"hi", ("10.0.0.2", 7))
        first, came = at_each_line(stack.tx, stack.tx)
        given = [packet.identification for packet in [first, *came, *stack.packets()]]
        assert came and sorted(given) == list(range(1, 51))


def test_descriptors():
    """A socket that another thread opens during a close belongs to that thread, also if it has the same descriptor."""
    with bsdudp.Stack() as stack:
        it = stack.socket()

        def opened():
            new = stack.socket()
            new.bind(("", 0))
            new.sendto(b"hi", (HOME, new.getsockname()[1]))
            return new

        for call in (it.close, stack.socket, stack.readable):
            answer, new = at_each_line(call, opened)
            assert new
            opening = [answer] if isinstance(answer, bsdudp.Socket) else []
            ready = stack.readable()
            assert all(ready.count(one) == 1 for one in new)
            assert sorted([*ready, *opening], key=id) == sorted(stack._sockets.values(), key=id)
            for one in [*new, *opening]:
                one.close()
            assert stack._sockets == ({} if it.descriptor < 0 else {3: it})


def test_closed_while_it_is_used():
    """A method of a socket that another thread closes succeeds, or finds it closed. It doesn't affect a new socket."""
    with bsdudp.Stack() as stack:
        it = stack.socket()
        new = []

        def close():
            it.close()
            if not new:
                new.append(stack.socket())

        with contextlib.suppress(OSError):
            at_each_line(lambda: it.bind(("", 7)), close)
        assert it.descriptor == -1 and new[0].descriptor == 3
        assert new[0].getsockname() == ("0.0.0.0", 0)


def test_many_threads():
    """Three threads send and receive datagrams of 1 and 90 bytes at the same time: each arrives once, and complete."""
    sent, came = Counter(), Counter()
    counted = threading.Lock()
    with bsdudp.Stack() as stack:
        it = stack.socket()
        it.bind(("", 7))

        def run():
            for at in range(DATAGRAMS):
                data = bytes([at % 250]) * (90 if at % 2 else 1)
                again(lambda: it.sendto(data, (HOME, 7)))
                try:
                    got = again(lambda: taken(it, at % 3 == 0))
                except BlockingIOError:
                    got = None
                with counted:
                    sent[data] += 1
                    came[got] += 1

        all_of(*[run] * THREADS)
        while it.waiting:
            came[it.recv()] += 1
    came.pop(None, None)
    assert came == sent


def test_lives():
    """Several threads boot and end stacks at the same time. A large pool takes a while to boot."""
    packet = datagram(b"hello", between=("10.0.0.9", HERE), ident=77)

    def run():
        for at in range(60):
            with bsdudp.Stack(mbufs=30_000 + at, clusters=at % 7) as stack:
                it = stack.socket()
                it.bind(("", 7))
                stack.rx(packet)
                assert (stack.mbstat.mbufs, stack.mbstat.clusters) == (30_000 + at, at % 7)
                assert it.recv() == b"hello"

    all_of(*[run] * 4)


def test_second_thread():
    """If another thread is in the stack, calls fail without an effect, and `repr` says so."""
    with bsdudp.Stack() as stack:
        it = stack.socket()
        calls = [stack.tick, stack.tx, stack.end, it.recv, it.close, lambda: stack.counters, lambda: stack.unfinished]
        with stack._turn:
            for call in calls:
                with pytest.raises(RuntimeError, match="another thread"):
                    call()
            assert "another thread" in repr(stack) and "another thread" in repr(it)
        assert it.descriptor == 3
        stack.tick()
