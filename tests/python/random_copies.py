"""Random calls on stacks that are copied again and again. Each is compared with a stack of its own memory that was given
the same calls from the beginning."""
import contextlib

from hypothesis import given, settings
from hypothesis import strategies as st

from tests.python.package import bsdudp
from tests.python.test_copy import drained, state_of


calls = st.one_of(
    st.tuples(st.just("socket")),
    st.tuples(st.just("bind"), st.integers(3, 6), st.sampled_from([0, 7, 9])),
    st.tuples(st.just("send"), st.integers(3, 6), st.sampled_from(["10.0.0.1", "10.0.0.2"]), st.integers(0, 4_000)),
    st.tuples(st.just("recv"), st.integers(3, 6)),
    st.tuples(st.just("close"), st.integers(3, 6)),
    st.tuples(st.just("tx")),
    st.tuples(st.just("piece"), st.integers(0, 5), st.integers(1, 3)),
    st.tuples(st.just("tick"), st.sampled_from([1, 30, 59])),
)


def pieces(ident):
    """Returns the fragments of a datagram from another host."""
    with bsdudp.Stack("10.0.0.2", mtu=576, first_id=ident) as other:
        it = other.socket()
        it.sendto(bytes([ident]) * 1500, ("10.0.0.1", 7))
        return list(other.packets())


def do(stack, call, *words):
    """Makes a call. An error changes nothing, or the same in each stack."""
    sockets = stack.sockets
    with contextlib.suppress(OSError, KeyError):
        if call == "socket":
            stack.socket()
        elif call == "bind":
            sockets[words[0]].bind(("", words[1]))
        elif call == "send":
            sockets[words[0]].sendto(bytes(words[2]), (words[1], 7))
        elif call == "recv":
            sockets[words[0]].recv()
        elif call == "close":
            sockets[words[0]].close()
        elif call == "tx":
            stack.tx()
        elif call == "piece":
            stack.rx(pieces(words[1])[words[0] % 3])
        elif call == "tick":
            stack.tick(*words)


@settings(max_examples=80, deadline=None, derandomize=True, database=None)
@given(steps=st.lists(st.tuples(st.integers(0, 5), st.booleans(), calls), max_size=60))
def run(steps):
    """In each step a branch is copied or not, and then makes a call."""
    branches = [(bsdudp.Stack("10.0.0.1", mbufs=40, clusters=6), [])]
    for at, is_copied, call in steps:
        stack, history = branches[at % len(branches)]
        if is_copied and len(branches) < 6:
            stack, history = stack.copy(), list(history)
            branches.append((stack, history))
        do(stack, *call)
        history.append(call)
    for stack, history in branches:
        with bsdudp.Stack("10.0.0.1", mbufs=40, clusters=6) as alone:
            for call in history:
                do(alone, *call)
            assert state_of(stack) == state_of(alone)
            assert drained(stack) == drained(alone)
