"""Random wires: each datagram received was sent, complete, to this address and port. At the end, all buffers of every
pool are free."""
from hypothesis import given, settings
from hypothesis import strategies as st

from tests.python.package import bsdudp


@settings(max_examples=60, deadline=None, derandomize=True, database=None)
@given(
    seed=st.integers(0, 2**64 - 1),
    loss=st.sampled_from([0, 0.05, 0.3, 1]),
    repeat=st.sampled_from([0, 0.1, 1]),
    reorder=st.sampled_from([0, 0.2, 1]),
    delay=st.sampled_from([(0, 0), (0, 3), (2, 5)]),
    sends=st.lists(st.tuples(st.integers(0, 2), st.integers(0, 2), st.integers(0, 9_216)), max_size=20),
)
def what_comes_was_sent(seed, loss, repeat, reorder, delay, sends):
    stacks = [bsdudp.Stack(f"10.0.0.{at + 1}", mtu=(576, 1500, 296)[at], first_id=at * 1000) for at in range(3)]
    sockets = []
    for stack in stacks:
        it = stack.socket()
        it.bind(("", 7))
        sockets.append(it)
    wire = bsdudp.Wire(stacks, loss, repeat, reorder, delay, seed)
    sent, received = set(), []
    for number, (source, to, length) in enumerate(sends):
        data = bytes((number + at) % 251 for at in range(length))
        sockets[source].sendto(data, (stacks[to].addr, 7))
        sent.add((stacks[source].addr, to, data))
        wire.carry()
        for at, it in enumerate(sockets):
            while it.waiting:
                data, (sender, port) = it.recvfrom()
                received.append((sender, at, data))
                assert port == 7
    assert wire.run()
    for at, it in enumerate(sockets):
        while it.waiting:
            data, (sender, _) = it.recvfrom()
            received.append((sender, at, data))
    assert set(received) <= sent
    if not loss and not reorder and delay[0] == delay[1]:
        assert set(received) == sent
    for stack, it in zip(stacks, sockets):
        it.close()
        stack.tick(60)
        usage = stack.mbstat
        assert (usage.free_mbufs, usage.free_clusters) == (usage.mbufs, usage.clusters)
        stack.end()
