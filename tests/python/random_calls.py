"""Random calls on a stack, and the same calls as a script for the program."""
from hypothesis import HealthCheck, settings
from hypothesis import strategies as st
from hypothesis.stateful import RuleBasedStateMachine, initialize, rule

from tests.packets import HERE, PEER, damaged, datagram, fragment
from tests.python.script import Scripted

fds = st.integers(3, 8)
addresses = st.sampled_from(
    ["10.0.0.1", "10.0.0.2", "10.0.0.255", "127.0.0.1", "0.0.0.0", "255.255.255.255", "127.0.0.2", "224.0.0.1", "192.168.1.1"]
)
ports = st.sampled_from([0, 7, 9, 1024, 1025, 5000, 65535])
data = st.one_of(
    st.binary(max_size=40),
    st.integers(0, 9_217).map(lambda n: bytes(at % 251 for at in range(n))),
    st.sampled_from([100, 101, 207, 208, 1472, 1473, 9216, 9217]).map(bytes),
)


class Calls(RuleBasedStateMachine):
    """Makes random calls, and plays them as a script. `program` is the path of bsdudp."""

    program = None

    @initialize(
        mtu=st.sampled_from([68, 576, 1500, 4352]), mbufs=st.sampled_from([8, 40, 512]), clusters=st.sampled_from([0, 4, 64])
    )
    def boot(self, mtu, mbufs, clusters):
        self.it = Scripted(addr="10.0.0.1", mtu=mtu, mbufs=mbufs, clusters=clusters)
        self.seen = []

    @rule()
    def socket(self):
        self.it.socket()

    @rule(fd=fds, addr=addresses, port=ports)
    def bind(self, fd, addr, port):
        self.it.bind(fd, addr, port)

    @rule(fd=fds, addr=addresses, port=ports)
    def connect(self, fd, addr, port):
        self.it.connect(fd, addr, port)

    @rule(fd=fds, addr=addresses, port=ports, octets=data)
    def sendto(self, fd, addr, port, octets):
        self.it.sendto(fd, addr, port, octets)

    @rule(fd=fds, octets=data)
    def send(self, fd, octets):
        self.it.send(fd, octets)

    @rule(fd=fds, length=st.sampled_from([1, 2, 40, 9216, 65507]))
    def recvfrom(self, fd, length):
        self.it.recvfrom(fd, length)

    @rule(fd=fds, name=st.sampled_from(["broadcast", "reuseport"]), on=st.integers(0, 1))
    def setsockopt(self, fd, name, on):
        self.it.setsockopt(fd, name, on)

    @rule(fd=fds)
    def close(self, fd):
        self.it.close(fd)

    @rule(to=addresses, port=ports, octets=data)
    def rx(self, to, port, octets):
        self.it.rx(datagram(octets, (5000, port), (PEER, to), ident=77))

    @rule(octets=data, first=st.integers(0, 100), count=st.integers(0, 100), ident=st.integers(0, 3))
    def rx_fragment(self, octets, first, count, ident):
        whole = datagram(octets, (5000, 7), (PEER, HERE), ident=ident)
        self.it.rx(fragment(whole, first, count))

    @rule(octets=st.binary(max_size=40), at=st.integers(0, 67), bit=st.integers(0, 7))
    def rx_damaged(self, octets, at, bit):
        self.it.rx(damaged(datagram(octets, ident=77), at, bit))

    @rule()
    def tx(self):
        packet = self.it.tx()
        if packet is not None:
            self.seen.append(packet)

    @rule(at=st.integers(0, 100))
    def rx_of_a_sent_one(self, at):
        if self.seen:
            self.it.rx(self.seen[at % len(self.seen)])

    @rule(n=st.sampled_from([1, 2, 60]))
    def tick(self, n):
        for _ in range(n):
            self.it.tick()

    @rule()
    def stat(self):
        self.it.stat()

    @rule()
    def mbstat(self):
        self.it.mbstat()

    def teardown(self):
        if hasattr(self, "it"):
            self.it.stat()
            self.it.mbstat()
            self.it.check(self.program)
            self.it.stack.end()


SETTINGS = settings(
    max_examples=500, stateful_step_count=40, deadline=None, derandomize=True, database=None,
    suppress_health_check=list(HealthCheck),
)  # fmt: skip
