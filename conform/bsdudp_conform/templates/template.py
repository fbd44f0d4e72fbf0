"""An adapter to fill in: bsdudp-conform run -- python3 template.py"""
from bsdudp_conform.kit import Adapter, serve


class MyStack(Adapter):
    name = "my stack 1.0"
    has = ()  # ("out",) if you call self.out: then the judge checks the packets that your stack sends

    def boot(self, mtu: int) -> None:
        """Boot a new stack: 10.0.0.1/24, broadcast 10.0.0.255, a UDP socket bound to port 7."""

    def rx(self, packet: bytes) -> None:
        """A packet arrives. Call self.got(address, port, data) for each datagram that the socket then receives."""

    def wait(self, ms: int) -> None:
        """Time passes: advance your stack's clock."""


serve(MyStack)
