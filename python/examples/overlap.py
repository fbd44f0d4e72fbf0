"""Two fragments overlap, with different bytes: which bytes stay? Like 4.4BSD, this stack keeps the bytes of fragments that
begin earlier, and cuts those that begin later. Linux drops the whole datagram since 4.19 (RFC 5722 demands that)."""
import bsdudp
from scapy.all import IP, UDP, Raw


def received(order):
    """What a datagram comes to whose second fragment claims bytes of the first."""
    whole = bytes(UDP(sport=5000, dport=7, len=8 + 40, chksum=0) / Raw(b"A" * 16))
    pieces = {
        "first": IP(src="10.0.0.2", dst="10.0.0.1", id=9, flags="MF", frag=0, proto=17) / Raw(whole),
        "second": IP(src="10.0.0.2", dst="10.0.0.1", id=9, frag=2, proto=17) / Raw(b"B" * 32),
    }
    with bsdudp.Stack("10.0.0.1") as stack:
        it = stack.socket()
        it.bind(("", 7))
        for name in order:
            stack.rx(pieces[name])
        return it.recv() if it.waiting else None


for order in (("first", "second"), ("second", "first")):
    print(f"{' then '.join(order):20} {received(order)}")
assert received(("first", "second")) == b"A" * 16 + b"B" * 24
