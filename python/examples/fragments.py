"""Fragments, with scapy on the other side: a datagram is cut by scapy and made whole by the stack, and the other way."""
import bsdudp
from scapy.all import IP, UDP, Raw, defragment, fragment

with bsdudp.Stack("10.0.0.1") as stack:
    it = stack.socket()
    it.bind(("", 7))

    text = b"all that scapy sends " * 150
    whole = IP(src="10.0.0.2", dst="10.0.0.1", id=77) / UDP(sport=5000, dport=7) / Raw(text)
    pieces = fragment(IP(bytes(whole)), 600)
    print(f"scapy cuts {len(text)} bytes into {len(pieces)} fragments; they come in the reverse order")
    for piece in reversed(pieces):
        stack.rx(piece)
    data, sender = it.recvfrom()
    print(f"the stack makes {len(data)} bytes of them, from {sender}")
    assert data == text

    it.sendto(b"and back " * 400, ("10.0.0.2", 5000))
    back = [IP(packet) for packet in stack.packets()]
    print(f"the stack cuts its answer into {len(back)} fragments")
    (answer,) = defragment(back)
    assert bytes(answer[UDP].payload) == b"and back " * 400
    print("scapy makes it whole")
