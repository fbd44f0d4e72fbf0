"""Two stacks, and a wire that loses packets. It prints (b'hi', ('10.0.0.1', 1024)) Counters(ip.total=1)."""
import bsdudp
a, b = bsdudp.Stack("10.0.0.1"), bsdudp.Stack("10.0.0.2")
echo = b.socket(); echo.bind(("", 7))
a.socket().sendto(b"hi", ("10.0.0.2", 7))
bsdudp.Wire([a, b], loss=0.05, seed=7).run()
print(echo.recvfrom(), b.counters)
