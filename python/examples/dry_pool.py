"""A pool that runs dry: fragments of datagrams that never become whole fill it. One that finds no buffer free makes the stack
give up all that wait. Those that came after it go when 60 ticks have passed."""
import argparse

import bsdudp
from scapy.all import IP, UDP, Raw

parser = argparse.ArgumentParser(description=__doc__)
parser.add_argument("plot", nargs="?", metavar="PLOT.png", help="a plot of it is written to this file")
words = parser.parse_args()
free, moments = [], []


def note(stack, what):
    free.append(stack.mbstat.free_mbufs)
    moments.append(what)


with bsdudp.Stack("10.0.0.1", mbufs=64, clusters=8) as stack:
    it = stack.socket()
    it.bind(("", 7))
    before = stack.counters
    note(stack, "boot")
    for ident in range(40):
        stack.rx(IP(src="10.0.0.2", dst="10.0.0.1", id=ident, flags="MF") / UDP(sport=5000, dport=7, len=64) / Raw(bytes(40)))
        note(stack, f"fragment {ident}")
    print("after 40 first fragments:", stack.mbstat.free_mbufs, "mbufs are free;", stack.why(before))
    it.sendto(bytes(3000), ("10.0.0.2", 7))
    note(stack, "send")
    print("after a send of 3,000 bytes:", stack.mbstat.free_mbufs, "mbufs are free;", stack.why(before))
    for packet in stack.packets():
        note(stack, f"packet of {len(packet)} bytes left")
    stack.tick(60)
    note(stack, "30 seconds later")
    usage = stack.mbstat
    print("30 seconds later:", usage.free_mbufs, "of", usage.mbufs, "mbufs are free")
    assert (usage.free_mbufs, usage.free_clusters) == (usage.mbufs, usage.clusters)

if words.plot:
    import matplotlib

    matplotlib.use("Agg")
    import matplotlib.pyplot as plt

    plt.step(range(len(free)), free, where="post")
    plt.xlabel("event")
    plt.ylabel("free mbufs")
    plt.savefig(words.plot)
