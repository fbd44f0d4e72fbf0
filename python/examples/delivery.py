"""Delivery, delay and drops over a wire that loses packets, by loss and by the datagrams' length: measured over many
seeds, and computed. A datagram of n fragments arrives if none of them is lost: with the chance (1 - p) to the power of
n. It takes as long as the slowest of them."""
import argparse
import collections
import math
import os
import signal

import bsdudp

LENGTHS = (100, 1_472, 2_900, 5_800, 9_216)
LOSSES = (0.01, 0.05, 0.1, 0.2)
DELAY = (5, 40)  # of a packet, in milliseconds
DATAGRAMS = 60  # of each loss and length
EVERY = 500  # milliseconds between two datagrams
SEEDS = int(os.environ.get("SEEDS", "100"))
CAUSES = ("lost on the wire", "fragments missing", "dropped for buffers")


def fragments(length):
    """How many packets a datagram takes at an MTU of 1,500: each fragment but the last has 1,480 bytes."""
    return math.ceil((length + 8) / 1_480)


def slowest(count):
    """The mean of the greatest of `count` delays, in milliseconds."""
    least, most = DELAY
    size = most - least + 1
    return least + sum(1 - (k / size) ** count for k in range(1, size))


def sent(loss, length, seed):
    """Sends datagrams; returns the delays of those that arrived, and the drops by cause. After one was dropped for its
    buffers, its later fragments are another one that is dropped."""
    delays, lost = [], collections.Counter()
    with bsdudp.Stack("10.0.0.1") as one, bsdudp.Stack("10.0.0.2") as other:
        to = other.socket()
        to.bind(("", 7))
        sender = one.socket()
        wire = bsdudp.Wire([one, other], loss=loss, delay=DELAY, seed=seed)
        wire.on_loss = lambda it: lost.update([it.packet.identification])

        def receive():
            while to.waiting:
                delays.append(wire.now - int(to.recv()[:10]))

        for _ in range(DATAGRAMS):
            sender.sendto(b"%010d" % wire.now + bytes(length - 10), ("10.0.0.2", 7))
            wire.advance(EVERY, receive)
        wire.advance(31_000, receive)  # what lacks fragments is dropped after 30 seconds
        whole = sum(count == fragments(length) for count in lost.values())
        counted = other.counters
        return delays, (whole, counted["ip.fragtimeout"], counted["ip.reclaimed"] + counted["nobufs"])


def scenario(seed):
    """The results for each loss and length."""
    pairs = [(loss, length) for loss in LOSSES for length in LENGTHS]
    return [sent(loss, length, seed * len(pairs) + at) for at, (loss, length) in enumerate(pairs)]


def summed(results):
    """For each loss and length: the share that arrived, all delays, and the causes for each datagram."""
    for column in zip(*results):
        delays = [delay for found, _ in column for delay in found]
        causes = [sum(part) / SEEDS / DATAGRAMS for part in zip(*(found for _, found in column))]
        yield len(delays) / SEEDS / DATAGRAMS, sum(delays) / max(len(delays), 1), causes


def table(rows):
    print("  loss  bytes  fragments  arrived   law  delay   law  " + "  ".join(CAUSES))
    for (loss, length), (share, delay, causes) in zip(((a, b) for a in LOSSES for b in LENGTHS), rows):
        count = fragments(length)
        law = (1 - loss) ** count
        shown = "  ".join(f"{part:{len(name)}.3f}" for part, name in zip(causes, CAUSES))
        print(f"{loss:6} {length:6} {count:10} {share:8.3f} {law:5.3f} {delay:6.1f} {slowest(count):5.1f}  {shown}")
        near = 5 * math.sqrt(law * (1 - law) / SEEDS / DATAGRAMS) + 1e-9
        assert share < law + near, "more arrived than can"
        assert share > law - near or causes[2], "fewer arrived, and the pool was large enough"


def plot(rows, path):
    """Draws the three over each other's lengths and losses."""
    import matplotlib

    matplotlib.use("Agg")
    import matplotlib.pyplot as plt

    figure, (left, middle, right) = plt.subplots(1, 3, figsize=(13, 4), layout="constrained")
    for row, loss in enumerate(LOSSES):
        part = rows[row * len(LENGTHS) : (row + 1) * len(LENGTHS)]
        (line,) = left.plot(LENGTHS, [share for share, _, _ in part], "o", label=f"{loss:.0%} of packets lost")
        left.plot(LENGTHS, [(1 - loss) ** fragments(it) for it in LENGTHS], "--", color=line.get_color())
        middle.plot(LENGTHS, [delay for _, delay, _ in part], "o", color=line.get_color())
        under = [0.0] * len(LENGTHS)
        places = [row * (len(LENGTHS) + 1) + at for at in range(len(LENGTHS))]
        for at, (name, colour) in enumerate(zip(CAUSES, ("#9ecae1", "#fdae6b", "#de2d26"))):
            high = [causes[at] for _, _, causes in part]
            right.bar(places, high, bottom=under, color=colour, label=name if row == 0 else None)
            under = [a + b for a, b in zip(under, high)]
    middle.plot(LENGTHS, [slowest(fragments(it)) for it in LENGTHS], "k--")
    left.set(title="Delivered (dashed: formula)", xlabel="bytes of the datagram", ylim=(0, 1.05))
    left.legend()
    middle.set(title="Mean delay in ms (dashed: formula)", xlabel="bytes of the datagram", ylim=(0, DELAY[1] + 2))
    middle_of_groups = [row * (len(LENGTHS) + 1) + 2 for row in range(len(LOSSES))]
    right.set_xticks(middle_of_groups, [f"{loss:.0%}" for loss in LOSSES])
    lengths = ", ".join(f"{it:,}" for it in LENGTHS)
    right.set(title="Drops for each datagram sent, by cause", xlabel=f"loss; bars: {lengths} bytes", ylim=(0, 1))
    right.legend()
    figure.savefig(path, dpi=80)


if __name__ == "__main__":
    parser = argparse.ArgumentParser(description=__doc__)
    parser.add_argument("plot", nargs="?", metavar="PLOT.png", help="a plot of it is written to this file")
    words = parser.parse_args()
    rows = list(summed(bsdudp.sweep(scenario, range(SEEDS), "cores")))
    signal.signal(signal.SIGPIPE, signal.SIG_DFL)  # `delivery.py | head` ends without a message
    table(rows)
    if words.plot:
        plot(rows, words.plot)
