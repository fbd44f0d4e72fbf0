"""A scenario with a wire that loses packets. It's a module, because other processes import it by its name."""
from tests.python.package import bsdudp


def lossy_run(seed):
    """Returns how many of ten datagrams in three fragments arrive."""
    with bsdudp.Stack("10.0.0.1") as one, bsdudp.Stack("10.0.0.2") as other:
        to = other.socket()
        to.bind(("", 7))
        sender = one.socket()
        wire = bsdudp.Wire([one, other], loss=0.2, seed=seed)
        for _ in range(10):
            sender.sendto(bytes(4000), ("10.0.0.2", 7))
            wire.run()
        count = 0
        while to.waiting:
            to.recv()
            count += 1
        return count, wire.carried
