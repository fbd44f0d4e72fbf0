"""Many cases on one stack, and random mixes. The laws and the reference machines decide what must be delivered."""
from __future__ import annotations

from typing import Any, Dict, List

from .._addresses import BROADCAST, HOST, PEER, PEER2
from .._case import Case
from .._packets import MORE, packet, pieces, udp, with_checksum
from ._builder import Builder, Given

MANY_STEPS = 40
# Rules that many stacks break in a single packet: in a run they would hide its purpose, the state that is left over.
BY_THEMSELVES = ("ip.options", "ip.src.", "ip.dst.", "icmp.", "udp.len.", "frag.options")


def add_runs(to: Builder, count: int) -> None:
    """Random cases of other rules, one after the other on one stack: the state left by one may affect the next."""
    fit: List[Case] = [
        it
        for it in to.cases
        if not it.slow
        and not it.needs
        and not it.rule.startswith(BY_THEMSELVES)
        and len(it.steps) < MANY_STEPS
        and it.size[1] < 4000
    ]
    for number in range(count):
        chosen = to.random.sample(fit, to.random.choice([2, 3, 5, 10, 20]))
        steps = [step for it in chosen for step in it.steps]
        to.add(
            "run",
            f"{len(chosen)} cases: {', '.join(it.name for it in chosen[:4])}{' ..' if len(chosen) > 4 else ''}",
            steps,
            parts=chosen,
        )


def add_mixes(to: Builder, count: int) -> None:
    for number in range(count):
        queues = [mixed(to, 4 * number % 0x6000) for _ in range(to.random.randint(1, 3))]
        steps: List[Given] = []
        while queues:
            queue = to.random.choice(queues)
            steps.append(queue.pop(0))
            if not queue:
                queues.remove(queue)
        to.add("mix", f"mix {number + 1}", steps)


def mixed(to: Builder, base: int) -> List[Given]:
    """The fragments of one datagram in some order, possibly with one fault."""
    random = to.random
    ends: Dict[str, Any] = {
        "source": random.choice([PEER, PEER, PEER2]),
        "destination": random.choice([HOST, HOST, HOST, BROADCAST]),
    }
    length = random.choice([0, 1, 7, 8, 16, 24, 40, 41, 63, 100, 200])
    data = udp(to.data(length), **ends, check=None if random.random() < 0.6 else 0)
    key: Dict[str, Any] = {**ends, "id": 0x3000 + base + random.choice([1, 1, 2, 3])}
    places = range(8, len(data), 8)
    made: List[Given] = list(pieces(data, sorted(random.sample(places, min(random.randint(0, 4), len(places)))), **key))
    order = random.random()
    if order < 0.4:
        random.shuffle(made)
    elif order < 0.5:
        made.reverse()
    fault = random.random()
    if fault < 0.12:
        made.insert(random.randint(0, len(made)), random.choice(made))
    elif fault < 0.24 and len(made) > 1:
        made.pop(random.randrange(len(made)))
    elif fault < 0.36:
        made.insert(random.randint(0, len(made)), damaged(to, random.choice(made)))
    elif fault < 0.48:
        begin = 8 * random.randint(0, len(data) // 8)
        end = min(len(data), begin + 8 * random.randint(1, 6))
        if end > begin:
            more = MORE if random.random() < 0.7 else 0
            made.insert(random.randint(0, len(made)), packet(to.data(end - begin), offset=begin, flags=more, **key))
    elif fault < 0.53:
        made.insert(random.randint(0, len(made)), random.choice([100, 500]))
    return made


def damaged(to: Builder, made: Given) -> bytes:
    """A bit of the header inverted, half of the time with a corrected checksum."""
    assert isinstance(made, bytes)
    place = to.random.randrange(20)
    wrong = made[:place] + bytes([made[place] ^ 1 << to.random.randrange(8)]) + made[place + 1 :]
    return wrong if to.random.random() < 0.5 else with_checksum(wrong)
