"""Shortens a case by delta debugging (Zeller and Hildebrandt 2002): it removes steps while the same law is broken in
the same way."""
from __future__ import annotations

from dataclasses import replace
from typing import Callable, List, Optional, Tuple

from ._adapter import Adapter
from ._case import Case, Step
from ._judge import Deviation
from ._verdict import verdict


def deviations(adapter: Adapter, case: Case) -> List[Deviation]:
    """A stack's deviations in a case."""
    answer = adapter.ask(case)
    return [Deviation(case, breach, answer) for breach in verdict(case, answer, adapter.abilities)]


def shortest(steps: Tuple[Step, ...], fails: Callable[[Tuple[Step, ...]], bool]) -> Tuple[Step, ...]:
    """Steps of which none can be removed."""
    parts = 2
    while len(steps) >= 2:
        size = -(-len(steps) // parts)
        tries = [steps[:at] + steps[at + size :] for at in range(0, len(steps), size)]
        shorter = next((it for it in tries if it and fails(it)), None)
        if shorter is not None:
            steps, parts = shorter, max(parts - 1, 2)
        elif size == 1:
            break
        else:
            parts = min(len(steps), parts * 2)
    return steps


def reduce_case(adapter: Adapter, case: Case) -> Optional[Deviation]:
    """The most serious deviation of a stack in a case, with as few steps as possible, or None."""
    found = deviations(adapter, case)
    if not found:
        return None
    gravest = min(found, key=lambda it: it.kind)

    def fails(steps: Tuple[Step, ...]) -> bool:
        return any(it.kind == gravest.kind for it in deviations(adapter, replace(case, steps=steps)))

    shorter = replace(case, steps=shortest(case.steps, fails))
    return next((it for it in deviations(adapter, shorter) if it.kind == gravest.kind), gravest)
