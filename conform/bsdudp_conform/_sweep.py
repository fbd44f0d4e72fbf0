"""Many seeds of random mixes: on all cores, or on a Dask cluster."""
from __future__ import annotations

import concurrent.futures
import functools
import importlib
from typing import Any, Iterable, List, NamedTuple, Optional, Sequence

from ._adapter import TIMEOUT_S
from ._judge import Progress, judge
from .cases import make_mixes

MIXES_A_SEED = 20


class Found(NamedTuple):
    """A deviation of a seed. `run --seeds SEED --only CASE` plays it again."""

    seed: int
    case: str
    level: str
    cause: str


def seed_found(command: Sequence[str], timeout: float, seed: int) -> List[Found]:
    """A stack's deviations in the mixes of a seed."""
    judged = judge(command, make_mixes(seed, MIXES_A_SEED), timeout=timeout, progress=False)
    return [Found(seed, it.case.name, it.breach.level, it.cause) for it in judged.deviations]


def sweep_seeds(
    command: Sequence[str], seeds: Sequence[int], client: Optional[str] = None, timeout: float = TIMEOUT_S
) -> List[Found]:
    """A stack's deviations in the mixes of many seeds. client: the scheduler of a Dask cluster, whose workers need the
    adapter and this package."""
    scenario = functools.partial(seed_found, list(command), timeout)
    if client:
        distributed: Any = importlib.import_module("distributed")
        with distributed.Client(client) as cluster:
            return joined(cluster.gather(cluster.map(scenario, list(seeds), pure=False)), len(seeds))
    with concurrent.futures.ProcessPoolExecutor() as pool:
        return joined(pool.map(scenario, seeds), len(seeds))


def joined(results: Iterable[List[Found]], count: int) -> List[Found]:
    """All results, with the progress on standard error."""
    told, found = Progress("seeds", count, None), []  # type: Progress, List[Found]
    for one in results:
        found += one
        told.one()
    told.end()
    return found
