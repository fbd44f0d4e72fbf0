"""Runs a scenario for many seeds: in this process, on all cores, or on a Dask cluster."""
from __future__ import annotations

import concurrent.futures
import concurrent.futures.process
import importlib
import sys
import time
from typing import (
    Any,
    Callable,
    Dict,
    Iterable,
    List,
    Optional,
    Protocol,
    SupportsIndex,
    TypeVar,
    Union,
    runtime_checkable,
)

from ._addresses import in_range

Result = TypeVar("Result")

CORES = "cores"
# How often a seed is tried before lost workers are reported as an error.
TRIES = 5
MOST_PROCESSES = 1024
BAR = 30  # the width of the bar, in characters
PAUSE = 0.1  # between two pictures of the bar, in seconds
WHERE = (
    'client must be None (this process), "cores", a number of processes, a distributed.Client or the address of a Dask'
    ' scheduler, such as "tcp://10.0.0.9:8786"'
)


@runtime_checkable
class ClusterClient(Protocol):
    """The methods of a `distributed.Client` that this package uses."""

    @property
    def map(self) -> Callable[..., Any]:
        """Calls a function on the cluster for each element of a list."""

    @property
    def gather(self) -> Callable[..., Any]:
        """Returns the results."""


class _Progress:
    """A line on standard error, which is rewritten whenever a seed is done."""

    def __init__(self, total: int, shown: bool) -> None:
        self._total, self._shown, self._done = total, shown, 0
        self._begun = self._drawn = time.monotonic()

    def one(self) -> None:
        self._done += 1
        now = time.monotonic()
        if self._shown and now - self._drawn >= PAUSE:
            self._drawn = now
            self._draw(now)

    def _draw(self, now: float) -> None:
        bar = "#" * (BAR * self._done // self._total)
        passed = now - self._begun
        left = passed / self._done * (self._total - self._done)
        line = f"[{bar:.<{BAR}}] {self._done} of {self._total} seeds, {passed:.0f} s, {left:.0f} s left "
        print(f"\r{line}", end="", file=sys.stderr, flush=True)

    def end(self) -> None:
        if self._shown and self._done:
            self._draw(time.monotonic())
            print(file=sys.stderr)


def _here(scenario: Callable[[int], Result], seeds: List[int], progress: _Progress) -> List[Result]:
    results = []
    for seed in seeds:
        results.append(scenario(seed))
        progress.one()
    return results


def _on_cores(
    scenario: Callable[[int], Result], seeds: List[int], processes: Optional[int], progress: _Progress
) -> List[Result]:
    """Runs the seeds in this number of processes, or in one for each core. Seeds of a worker that was lost are run
    again by new workers."""
    results: Dict[int, Result] = {}
    for _ in range(TRIES):
        left = [at for at in range(len(seeds)) if at not in results]
        if not left:
            break
        with concurrent.futures.ProcessPoolExecutor(processes) as pool:
            futures = {pool.submit(scenario, seeds[at]): at for at in left}
            for future in concurrent.futures.as_completed(futures):
                try:
                    results[futures[future]] = future.result()
                except concurrent.futures.process.BrokenProcessPool:
                    continue
                progress.one()
    if len(results) < len(seeds):
        raise RuntimeError(f"workers died {TRIES} times: {len(seeds) - len(results)} seeds have no result")
    return [results[at] for at in range(len(seeds))]


def _on_dask(
    scenario: Callable[[int], Result], seeds: List[int], client: Union[str, ClusterClient], progress: _Progress
) -> List[Result]:
    distributed: Any = importlib.import_module("distributed")
    own = isinstance(client, str)
    asked = distributed.Client(client) if own else client
    try:
        futures = asked.map(scenario, seeds, pure=False, retries=TRIES)
        for _ in distributed.as_completed(futures):
            progress.one()
        return list(asked.gather(futures))
    finally:
        if own:
            asked.close()


def sweep(
    scenario: Callable[[int], Result],
    seeds: Iterable[int] = range(1000),
    client: Union[None, str, SupportsIndex, ClusterClient] = None,
    progress: Optional[bool] = None,
) -> List[Result]:
    """Calls `scenario(seed)` for each seed. Returns a list of the results, in the order of the seeds.

    client    None: in this process. "cores": on all cores of this computer; a number: in that number of processes. A
              `distributed.Client`, or the address of a scheduler such as "tcp://10.0.0.9:8786": on a Dask cluster whose
              workers have this package.
    progress  whether a bar on standard error shows how many seeds are done, and the time left. The default is True if
              standard error is a terminal, otherwise False.

    If a worker ends unexpectedly, its seeds are run again, so no result is lost. An exception of the scenario is raised
    here. A scenario for other processes must be a function of a module, and its result must be picklable.

    >>> def lost(seed):
    ...     a, b = bsdudp.Stack("10.0.0.1"), bsdudp.Stack("10.0.0.2")
    ...     wire, socket = bsdudp.Wire([a, b], loss=0.5, seed=seed), a.socket()
    ...     for _ in range(10):
    ...         socket.sendto(b"hi", ("10.0.0.2", 7))
    ...     wire.run()
    ...     return wire.carried.lost
    >>> bsdudp.sweep(lost, range(4))
    [5, 6, 2, 4]"""
    wanted = list(seeds)
    shown = _Progress(len(wanted), sys.stderr.isatty() if progress is None else progress)
    try:
        if client is None:
            return _here(scenario, wanted, shown)
        if client == CORES:
            return _on_cores(scenario, wanted, None, shown)
        if isinstance(client, str):
            if ":" not in client:
                raise ValueError(f"{WHERE}, not {client!r}")
            return _on_dask(scenario, wanted, client, shown)
        if isinstance(client, ClusterClient):
            return _on_dask(scenario, wanted, client, shown)
        if isinstance(client, bool) or not hasattr(client, "__index__"):
            raise TypeError(f"{WHERE}, not {type(client).__name__}")
        return _on_cores(scenario, wanted, in_range("a number of processes", client, 1, MOST_PROCESSES), shown)
    finally:
        shown.end()
