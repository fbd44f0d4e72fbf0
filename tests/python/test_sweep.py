"""The same results in the same order, in this process, on all cores, and on a cluster in which a worker ends."""
import importlib
import os
import pathlib
import re
import threading
import time

import pytest

from tests.python.lossy import lossy_run
from tests.python.package import bsdudp


def squared(seed):
    return seed * seed


def slow(seed):
    """A scenario that takes long enough for a worker to be ended during it."""
    time.sleep(0.05)
    return squared(seed)


def ends_its_worker(seed):
    """Ends its process the first time that seed 5 is run."""
    mark = pathlib.Path(os.environ["BSDUDP_TEST_MARK"])
    if seed == 5 and not mark.exists():
        mark.touch()
        os._exit(1)
    return squared(seed)


def fails(seed):
    raise ValueError(f"seed {seed}")


def test_here():
    assert bsdudp.sweep(squared, range(10)) == [seed * seed for seed in range(10)]
    with pytest.raises(ValueError, match="seed 0"):
        bsdudp.sweep(fails, range(3))


def test_progress(capsys):
    """A bar that grows, on one line, and is full at the end."""
    bsdudp.sweep(slow, range(6), progress=True)
    *before, last = capsys.readouterr().err.split("\r")
    counts = [line.count("#") for line in before if line]
    assert counts and counts == sorted(counts) and 0 < counts[0] < 30
    assert re.fullmatch(r"\[#{30}\] 6 of 6 seeds, 0 s, 0 s left \n", last)
    bsdudp.sweep(slow, range(2), progress=False)
    assert capsys.readouterr().err == ""


def process(seed):
    time.sleep(0.02)
    return os.getpid()


def test_processes():
    assert bsdudp.sweep(lossy_run, range(6), 2) == [lossy_run(seed) for seed in range(6)]
    assert len(set(bsdudp.sweep(process, range(20), 2))) == 2
    assert set(bsdudp.sweep(process, range(4), 1)) != {os.getpid()}


@pytest.mark.parametrize("client, fault", [("all", ValueError), (0, ValueError), (True, TypeError), (1.5, TypeError)])
def test_where_it_runs(client, fault):
    """The error says what `client` may be."""
    with pytest.raises(fault, match='"cores", a number of processes|a number of processes must be 1 to'):
        bsdudp.sweep(squared, range(3), client)


def test_cores(tmp_path, monkeypatch):
    assert bsdudp.sweep(lossy_run, range(20), "cores") == [lossy_run(seed) for seed in range(20)]
    monkeypatch.setenv("BSDUDP_TEST_MARK", str(tmp_path / "mark"))
    assert bsdudp.sweep(ends_its_worker, range(20), "cores") == [seed * seed for seed in range(20)]
    with pytest.raises(ValueError):
        bsdudp.sweep(fails, range(3), "cores")


@pytest.mark.needs("distributed")
def test_cluster(capsys):
    distributed = importlib.import_module("distributed")
    with distributed.LocalCluster(n_workers=2, threads_per_worker=1, dashboard_address=None) as cluster:
        with distributed.Client(cluster) as client:
            results = bsdudp.sweep(lossy_run, range(20), client, progress=True)
            assert results == [lossy_run(seed) for seed in range(20)]
            assert re.search(r"\[#{30}\] 20 of 20 seeds, \d+ s, 0 s left \n$", capsys.readouterr().err)
            worker = next(iter(cluster.workers.values()))
            victim = client.run(os.getpid, workers=[worker.worker_address])[worker.worker_address]
            threading.Timer(0.3, os.kill, (victim, 9)).start()
            assert bsdudp.sweep(slow, range(60), client) == [seed * seed for seed in range(60)]
            assert bsdudp.sweep(squared, range(5), cluster.scheduler_address) == [0, 1, 4, 9, 16]
