"""Batches of work on all cores of this machine, or on the machines of a cluster, by dask.distributed.

Each task is a batch. What fails in a batch is a row of its result; a batch that ends with an error all the same, or
whose worker dies, is returned with that error, and the others go on.
"""

from __future__ import annotations

import os
import resource
import sys
import time
from argparse import ArgumentParser, Namespace
from contextlib import contextmanager
from itertools import islice
from typing import Any, Callable, Iterable, Iterator, TypeVar, Union

from distributed import Client, LocalCluster, as_completed

T = TypeVar("T")

BATCH = 2000
"""How many mails or pages are one task: some 0.2 s of work, beside which what the cluster takes for a task is little."""

AHEAD = 3
"""How many batches each worker has at a time, so that none waits for the next and not all stand in memory."""


def parser(said: str | None) -> ArgumentParser:
    """Returns the arguments that say where the work is done."""
    words = ArgumentParser(description=said)
    words.add_argument("--workers", type=int, default=os.cpu_count(), help="how many processes of this machine, if not all cores")
    words.add_argument("--scheduler", metavar="ADDRESS", help="a cluster's, as tcp://10.0.0.1:8786, in place of this machine")
    words.add_argument("--batch", type=int, default=BATCH, help=f"how many are one task, if not {BATCH}")
    words.add_argument("--quiet", action="store_true", help="no progress")
    return words


@contextmanager
def engine(words: Namespace) -> Iterator[Client]:
    """Starts the cluster that the arguments name, or one of processes on this machine."""
    if words.scheduler:
        with Client(words.scheduler) as client:
            yield client
    else:
        # (each worker has one thread, since Python makes JSON of items on one at a time)
        with LocalCluster(n_workers=words.workers, threads_per_worker=1, dashboard_address=None) as cluster:
            with Client(cluster) as client:
                yield client


def results(client: Client, task: Callable[[T], Any], batches: Iterable[T]) -> Iterator[tuple[T, Union[Any, BaseException]]]:
    """Returns each batch with the result of the task, or with the error by which it failed, as they end."""
    more, given, ended = iter(batches), {}, as_completed()

    def submit(count: int) -> None:
        for batch in islice(more, count):
            future = client.submit(task, batch, pure=False)
            given[future.key] = batch
            ended.add(future)

    submit(AHEAD * max(1, len(client.scheduler_info()["workers"])))
    for future in ended:
        error = future.exception()
        yield given.pop(future.key), future.result() if error is None else error
        future.release()
        submit(1)


def memory(client: Client) -> int:
    """Returns the sum of the most bytes that each worker had."""
    return sum(client.run(lambda: resource.getrusage(resource.RUSAGE_SELF).ru_maxrss).values()) << 10


class Progress:
    """Shows the progress of the work on standard error, each second."""

    def __init__(self, what: str, quiet: bool) -> None:
        self.what, self.quiet = what, quiet
        self.done = self.failed = 0
        self.begun = self.reported = time.monotonic()

    def add(self, done: int, failed: int) -> None:
        self.done, self.failed = self.done + done, self.failed + failed
        if not self.quiet and time.monotonic() - self.reported >= 1:
            self.reported = time.monotonic()
            speed = self.done / (self.reported - self.begun)
            print(f"{self.done} {self.what}, {speed:.0f} a second, {self.failed} failed", file=sys.stderr)

    def ended(self, client: Client) -> None:
        seconds = time.monotonic() - self.begun
        speed, megabytes = self.done / max(seconds, 1e-9), memory(client) / 1e6
        print(f"{self.done} {self.what}, {self.failed} failed: {seconds:.1f} s, {speed:.0f} a second, {megabytes:.0f} MB", file=sys.stderr)
