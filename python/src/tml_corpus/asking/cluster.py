"""The same work beyond one machine: as tasks of a Dask cluster, with the results in the order of the files.

What is done where, and again where a worker was lost, is the business of its scheduler. Here files are put together to batches, no more
of them are under way than the workers are busy with, and the results are taken in order, so that memory stays bounded.
"""

from __future__ import annotations

import asyncio
import concurrent.futures
import importlib
import logging
import os
import pkgutil
import shutil
import sys
import time
from collections import deque
from collections.abc import Callable, Iterator, Sequence
from contextlib import contextmanager
from itertools import islice
from typing import TYPE_CHECKING, TypeVar

from tml.finding import Answering, AtPath, Loadable

from ..command_line.statuses import ENDED
from ..files.finding import Found, counted
from ..files.writing import folder_for_a_while
from .archive import archive
from .batch import read, written
from .pool import PATIENCE, Interruption, nothing
from .program import CannotRun, Program

if TYPE_CHECKING:
    from distributed import Client, Future

Result = TypeVar("Result")
Work = Callable[[Found], Result]
Failed = Callable[[Found, str], Result]

BATCH = 16
"""How many files are a task."""

AHEAD = 4
"""How many batches for each thread of the workers are under way or wait to be reported."""

ANSWERING = 5.0
"""How many seconds a scheduler has to answer."""

LOOKING = 2.0
"""After so many seconds the workers are counted again."""

CANCELLED = (asyncio.CancelledError, concurrent.futures.CancelledError)


@contextmanager
def connected(address: str, library: AtPath | None, stop: Interruption) -> Iterator[Cluster]:
    """The cluster whose scheduler is at an address, with the tools and a library on its workers."""
    try:
        from distributed import Client
        from distributed.comm import resolve_address
    except ImportError:
        raise CannotRun(f"--cluster needs the module distributed (of Debian: python3-distributed), which {sys.executable} lacks") from None
    # What a user has to know of is said by this program.
    logging.disable(logging.CRITICAL)
    try:
        resolve_address(address)
        client = Client(address, timeout=ANSWERING)
    except (OSError, ValueError, TypeError) as error:
        raise CannotRun(f"no scheduler of a Dask cluster answers at {address}: {error}") from None
    with client, folder_for_a_while() as folder:
        cluster = Cluster(client, address)
        with cluster.needed():
            cluster.wait_for_a_worker(stop)
            cluster.give_package(folder, library)
        yield cluster


class Cluster:
    """A cluster that one is connected with."""

    def __init__(self, client: Client, address: str) -> None:
        self.client, self.address, self.base = client, address, os.getcwd()
        self.threads, self.looked, self.reported = 0, -LOOKING, False
        self.library: Loadable | None = None
        self.prepare: Callable[[], None] = nothing

    @contextmanager
    def needed(self) -> Iterator[None]:
        """Tells what was asked of the cluster in vain."""
        try:
            yield
        except (OSError, *CANCELLED) as error:
            raise CannotRun(
                f"the cluster at {self.address} was lost or cancelled the tasks, so not all files were looked at ({error})"
            ) from None

    def look(self) -> None:
        """Counts the threads of the workers, if that was long ago; where there is none, that is said once."""
        if time.monotonic() - self.looked < LOOKING:
            return
        self.threads = sum(self.client.nthreads().values())
        self.looked = time.monotonic()
        if not self.threads and not self.reported:
            print("tml-corpus: the cluster has no worker; waiting for one", file=sys.stderr, flush=True)
        self.reported = not self.threads

    def wait_for_a_worker(self, stop: Interruption) -> None:
        """Waits until there is a worker, or an interruption."""
        self.look()
        while not self.threads and not stop.happened.wait(PATIENCE):
            self.look()

    def give_package(self, folder: str, library: AtPath | None) -> None:
        """Sends the tools and the library to the workers, those that come later included, where they do not have them yet."""
        path, name, self.library = archive(folder, library)
        sys.path.insert(0, path)
        self.do_batch = importlib.import_module(f"{name}.asking.batch").do_batch
        held = self.client.run(pkgutil.get_data, name, "__init__.py")
        if not held or None in held.values():
            self.client.upload_file(path)

    def program(self, found: Answering) -> Program:
        """The program that the workers start: the named one, else the one that was found here if they see it, else that on their PATH."""
        here = found.program or "tml"
        for name in [os.path.abspath(here) if os.path.dirname(here) else here] + ["tml"] * (not found.is_named):
            with self.needed():
                places = self.client.run(shutil.which, name)
            lacking = [worker for worker, place in places.items() if place is None]
            if not lacking:
                return Program(name, self.library)
        at = f"{len(lacking)} of {counted(len(places), 'worker')}, such as {min(lacking)}"
        raise CannotRun(f"no program {name} at {at}: choose one that all of them see by --tml PROGRAM")

    def in_order(
        self, work: Work[Result], files: Sequence[Found], stop: Interruption, failed: Failed[Result], prepare: Callable[[], None]
    ) -> Iterator[Result]:
        """The results of the files in their order. After an interruption those that are there are reported, and the other tasks
        cancelled."""
        rest, self.prepare = iter(files), prepare
        waiting: deque[tuple[list[Found], Future]] = deque()
        with self.needed():
            while True:
                while len(waiting) < self.room(stop) and (batch := list(islice(rest, BATCH))):
                    waiting.append((batch, self.submit(work, failed, batch)))
                if not waiting or not self.is_done(waiting[0][1], stop):
                    break
                batch, future = waiting.popleft()
                results: list[Result] | None = self.results_of(future)
                if results is not None:
                    yield from results
                    continue
                yield from self.one_by_one(work, failed, batch, [other for _, other in waiting], stop)
                if stop.happened.is_set():
                    break
            self.client.cancel([future for _, future in waiting])

    def room(self, stop: Interruption) -> int:
        """How many batches may be under way."""
        if stop.happened.is_set():
            return 0
        self.look()
        return AHEAD * max(self.threads, 1)

    def submit(self, work: Work[Result], failed: Failed[Result], batch: list[Found]) -> Future:
        """Gives a batch to the scheduler. The paths are those of this folder; earlier batches go before later ones."""
        there = [Found(file.path, file.problem, self.base) for file in batch]
        return self.client.submit(self.do_batch, written((self.prepare, work, failed, there)), pure=False, fifo_timeout="0 ms")

    def is_done(self, future: Future, stop: Interruption) -> bool:
        """Waits until a task is done, or for an interruption, and answers whether it is done."""
        from distributed import wait

        while not stop.happened.is_set():
            try:
                wait(future, PATIENCE)
                return True
            except TimeoutError:
                self.look()
        return bool(future.status == "finished")

    def results_of(self, future: Future) -> list[Result] | None:
        """The results of a task that is done, or None where worker after worker was lost with it."""
        from distributed import KilledWorker

        try:
            results: list[Result] = read(future.result())
            return results
        except KilledWorker:
            return None
        except (OSError, *CANCELLED):
            raise
        except Exception as error:
            raise CannotRun(f"a worker of the cluster could not do its task: {type(error).__name__}: {error}") from None

    def one_by_one(
        self, work: Work[Result], failed: Failed[Result], batch: list[Found], others: list[Future], stop: Interruption
    ) -> Iterator[Result]:
        """The results of a batch with which workers were lost, each file alone, so that only the one that ends workers has it in its
        report.

        Nothing else is under way then: the scheduler blames all tasks that a lost worker had.
        """
        for other in others:
            self.is_done(other, stop)
        for file in batch:
            future = self.submit(work, failed, [file])
            if not self.is_done(future, stop):
                self.client.cancel([future])
                return
            yield from self.results_of(future) or [failed(file, ENDED)]
