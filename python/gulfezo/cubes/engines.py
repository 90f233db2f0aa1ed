"""Where jobs run: threads of this process, each of which waits for a process of the program, or workers of Dask."""

from __future__ import annotations

import contextlib
import uuid
import zlib
from collections.abc import Callable
from concurrent.futures import Future, ThreadPoolExecutor
from typing import Any, Protocol

from ..errors import GulfezoError, PackageMissing
from . import working
from .working import Job, Result

FIRST_WORKER = 60  # seconds until a scheduler has a worker
Done = Callable[[Any], None]


class NoWorker(GulfezoError):
    """No worker is left, or the scheduler can't be reached."""


class Engine(Protocol):
    """What runs jobs. `run` is the name of the run of cubes, one of its own."""

    run: str

    def slots(self) -> int:
        """How many jobs it can be given at once."""

    def submit(self, job: Job, done: Done) -> None:
        """Runs the job somewhere, and then calls `done` with its future, from any thread."""

    def leave_out(self, worker: str) -> None:
        """Gives that worker, which answered wrongly, no more jobs."""

    def close(self) -> None:
        """Ends all that still runs."""


class Local:
    """So many processes of the program at once, on this machine."""

    def __init__(self, problem: bytes, workers: int) -> None:
        self.run = uuid.uuid4().hex
        self.problem = problem
        self.workers = workers
        self.pool = ThreadPoolExecutor(workers)

    def slots(self) -> int:
        """See `Engine`."""
        return self.workers

    def submit(self, job: Job, done: Done) -> None:
        """See `Engine`."""
        future: Future[Result] = self.pool.submit(working.work, self.problem, job)
        future.add_done_callback(done)

    def leave_out(self, worker: str) -> None:
        """This machine is the only one there is."""

    def close(self) -> None:
        """See `Engine`."""
        self.pool.shutdown(wait=False, cancel_futures=True)
        working.stop(self.run)
        self.pool.shutdown(wait=True)


class Dask:
    """The workers of a Dask scheduler. On each of them this package is installed, and the program."""

    def __init__(self, problem: bytes, scheduler: str) -> None:
        try:
            import distributed
        except ImportError as missing:
            raise PackageMissing(
                "workers of a scheduler need Dask's package distributed (Debian: python3-distributed; pip install "
                "'gulfezo[cubes]'); without --scheduler the cubes are solved on this machine"
            ) from missing
        self.run = uuid.uuid4().hex
        try:
            self.client = distributed.Client(scheduler, timeout=10, set_as_default=False)
        except OSError as fault:
            raise NoWorker(f"the scheduler {scheduler} can't be reached: {fault}") from fault
        try:
            self.client.wait_for_workers(1, timeout=FIRST_WORKER)
        except TimeoutError:
            self.client.close()
            raise NoWorker(f"the scheduler {scheduler} has no worker after {FIRST_WORKER} s") from None
        # A task of its own, so that each worker fetches it once, and it is made again where its holder dies.
        self.problem = self.client.submit(zlib.decompress, zlib.compress(problem, 1), key=f"problem-{self.run}")
        self.left_out: set[str] = set()
        self.futures: set[Any] = set()

    def workers(self) -> dict[str, int]:
        """The threads of each worker that isn't left out."""
        threads: dict[str, int] = self.client.nthreads()
        return {worker: count for worker, count in threads.items() if worker not in self.left_out}

    def slots(self) -> int:
        """Some more than there are threads, so that no worker waits for its next job."""
        return sum(self.workers().values()) + 2

    def submit(self, job: Job, done: Done) -> None:
        """See `Engine`. `NoWorker`: all of them are left out."""
        chosen = list(self.workers()) if self.left_out else None
        if chosen == []:
            raise NoWorker("each worker of the scheduler has answered wrongly")
        future = self.client.submit(working.work, self.problem, job, pure=False, workers=chosen)
        self.futures.add(future)
        future.add_done_callback(done)
        future.add_done_callback(self.futures.discard)

    def leave_out(self, worker: str) -> None:
        """See `Engine`."""
        self.left_out.add(worker)

    def close(self) -> None:
        """See `Engine`."""
        with contextlib.suppress(Exception):  # a scheduler that is gone has nothing to be ended
            self.client.cancel(list(self.futures))
            self.client.run(working.stop, self.run)
        self.client.close()
