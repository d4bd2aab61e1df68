"""The engine of Dask: each part is a task of its scheduler, and what it hands back is kept in the folder here.

The workers need no folder that they share. Each has to find this package, and the program at the path that is given.
"""

import importlib.util
import sys
import tempfile
from typing import Any, Iterator, Optional, Sequence

from cluster.engines import Engine, Job
from cluster.faults import FAILED, USAGE, Fault
from cluster.work import made_part

# So many tasks are handed to the scheduler ahead for each task that its workers do at a time.
AHEAD = 2
LEAST_AHEAD = 8

SECONDS_TO_CONNECT = 10


class DaskEngine(Engine):
    """A scheduler by its address, or so many processes of this machine."""

    def __init__(self, jobs: int, scheduler: Optional[str]) -> None:
        self.jobs, self.scheduler = jobs, scheduler

    def check(self, job: Job) -> None:
        if importlib.util.find_spec("distributed") is None:
            raise Fault(USAGE, "engine refused Missing dask", "it is in Debian's package python3-distributed")
        if self.scheduler:
            self.client(self.scheduler).close()

    @staticmethod
    def client(scheduler: str) -> Any:
        """A client of the scheduler at an address."""
        from distributed import Client

        try:
            return Client(scheduler, timeout=SECONDS_TO_CONNECT)
        except (OSError, ValueError) as fault:
            raise Fault(USAGE, f"engine refused Scheduler {scheduler}", str(fault)) from fault

    def do(self, job: Job, numbers: Sequence[int]) -> None:
        if self.scheduler:
            with self.client(self.scheduler) as client:
                self.collect(client, job, numbers)
            return
        from distributed import Client, LocalCluster

        local = {"threads_per_worker": 1, "processes": True, "dashboard_address": None, "silence_logs": "CRITICAL"}
        with tempfile.TemporaryDirectory(prefix="jvm-cluster-") as space:
            with LocalCluster(n_workers=self.jobs, local_directory=space, **local) as cluster:
                with Client(cluster) as client:
                    self.collect(client, job, numbers)

    def collect(self, client: Any, job: Job, numbers: Sequence[int]) -> None:
        """Hands parts to the scheduler, some ahead, and keeps what comes back."""
        from distributed import as_completed

        futures = self.futures(client, job, numbers)
        ahead = max(LEAST_AHEAD, AHEAD * sum(client.ncores().values()))
        waiting = as_completed([future for _, future in zip(range(ahead), futures)])
        for future in waiting:
            self.keep(job, future)
            following = next(futures, None)
            if following is not None:
                waiting.add(following)

    def futures(self, client: Any, job: Job, numbers: Sequence[int]) -> Iterator[Any]:
        """The tasks of the parts, one after another, up to one behind which none is needed."""
        plan = job.folder.plan()
        files = job.folder.files(plan)
        for number in numbers:
            if job.folder.is_needless(number):
                return
            yield client.submit(made_part, plan, files, number, job.program, pure=False)

    @staticmethod
    def keep(job: Job, future: Any) -> None:
        """Keeps a part that is done, and tells why one is not."""
        if future.status == "finished":
            job.folder.keep(future.result())
            return
        why = future.exception() if future.status == "error" else Fault(FAILED, f"part failed: {future.status}")
        sys.stderr.write(why.told() if isinstance(why, Fault) else f"part failed: {why}\n")
