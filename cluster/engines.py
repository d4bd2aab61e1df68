"""The engines that do the parts of a plan: GNU parallel, and what an engine is. That of Dask is in dask_engine.py."""

import abc
import os
import pathlib
import shutil
import subprocess
import sys
from typing import NamedTuple, Optional, Sequence

from cluster.faults import USAGE, Fault
from cluster.folders import Folder
from tools.repository import ROOT

COMMAND = ROOT / "tools/jvm-cluster"

# What GNU parallel takes for its own in a word.
BRACES = ("{", "}")


class Job(NamedTuple):
    """A folder with a plan, and the path of the program on each machine."""

    folder: Folder
    program: str


class Engine(abc.ABC):
    """What does parts: each that is done is kept in the folder, and one that fails is left out."""

    @abc.abstractmethod
    def check(self, job: Job) -> None:
        """Raises a fault where the engine can't be used, before anything is written."""

    @abc.abstractmethod
    def do(self, job: Job, numbers: Sequence[int]) -> None:
        """Does these parts, or fewer. It may leave out those behind one that has found what is looked for."""


class ParallelEngine(Engine):
    """GNU parallel: each part is a process that reads and writes files of the folder, which all machines share."""

    def __init__(self, jobs: int, machines: Optional[pathlib.Path]) -> None:
        self.jobs, self.machines = jobs, machines

    def check(self, job: Job) -> None:
        found = shutil.which("parallel")
        said = subprocess.run([found, "--version"], capture_output=True).stdout if found else b""
        if not said.startswith(b"GNU parallel"):
            raise Fault(USAGE, "engine refused Missing parallel", "it is in Debian's package parallel, of GNU parallel")
        if self.machines and not os.access(self.machines, os.R_OK):
            raise Fault(USAGE, f"engine refused Machines {self.machines}", "the file can't be read")
        for path in (job.folder.path, job.program, COMMAND, sys.executable):
            if any(brace in str(path) for brace in BRACES):
                raise Fault(USAGE, f"engine refused Braces {path}", "GNU parallel takes braces in a path for its own")

    def do(self, job: Job, numbers: Sequence[int]) -> None:
        machines = ["--sshloginfile", str(self.machines)] if self.machines else []
        options = ["--plain", "--will-cite", "--quote", "--jobs", str(self.jobs), *machines]
        part = [sys.executable, "-B", str(COMMAND), "part", "--program", job.program, str(job.folder.path), "{}"]
        subprocess.run(["parallel", *options, *part], input="".join(f"{number}\n" for number in numbers), text=True)
