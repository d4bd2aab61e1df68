"""The folders in which crates are proved side by side, and the proofs in them.

`rt` lets one command at a time work in the folders of a crate and of all that it stands on. So the first proof works in
the repository, and each further one at the same time in a copy of the crates' text. What is proved in one of these
folders `rt` takes over into the others.
"""

import hashlib
import os
import pathlib
import re
import shutil
import subprocess
import tempfile
import time
from typing import IO, Dict, Iterable, List, Optional

from tools.repository import ROOT

BYTES_OF_A_PROOF = 4 << 30

# What a crate's folder has that isn't its text.
MADE = "out"

# The last line of each proof; in one command's output there is one for each crate that it proved.
VERDICT = re.compile(rb"^logic=", re.M)

SECONDS_TO_END = 10


class NoToolchain(Exception):
    """There is no `rt`."""


def toolchain() -> str:
    """The path of `rt`."""
    found = shutil.which("rt")
    if not found:
        raise NoToolchain("there is no rt in the path: the toolchain of Rattle is needed")
    return found


def version_of_toolchain() -> str:
    return subprocess.run([toolchain(), "version"], stdout=subprocess.PIPE, text=True).stdout


def folder_of_copies() -> pathlib.Path:
    """Where the copies of this repository stand. It is outside, since `rt ci` refuses sources that no crate has."""
    cache = os.environ.get("XDG_CACHE_HOME") or os.path.join(os.path.expanduser("~"), ".cache")
    return pathlib.Path(cache) / "jvm-build" / hashlib.sha256(str(ROOT).encode()).hexdigest()[:16]


def copy_text(names: Iterable[str], to: pathlib.Path) -> None:
    """Gives the folder the text of these crates; what `rt` made there stays."""
    for name in names:
        source, folder = ROOT / "crates" / name, to / "crates" / name
        folder.mkdir(parents=True, exist_ok=True)
        for path in folder.iterdir():
            if path.name != MADE:
                shutil.rmtree(path) if path.is_dir() else path.unlink()
        for path in source.iterdir():
            if path.name != MADE and path.is_dir():
                shutil.copytree(path, folder / path.name)
            elif path.name != MADE:
                shutil.copy2(path, folder / path.name)
    for name in ("crates.txt", "HANDLES"):
        shutil.copy2(ROOT / name, to / name)


class Lanes:
    """The folders, and which of them a proof works in."""

    def __init__(self, names: Iterable[str]) -> None:
        self.names = list(names)
        self.copies = folder_of_copies()
        self.free = [ROOT]
        self.made = 1

    def take(self) -> pathlib.Path:
        """A folder that no proof works in: the repository, where it is free."""
        if not self.free:
            copy = self.copies / str(self.made)
            copy_text(self.names, copy)
            self.made += 1
            return copy
        folder = min(self.free, key=lambda folder: (folder != ROOT, str(folder)))
        self.free.remove(folder)
        return folder

    def have(self, crate: str) -> bool:
        """Whether some folder has something that was made of the crate."""
        return any((folder / "crates" / crate / MADE).is_dir() for folder in [ROOT, *self.copies.glob("*")])

    def remove(self) -> None:
        """Removes the copies."""
        shutil.rmtree(self.copies, ignore_errors=True)


class Proof:
    """A crate that is being proved: where, by how many processes, and since when."""

    def __init__(self, crate: str, words: List[str], folder: pathlib.Path, processes: int) -> None:
        self.folder, self.processes, self.begun = folder, processes, time.monotonic()
        self.output: IO[bytes] = tempfile.TemporaryFile()
        self.process = subprocess.Popen(
            [toolchain(), words[0], "--jobs", str(processes), *words[1:]],
            cwd=folder / "crates" / crate,
            stdin=subprocess.DEVNULL,
            stdout=self.output,
            stderr=subprocess.STDOUT,
        )

    def status(self) -> Optional[int]:
        """The status, once the proof has ended."""
        return self.process.poll()

    def seconds(self) -> float:
        return time.monotonic() - self.begun

    def said(self) -> bytes:
        """What it printed, with the paths of the repository."""
        self.output.seek(0)
        return self.output.read().replace(str(self.folder).encode(), str(ROOT).encode())

    def proved(self) -> int:
        """How many crates it proved. More than one, and nothing is shared among the folders."""
        return len(VERDICT.findall(self.said()))


def end_all(proofs: Iterable[Proof]) -> None:
    """Ends proofs, and returns once they have ended; `rt` ends what it began."""
    ending = list(proofs)
    for proof in ending:
        proof.process.terminate()
    for proof in ending:
        try:
            proof.process.wait(SECONDS_TO_END)
        except subprocess.TimeoutExpired:
            proof.process.kill()
            proof.process.wait()


def bytes_of(process: int) -> int:
    """The memory of a process, and its part of what it shares with others."""
    try:
        lines = pathlib.Path(f"/proc/{process}/smaps_rollup").read_text(encoding="ascii").splitlines()
        return next(int(line.split()[1]) << 10 for line in lines if line.startswith("Pss:"))
    except (OSError, StopIteration):
        return 0


def bytes_held(roots: Iterable[int]) -> int:
    """The memory of these processes and of all that they began."""
    above: Dict[int, int] = {}
    for entry in filter(str.isdigit, os.listdir("/proc")):
        try:
            status = pathlib.Path("/proc", entry, "stat").read_text(errors="replace")
        except OSError:
            continue
        above[int(entry)] = int(status.rpartition(")")[2].split()[1])
    ours = set(roots)
    while True:
        more = {process for process, parent in above.items() if parent in ours} - ours
        if not more:
            return sum(map(bytes_of, ours))
        ours |= more


def bytes_free() -> int:
    """The memory that may be taken; where the system doesn't tell, what a proof on each processor wants."""
    try:
        lines = pathlib.Path("/proc/meminfo").read_text(encoding="ascii").splitlines()
        return next(int(line.split()[1]) << 10 for line in lines if line.startswith("MemAvailable:"))
    except (OSError, StopIteration):
        return BYTES_OF_A_PROOF * (os.cpu_count() or 1)


def usual_processes(proofs: Iterable[Proof]) -> int:
    """One for each processor, but for no more than memory is there for, with what these proofs hold."""
    memory = bytes_free() + bytes_held(proof.process.pid for proof in proofs)
    return max(1, min(len(os.sched_getaffinity(0)), memory // BYTES_OF_A_PROOF))
