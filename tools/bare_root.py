"""Programs run where nothing else stands than the libraries that they are linked with."""

import os
import pathlib
import re
import shutil
import subprocess
from typing import Dict, List, Sequence

# Every library that `ldd` finds, the loader among them.
LIBRARY = re.compile(r"(/\S+) \(0x")

NO_ENVIRONMENT: Dict[str, str] = {}


def changed_root(root: pathlib.Path) -> List[str]:
    """The words before a command that has this folder as its root."""
    as_root = [] if os.geteuid() == 0 else [shutil.which("unshare") or "unshare", "--map-root-user"]
    return [*as_root, shutil.which("chroot") or "/usr/sbin/chroot", str(root)]


def may_change_root() -> bool:
    """Whether a folder may be made the root here."""
    try:
        return subprocess.run([*changed_root(pathlib.Path("/")), "true"], capture_output=True).returncode == 0
    except OSError:
        return False


def libraries_of(program: pathlib.Path) -> List[str]:
    """The paths of the shared libraries that the program is linked with; none where it is linked with none."""
    told = subprocess.run(["ldd", str(program)], stdout=subprocess.PIPE, stderr=subprocess.DEVNULL, text=True).stdout
    return LIBRARY.findall(told)


def add_libraries(root: pathlib.Path, program: str) -> None:
    """Puts the libraries of a program of this root where it looks for them."""
    for library in libraries_of(root / program.lstrip("/")):
        to = root / library.lstrip("/")
        to.parent.mkdir(parents=True, exist_ok=True)
        shutil.copy(library, to)


def run_in(root: pathlib.Path, words: Sequence[str]) -> "subprocess.CompletedProcess[bytes]":
    """Runs a program of this root there, with no environment; `words` are its path from the root and its arguments."""
    return subprocess.run([*changed_root(root), *words], stdin=subprocess.DEVNULL, capture_output=True, env=NO_ENVIRONMENT)
