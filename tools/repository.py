"""Where things stand in the repository, and the commands that all scripts use."""

import pathlib
import subprocess
from typing import Dict, List, Sequence, Union

ROOT = pathlib.Path(__file__).resolve().parent.parent

# The class files of the built-in classes, beside their sources.
BUILT_IN = ROOT / "builtin"

# The built programs. Where these scripts are installed, below PREFIX/share/jvm, `jvm` is the one of PREFIX/bin.
JVM = ROOT / "crates/jvm/out/jvm" if (ROOT / "crates").is_dir() else ROOT.parent.parent / "bin/jvm"
BENCH = ROOT / "crates/bench/out/bench"

FOLDERS_OF_SCRIPTS = ("bench", "cluster", "compare", "oracle", "tests", "tools")

PathLike = Union[str, pathlib.Path]


def crates() -> Dict[str, List[str]]:
    """The crates that crates.txt names, each with those of the repository that it stands on, in the order there."""
    found = {}
    for line in (ROOT / "crates.txt").read_text(encoding="utf-8").splitlines():
        head, colon, below = line.partition("#")[0].partition(":")
        if colon and head.split():
            found[head.split()[0]] = below.split()
    return {name: [one for one in below if one in found] for name, below in found.items()}


def built_in_names() -> List[str]:
    """The names of the built-in classes, in their order."""
    return (BUILT_IN / "order").read_text(encoding="ascii").split()


def built_in_file(name: str) -> pathlib.Path:
    """The class file of a built-in class."""
    return BUILT_IN / f"classes/{name}.class"


def scripts() -> List[pathlib.Path]:
    """All files of Python, with an ending or without."""
    found = []
    for folder in FOLDERS_OF_SCRIPTS:
        for path in sorted((ROOT / folder).iterdir()):
            if path.suffix == ".py" or path.is_file() and path.read_bytes().startswith(b"#!/usr/bin/env python3\n"):
                found.append(path)
    return found


def compiled(sources: Sequence[PathLike], into: PathLike, has_lines: bool = False) -> List[pathlib.Path]:
    """The paths of the class files that tools/java-classes makes of sources, the class of the first source first."""
    command = [str(ROOT / "tools/java-classes"), *map(str, sources), "--into", str(into)]
    ran = subprocess.run(command + ["--lines"] * has_lines, check=True, stdout=subprocess.PIPE, text=True)
    return [pathlib.Path(line) for line in ran.stdout.splitlines()]
