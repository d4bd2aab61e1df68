"""The twins of the library: diffs, each of which makes a mistake in a class that a searched program finds."""

import pathlib
import re
import shutil
import subprocess
from typing import Optional

from tools.repository import ROOT

LIBRARY = ROOT / "library"
TWINS = LIBRARY / "twins"


def test_of(diff: pathlib.Path) -> Optional[pathlib.Path]:
    """The source of the searched program that a diff names; none where it names none."""
    named = re.search(r"(?m)^Test: (\w+)$", diff.read_text(encoding="utf-8"))
    return LIBRARY / f"tests/searched/{named[1]}.java" if named else None


def make_mistake(diff: pathlib.Path, sources: pathlib.Path) -> None:
    """Makes the mistake in the sources of a folder."""
    command = ["patch", "-s", "-N", "-F", "0", "-p1", "-d", str(sources), "-i", str(diff)]
    subprocess.run(command, check=True, stdout=subprocess.DEVNULL)


def make_twin(diff: pathlib.Path, sources: pathlib.Path) -> None:
    """Copies the library's sources to a folder, and makes the mistake there."""
    shutil.copytree(LIBRARY / "sources", sources)
    make_mistake(diff, sources)
