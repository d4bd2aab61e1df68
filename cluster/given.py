"""The class files that a command is given, as a plan keeps them."""

import os
import pathlib
import stat
from typing import List, NamedTuple, Sequence, Set, Tuple

from cluster.faults import REFUSED, USAGE, Fault
from cluster.plans import Files
from oracle.classes import Reader, read_pool

ENDING = ".class"
CLASS_TAG = 7
BEHIND_VERSION = 8


class Given(NamedTuple):
    """Class files by names of their own, and the words that stand for them and for folders of them."""

    words: List[str]
    files: Files


def steps(path: str) -> Tuple[bool, Tuple[str, ...]]:
    """What makes two words one path (docs/REFERENCE.md, "Words of the command line")."""
    return path.startswith("/"), tuple(step for step in path.split("/") if step not in ("", "."))


def bytes_at(path: str) -> bytes:
    """The bytes of a regular file."""
    try:
        if not stat.S_ISREG(os.stat(path).st_mode):
            raise Fault(USAGE, f"file refused Kind {path}", "it is no regular file, and each worker has to read it")
        return pathlib.Path(path).read_bytes()
    except OSError as fault:
        raise Fault(USAGE, f"file refused Missing {path}", fault.strerror or "") from fault


def paths_below(folder: str) -> List[str]:
    """The paths in a folder whose names end as those of class files do."""
    found: List[str] = []
    for above, _, names in os.walk(folder, followlinks=True):
        found += [os.path.join(above, name) for name in names if name.endswith(ENDING)]
    return sorted(found, key=os.fsencode)


def given_files(words: Sequence[str]) -> Given:
    """Reads the files of words, each of which names one or a folder, of which those are left out that stand before."""
    files: Files = {}
    met: Set[Tuple[bool, Tuple[str, ...]]] = set()
    kept: List[str] = []
    for number, word in enumerate(words, 1):
        if not os.path.isdir(word):
            kept.append(f"{number}/{os.path.basename(word)}")
            files[kept[-1]] = bytes_at(word)
            met.add(steps(word))
            continue
        paths = [path for path in paths_below(word) if steps(path) not in met]
        files.update({f"{number}/{os.path.relpath(path, word)}": bytes_at(path) for path in paths})
        kept += [str(number)] * bool(paths)
        met.update(map(steps, paths))
    return Given(kept, files)


def check_names(files: Files) -> None:
    """Refuses classes whose names have a line feed, as a table's lines couldn't be told apart then."""
    for path, data in files.items():
        reader = Reader(data)
        reader.take(BEHIND_VERSION)
        pool = read_pool(reader)
        if any(tag == CLASS_TAG and "\n" in pool[value][1] for tag, value in pool.values()):
            raise Fault(REFUSED, f"file refused Name {path}", "a class that it names has a line feed in its name")
