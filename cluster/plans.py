"""The plan of what is done in parts: its seeds, its words, and the checksums of its files and of its program."""

import hashlib
import json
import pathlib
import re
import subprocess
from typing import Any, Dict, List, NamedTuple

from cluster.faults import REFUSED, USAGE, Fault

FORMAT = "jvm-cluster plan 1"

SWEEP, FUZZ_RUNS, FUZZ_SETS = "sweep", "fuzz runs", "fuzz sets"

GREATEST_SEED = 2**64 - 1
MOST_PARTS = 1_000_000

# Class files by the names that they have below the folder of a plan.
Files = Dict[str, bytes]


class Seeds(NamedTuple):
    """The seeds from one to another."""

    first: int
    last: int

    def __str__(self) -> str:
        return f"{self.first}..{self.last}"

    def runs(self) -> int:
        return self.last - self.first + 1


def seeds_of(word: str) -> Seeds:
    """The seeds of a word as `1..200`. Raises ValueError where it is none."""
    found = re.fullmatch(r"([0-9]+)\.\.([0-9]+)", word)
    if not found or not int(found[1]) <= int(found[2]) <= GREATEST_SEED:
        raise ValueError(f"{word!r} is no range of seeds, as 1..200")
    return Seeds(int(found[1]), int(found[2]))


class Plan(NamedTuple):
    """What is done in parts. `options` and `words`, those of files, are handed to the program; `repeated` are the words
    behind the seed in the last line of a sweep that has found what is wanted."""

    task: str
    seeds: str
    seeds_of_a_part: int
    options: List[str]
    words: List[str]
    files: Dict[str, str]
    is_recorded: bool
    repeated: str
    version: str
    program: str

    def parts(self) -> int:
        """How many parts there are; they are numbered from 1 on."""
        return -(-seeds_of(self.seeds).runs() // self.seeds_of_a_part)

    def part_seeds(self, number: int) -> Seeds:
        whole = seeds_of(self.seeds)
        first = whole.first + (number - 1) * self.seeds_of_a_part
        return Seeds(first, min(first + self.seeds_of_a_part - 1, whole.last))

    def text(self) -> str:
        return json.dumps({"format": FORMAT, **self._asdict()}, indent=1) + "\n"


def read_plan(path: pathlib.Path) -> Plan:
    """The plan of a file."""
    try:
        read: Dict[str, Any] = json.loads(path.read_text(encoding="utf-8"))
        told = read.pop("format")
        plan = Plan(**read)
        if told != FORMAT or plan.text() != path.read_text(encoding="utf-8"):
            raise ValueError("it is cut or changed, or of another version of jvm-cluster")
        return plan
    except OSError as fault:
        raise Fault(USAGE, f"plan refused Missing {path}", fault.strerror or "") from fault
    except (ValueError, KeyError, TypeError, AttributeError) as fault:
        raise Fault(REFUSED, f"plan refused Damaged {path}", str(fault)) from fault


def differing(there: Plan, asked: Plan) -> str:
    """What differs between two plans, a line each."""
    pairs = zip(Plan._fields, there, asked)
    return "\n".join(f"{name}: {one!r} there, {other!r} asked for" for name, one, other in pairs if one != other)


def checksum(data: bytes) -> str:
    return hashlib.sha256(data).hexdigest()


def checksums(files: Files) -> Dict[str, str]:
    return {name: checksum(data) for name, data in sorted(files.items())}


class Program(NamedTuple):
    """A built program, told by what it says of its version and by its bytes."""

    version: str
    checksum: str


def program_at(path: str) -> Program:
    """The program at a path."""
    try:
        found = checksum(pathlib.Path(path).read_bytes())
        ran = subprocess.run([path, "--version"], stdin=subprocess.DEVNULL, capture_output=True)
    except OSError as fault:
        raise Fault(USAGE, f"program refused Missing {path}", fault.strerror or "") from fault
    if ran.returncode != 0:
        raise Fault(USAGE, f"program refused Version {path}", f"--version has the status {ran.returncode}")
    return Program(ran.stdout.decode("latin-1").strip(), found)
