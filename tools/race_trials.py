"""Trials of the two definitions of data races, over programs that are made by chance: of runs (JLS 17.4.5), which
`jvm races` tells, and of states, which `jvm search` does.

A program whose search is complete has to have a run with a race exactly where some run comes to a racy state. Where it
has no such state, runs of several policies and seeds are done, and `races` may tell none of them. Where it has one, a
run to it is found, and goes on to its end: of that `races` has to tell a race.
"""

import pathlib
import random
import tempfile
from typing import Dict, List, NamedTuple, Optional, Tuple

from tools.outcomes import Jvm, Outcome
from tools.race_programs import source
from tools.repository import compiled

# So many states does a search keep at most.
STATES = "30000"

# So many seeds has each of the policies that go by one.
SEEDS = 8

WAYS = [["--quantum", str(number)] for number in (1, 2, 3, 5)]
WAYS += [["--policy", policy, "--seed", str(seed)] for policy in ("mixed", "random") for seed in range(SEEDS)]


class Trial(NamedTuple):
    """What came of a program: how its search ended, how many runs were done and how many raced, and what is wrong."""

    kind: str
    runs: int = 0
    raced: int = 0
    wrong: Optional[str] = None


def has_line(outcome: Outcome, begin: bytes) -> bool:
    return any(line.startswith(begin) for line in outcome.output.splitlines())


def races_of(jvm: Jvm, schedule: str, files: List[str]) -> bool:
    """Whether the run of a schedule has a race."""
    return has_line(jvm.ran(["races", "--quiet", "--schedule", schedule, *files]), b"race ")


def found_races(jvm: Jvm, files: List[str]) -> bool:
    """Whether a run to a racy state, which goes on, has a race."""
    jvm.ran(["search", "--quiet", "--states", STATES, "--for", "race", "--record", "found", *files])
    jvm.ran(["replay", "--quiet", "--schedule", "found", "--then-run", "--record", "whole", *files])
    return races_of(jvm, "whole", files)


def raced_runs(jvm: Jvm, files: List[str]) -> Tuple[int, Optional[str]]:
    """How many runs of all ways have a race, and the words of the first of them."""
    count, first = 0, None
    for way in WAYS:
        jvm.ran(["run", "--quiet", *way, "--record", "one", *files])
        if races_of(jvm, "one", files):
            count, first = count + 1, first or " ".join(way)
    return count, first


def tried(jvm: Jvm, files: List[str]) -> Trial:
    """The trial of a program."""
    searched = jvm.ran(["search", "--quiet", "--states", STATES, *files])
    if not has_line(searched, b"search complete"):
        return Trial("given up")
    count, first = raced_runs(jvm, files)
    if has_line(searched, b"kind race "):
        wrong = None if found_races(jvm, files) else "the run that was found has no race"
        return Trial("racy", len(WAYS) + 1, count, wrong)
    return Trial("free", len(WAYS), count, f"a run has a race, by {first}" if first else None)


def made(folder: pathlib.Path, seed: int, count: int) -> Dict[int, List[str]]:
    """The names of the class files of so many programs, by their seeds, from this one on."""
    sources = []
    for number in range(seed, seed + count):
        sources.append(folder / f"P{number}.java")
        sources[-1].write_text(source(f"P{number}", random.Random(number)))
    compiled(sources, folder)
    return {number: [f"P{number}.class", f"P{number}Once.class"] for number in range(seed, seed + count)}


def trials(program: pathlib.Path, seed: int, count: int) -> Dict[int, Trial]:
    """The trials of so many programs, by their seeds, from this one on."""
    with tempfile.TemporaryDirectory() as folder:
        jvm = Jvm(program, pathlib.Path(folder))
        return {number: tried(jvm, files) for number, files in made(jvm.folder, seed, count).items()}
