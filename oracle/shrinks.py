#!/usr/bin/env python3
"""Shrunk schedules by the oracle: what `jvm shrink` has to print, worked out by a machine of its own.

    oracle/shrinks.py --for OUTCOME --schedule TEXT [--budget N] FILE..
    oracle/shrinks.py --write

Which schedules are tried, and in which order, is that of docs/REFERENCE.md ("Shrink"); each is done by the plain
machine alone. With --write schedules of seeds over the lessons below become cases/shrinks.cases, with what they have
to print. What is left of a schedule is recorded, and replayed.
"""

import argparse
import pathlib
import re
import sys
from typing import List, Optional, Sequence, Tuple

sys.dont_write_bytecode = True
sys.path.insert(0, str(pathlib.Path(__file__).resolve().parent.parent))

from oracle.lessons import LESSONS, class_files, followed, outcome
from oracle.machine import Machine
from oracle.schedules import Entry, entries_of_events, entries_of_text
from oracle.searches import is_wanted
from oracle.seeds import Run, mixed, random
from oracle.state import Refused
from tools.cases import write_cases

# So many words stand in a line.
IN_A_LINE = 16


def joined(entries: Sequence[Entry]) -> List[Entry]:
    """The same events in as few entries as they can have."""
    return entries_of_events(entry[:2] for entry in entries for _ in range(entry.repeat))


def switches(entries: Sequence[Entry]) -> int:
    return sum(one.thread != other.thread for one, other in zip(entries, entries[1:]))


def words_of(entries: Sequence[Entry]) -> List[str]:
    picks = [f".{entry.pick}" if entry.pick else "" for entry in entries]
    return [f"{entry.thread}{pick}" + (f"*{entry.repeat}" if entry.repeat > 1 else "") for entry, pick in zip(entries, picks)]


def lines_of(entries: Sequence[Entry]) -> List[str]:
    """The lines of the text of a schedule. Where it has no words, that is a line without one."""
    words = words_of(entries)
    return [" ".join(words[at : at + IN_A_LINE]) for at in range(0, len(words), IN_A_LINE)] or [""]


class Shrunk:
    """A schedule that has an outcome, and what is left of it."""

    def __init__(self, files: Sequence[bytes], goal: str, budget: int, given: Sequence[Entry]) -> None:
        self.files, self.goal, self.budget = files, goal, budget
        self.best: Optional[List[Entry]] = joined(given) if self.has(given) else None
        while self.best is not None and self.is_better(self.best):
            pass

    def has(self, entries: Sequence[Entry]) -> bool:
        """Whether a replay that goes on behind these entries has the outcome."""
        if sum(entry.repeat for entry in entries) > self.budget:
            return False
        machine, behind = Machine(self.files), -1
        if followed(machine, entries) not in (None, "quiet"):
            return False
        while able := machine.enabled():
            behind = next((one for one in able if one > behind), able[0])
            if machine.done == self.budget:
                return False
            try:
                machine.step(behind)
            except Refused:
                return False
        states = tuple(machine.state(thread) for thread in range(len(machine.threads)))
        return is_wanted(self.goal, (tuple(machine.printed), states))

    def takes(self, best: List[Entry], entries: Sequence[Entry]) -> bool:
        """Puts other entries in the place of the best ones, if they are fewer and have the outcome."""
        other = joined(entries)
        if (switches(other), len(other)) >= (switches(best), len(best)) or not self.has(other):
            return False
        best[:] = other
        return True

    def is_better(self, best: List[Entry]) -> bool:
        """Leaves out entries, and gathers those of a thread. Says whether that has changed anything."""
        changed, size = False, max(len(best), 1)
        while True:
            for place in range(len(best) - 1, -1, -1):
                if place % size == 0 and place < len(best):
                    changed |= self.takes(best, best[:place] + best[place + size :])
            if size == 1:
                break
            size = (size + 1) // 2
        for place in range(len(best) - 1, -1, -1):
            changed |= place < len(best) and self.gathers(best, place)
        return changed

    def gathers(self, best: List[Entry], place: int) -> bool:
        """Has the entry of a place behind the last one before it that is of the same thread."""
        before = [at for at in range(place) if best[at].thread == best[place].thread]
        if not before:
            return False
        to = before[-1] + 1
        return self.takes(best, [*best[:to], best[place], *best[to:place], *best[place + 1 :]])


# Schedules of seeds that are shrunk: folder, class files, outcome, policy and seed.
SHRUNK = [
    ("lock-order", ["LockOrder"], "deadlock", "mixed", 1),
    ("lock-order", ["LockOrder"], "deadlock", "random", 16),
    ("lock-order", ["LockOrder"], "uncaught", "mixed", 1),
    ("lost-update", ["LostUpdate"], "output=1", "mixed", 2),
    ("lost-update", ["LostUpdate"], r"text=\u0031\n", "mixed", 2),
    ("philosophers", ["Philosophers"], "deadlock", "mixed", 2),
    ("bounded-buffer", ["IfForWhile"], "uncaught", "mixed", 3),
    ("class-initialisation", ["Initialisers", "Left", "Right"], "deadlock", "mixed", 2),
    ("missed-notify", ["MissedNotify"], "deadlock", "mixed", 11),
    ("wrong-waiter", ["WrongWaiter"], "deadlock", "random", 8),
]

HEAD = ["# Schedules of seeds that are shrunk, made by `oracle/shrinks.py` over the files of the lessons.", "", "files lessons.cases", ""]


def cases_of(folder: str, names: List[str], goal: str, policy: str, seed: int) -> Tuple[List[str], str]:
    """The lines of the cases of a schedule, and what they have to print."""
    lesson = class_files(LESSONS / folder)
    files = [lesson[f"{name}.class"] for name in names]
    run = Run(files, 10_000)
    {"mixed": mixed, "random": random}[policy](run, seed)
    given = entries_of_events(run.events)
    best = Shrunk(files, goal, 10_000_000, given).best
    name = "-".join([folder, re.sub(r"[=\\]", "-", goal), policy, str(seed)])
    paths = " ".join(f"{folder}/{one}.class" for one in names)
    text = [f"text {name}.text", *(f"  {line}" for line in lines_of(given)), f"case shrink-{name}"]
    text += [f"  shrink --for {goal} --schedule {name}.text --record {name}.schedule {paths}"]
    if best is None:
        return text, f"case shrink-{name}\n  outcome: a run behind the schedule hasn't got it\nstatus 1\n"
    shown = "".join(f"{line}\n" for line in lines_of(best))
    printed = f"case shrink-{name}\n{shown}  words: {len(given)} before, {len(best)} after\nstatus 0\n"
    report, status = outcome("replay", files, shown, True)
    text += [f"case shrunk-{name}", f"  replay --then-run --schedule {name}.schedule {paths}"]
    return text, printed + f"case shrunk-{name}\n{report}status {status}\n"


def write() -> None:
    lines, shown = [*HEAD], ""
    for row in SHRUNK:
        text, printed = cases_of(*row)
        lines, shown = [*lines, *text], shown + printed
    write_cases("shrinks", "\n".join([*lines, ""]), shown)


def main() -> int:
    if sys.argv[1:] == ["--write"]:
        write()
        return 0
    parser = argparse.ArgumentParser()
    parser.add_argument("--for", dest="goal", required=True)
    parser.add_argument("--schedule", required=True)
    parser.add_argument("--budget", type=int, default=10_000_000)
    parser.add_argument("files", nargs="+")
    words = parser.parse_args()
    given = entries_of_text(words.schedule)
    best = Shrunk([pathlib.Path(path).read_bytes() for path in words.files], words.goal, words.budget, given).best
    if best is None:
        return 1
    sys.stdout.write("".join(f"{line}\n" for line in lines_of(best)))
    return 0


if __name__ == "__main__":
    sys.exit(main())
