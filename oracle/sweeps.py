#!/usr/bin/env python3
"""Sweeps by the oracle: what `jvm run --seeds` has to print, worked out by a machine of its own.

    oracle/sweeps.py --seeds A..B [--policy NAME] [--budget N] [--for OUTCOME] FILE..
    oracle/sweeps.py --write

There is a run for each seed, by docs/REFERENCE.md ("The schedule of a seed") and the plain machine alone. With --write
the sweeps of the lessons below become cases/sweeps.cases, with what they have to print; so do sweeps for races over
the programs of `programs/races/`, whose first lines say whether they have some.
"""

import argparse
import pathlib
import re
import sys
import tempfile
from typing import Dict, List, Optional, Sequence, Tuple

sys.dont_write_bytecode = True
sys.path.insert(0, str(pathlib.Path(__file__).resolve().parent.parent))

from oracle.lessons import LESSONS, class_files
from oracle.races import race_lines
from oracle.searches import TEXTS, Outcome, is_wanted, lines_of
from oracle.schedules import recorded_lines
from oracle.seeds import Run, mixed, random
from tools.cases import write_cases
from tools.repository import ROOT, compiled

# What a run shows: its outcome, or why it has none.
Shown = Tuple[str, Optional[Outcome]]


def shown_by(run: Run) -> Shown:
    if run.machine.enabled():
        return ("budget" if len(run.events) == run.most else "refused"), None
    states = tuple(run.machine.state(thread) for thread in range(len(run.machine.threads)))
    return "outcome", (tuple(run.machine.printed), states)


class Sweep:
    """The runs of some seeds: what they show, by the first seed that shows it, with how often it is shown."""

    def __init__(self, files: Sequence[bytes], words: argparse.Namespace) -> None:
        self.files, self.words = files, words
        self.first, self.last = (int(seed) for seed in words.seeds.split(".."))
        self.shown: Dict[Shown, List[int]] = {}
        self.first_runs: Dict[Shown, Run] = {}
        self.runs = self.events = 0
        self.is_found = False
        self.race_lines: List[str] = []
        self.sweep()

    def sweep(self) -> None:
        for seed in range(self.first, self.last + 1):
            run = Run(self.files, self.words.budget)
            {"mixed": mixed, "random": random}[self.words.policy](run, seed)
            self.runs, self.events = self.runs + 1, self.events + len(run.events)
            shown = shown_by(run)
            self.shown.setdefault(shown, []).append(seed)
            self.first_runs.setdefault(shown, run)
            if self.words.goal == "race":
                self.race_lines = race_lines(self.files, run.events)
                self.is_found = bool(self.race_lines)
            elif shown[1] is not None and is_wanted(self.words.goal, shown[1]):
                self.is_found = True
            if self.is_found:
                return

    def schedules(self) -> List[str]:
        """The text of the schedule of each outcome's first run."""
        runs = [run for (_, outcome), run in self.first_runs.items() if outcome is not None]
        version = self.words.as_version
        return ["".join(f"{line}\n" for line in recorded_lines(self.files, run.events, version)) for run in runs]

    def text(self, repeated: str) -> str:
        """The text, of which the last line has these words behind the seed where one shows what is wanted."""
        parts: List[str] = []
        outcomes = [(shown[1], seeds) for shown, seeds in self.shown.items() if shown[1] is not None]
        for number, (outcome, seeds) in enumerate(outcomes, 1):
            parts.append(f"outcome {number}\n{lines_of(outcome)}")
            parts.append(f"runs {len(seeds)} of {self.runs}, first seed {seeds[0]}\n")
        lines = [f"outcomes {len(outcomes)}"]
        for (word, shown_outcome), seeds in self.shown.items():
            if shown_outcome is None:
                lines += [f"{word} {len(seeds)} runs, first seed {seeds[0]}"]
        once = sum(len(seeds) == 1 for _, seeds in outcomes)
        last = self.first + self.runs - 1
        lines += [f"runs {self.runs}, seeds {self.first}..{last}", f"events {self.events}", f"once {once}"]
        lines += [f"unseen at most {min(once + 3, self.runs)} in {self.runs} runs of {self.words.policy}"]
        lines += ["sweep found", f"jvm run --seed {last}{repeated}"] if self.is_found else ["sweep done"]
        return "".join([*self.race_lines, *parts, *(f"{line}\n" for line in lines)])


# The lessons that are swept: folder, class files, and options.
SWEPT = [
    ("lock-order", ["LockOrder"], "--seeds 1..20"),
    ("lock-order", ["LockOrder"], "--seeds 2..20 --for deadlock"),
    ("lock-order", ["Repaired"], "--seeds 1..20 --for deadlock"),
    ("lost-update", ["LostUpdate"], "--seeds 1..20"),
    ("lost-update", ["LostUpdate"], "--seeds 1..20 --policy random"),
    ("lost-update", ["LostUpdate"], "--seeds 1..20 --for output=1"),
    ("lost-update", ["LostUpdate"], r"--seeds 1..20 --for text=1\n"),
    ("lost-update", ["LostUpdate"], "--seeds 1..20 --policy random --for differs=two"),
    ("lost-update", ["LostUpdate"], "--seeds 1..20 --policy random --workers 3"),
    ("lost-update", ["LostUpdate"], "--seeds 1..20 --workers 64 --for output=1"),
    ("lost-update", ["LostUpdate"], "--seeds 1..20 --for race"),
    ("lost-update", ["LostUpdate"], "--seeds 1..20 --policy random --workers 3 --for race --record outcomes"),
    ("lost-update", ["Repaired"], "--seeds 1..20 --for race"),
    ("bounded-buffer", ["IfForWhile"], "--seeds 1..5 --for race"),
    ("class-initialisation", ["Initialisers", "Left", "Right"], "--seeds 1..5 --for race"),
    ("lost-update", ["LostUpdate"], "--seeds 7..7"),
    ("lost-update", ["LostUpdate"], "--seeds 1..20 --budget 33"),
    ("lost-update", ["LostUpdate"], "--seeds 18446744073709551610..18446744073709551615"),
    ("lost-update", ["LostUpdate"], "--seeds 18446744073709551610..18446744073709551615 --workers 4"),
    ("bounded-buffer", ["IfForWhile"], "--seeds 1..40 --for uncaught"),
    ("class-initialisation", ["Initialisers", "Left", "Right"], "--seeds 1..20"),
    ("philosophers", ["Philosophers"], "--seeds 1..10"),
    ("lost-update", ["LostUpdate"], "--seeds 1..20 --record outcomes"),
    ("lost-update", ["LostUpdate"], "--seeds 1..20 --workers 4 --as-version 2 --record outcomes"),
    ("lock-order", ["LockOrder"], "--seeds 2..20 --budget 70 --as-version 1 --record outcomes"),
    ("lock-order", ["LockOrder"], "--seeds 2..20 --for deadlock --record outcomes"),
    ("class-initialisation", ["Initialisers", "Left", "Right"], "--seeds 1..20 --as-version 3 --record outcomes"),
]

# How the programs of programs/races/ are swept.
RACES = "--seeds 1..8 --for race"

HEAD = [
    "# Sweeps over seeds, made by `oracle/sweeps.py` over the files of the lessons and of cases/races.cases.",
    "",
    "files lessons.cases",
    "files races.cases",
    "",
]


def words_of(words: Sequence[str]) -> argparse.Namespace:
    """The words behind `run`."""
    parser = argparse.ArgumentParser()
    parser.add_argument("--seeds", required=True)
    parser.add_argument("--policy", choices=["mixed", "random"], default="mixed")
    parser.add_argument("--budget", type=int, default=10_000_000)
    parser.add_argument("--workers", type=int, help="changes nothing of what is told")
    parser.add_argument("--record", help="the schedules of the outcomes are cases of their own")
    parser.add_argument("--as-version", type=int, default=3)
    parser.add_argument("--for", dest="goal")
    parser.add_argument("files", nargs="+")
    return parser.parse_args(words)


def repeated(words: argparse.Namespace, paths: str) -> str:
    """The words behind the seed that repeat a run."""
    races = " --races" if words.goal == "race" else ""
    return races + (" --policy random " if words.policy == "random" else " ") + paths


def cases_of(folder: str, names: List[str], options: str) -> Tuple[List[str], str]:
    """The lines of the case of a sweep, and what it has to print."""
    words = words_of([*options.split(), *names])
    files = class_files(LESSONS / folder)
    sweep = Sweep([files[f"{name}.class"] for name in names], words)
    asked = options.replace("--for ", "").replace("--", "").replace("..", "-to-")
    name = "-".join([folder, names[0], re.sub(r"[ =\\]", "-", asked)])
    paths = " ".join(f"{folder}/{one}.class" for one in names)
    text = [f"case sweep-{name}", f"  run {options} {paths}"]
    told = f"case sweep-{name}\n{sweep.text(repeated(words, paths))}status {int(sweep.is_found)}\n"
    for number, schedule in enumerate(sweep.schedules() if words.record else [], 1):
        text += [f"case sweep-{name}-outcome-{number}", f"  schedule {words.record}/outcome-{number}.schedule"]
        told += f"case sweep-{name}-outcome-{number}\n{schedule}status 0\n"
    return text, told


def of_races(source: pathlib.Path) -> Tuple[List[str], str]:
    """The lines of the case of a sweep for races over a program, and what it has to print."""
    with tempfile.TemporaryDirectory() as folder:
        files = {path.name: path.read_bytes() for path in compiled([source], folder, True)}
    paths = " ".join(files)
    words = words_of([*RACES.split(), *files])
    sweep = Sweep(list(files.values()), words)
    told = f"case sweep-races-{source.stem}\n{sweep.text(repeated(words, paths))}status {int(sweep.is_found)}\n"
    if sweep.is_found != ("Races: " in source.read_text().splitlines()[0]):
        sys.exit(f"{source}: no race where its first line says one, or one where it says none")
    return [f"case sweep-races-{source.stem}", f"  run {RACES} {paths}"], told


def write() -> None:
    lines, shown = [*HEAD], ""
    for name, numbers in TEXTS.items():
        lines += [f"text {name}", *(f"  {number}" for number in numbers), ""]
    lines += ["# A folder for the schedules of outcomes.", "text outcomes/none", "  no schedule", ""]
    for row in SWEPT:
        text, printed = cases_of(*row)
        lines, shown = [*lines, *text], shown + printed
    for source in sorted((ROOT / "programs/races").glob("*.java")):
        text, printed = of_races(source)
        lines, shown = [*lines, *text], shown + printed
    write_cases("sweeps", "\n".join([*lines, ""]), shown)


def main() -> int:
    if sys.argv[1:] == ["--write"]:
        write()
        return 0
    words = words_of(sys.argv[1:])
    sweep = Sweep([pathlib.Path(path).read_bytes() for path in words.files], words)
    sys.stdout.write(sweep.text(repeated(words, " ".join(words.files))))
    return int(sweep.is_found)


if __name__ == "__main__":
    sys.exit(main())
