#!/usr/bin/env python3
"""Measures the program `jvm run` next to `jvm replay` of what it records, and next to `java -Xint`, process and all.

    bench/run.py [--program PROGRAM] [--runs N] [NAME..]

PROGRAM is the built program [default: crates/jvm/out/jvm, which `rt run` leaves]. A line is printed for each NAME
[default: all of them]. What is compared runs in turn, one after the other, N times over [default: 15], and the least of
each counts: the time of the processor of the whole process and its threads, less that of a run of one event. The
class files are made anew in a temporary folder, by `tools/java-classes`: a JDK that knows `--release 8` has to be
there, and `java`. Every report is compared with that of the replay.

local     200 million events of a loop of ints: one worker with bursts outside the lock (the default quantum, 1), and
          with quantum 1000, each over the replay of the schedule that was recorded
single    programs of one thread with objects, calls, locks and exceptions: quantum 1000 over the replay
record    the same, with `--record` over without
counted   the programs of `local` and `single` by the instructions of the processor for an event, which no other work on
          the machine changes; valgrind has to be there. N doesn't count
policies  sixteen programs, those of bench/java/whole: the run of a seed, N seeds from 1 on, over quantum 1000; and
          quantum 1000 over `java -Xint`, each less its start: sums of the processor's seconds, one after the other
threads   a counter under a lock and a ring of four threads: 1, 2 and 4 workers with quantum 1 and with quantum 1000, as
          nanoseconds of an event by the clock, next to the processor time of `java -Xint` for a call
"""

import argparse
import os
import pathlib
import re
import statistics
import subprocess
import sys
import tempfile
from typing import List, Sequence, Tuple

sys.dont_write_bytecode = True
sys.path.insert(0, str(pathlib.Path(__file__).resolve().parent.parent))

from bench.measures import measured
from bench.replay import LOOP
from tools.class_files import class_with_main
from tools.repository import JVM, ROOT, compiled

# So many events of the loop are done; all other programs end by themselves.
EVENTS = 200_000_000

SINGLE = ("Sieve", "Quicksort", "Fields", "Fib", "Virtual", "Locks", "Throws")


# Seconds of the processor, seconds by the clock, and what was printed.
Ran = Tuple[float, float, str]

Command = Sequence[object]


def ran(command: Command, folder: pathlib.Path) -> Ran:
    done = measured(command, folder)
    return done.processor, done.clock, done.written


def least(commands: Sequence[Command], folder: pathlib.Path, times: int) -> List[Ran]:
    """The least seconds of each command, by the processor and by the clock, run in turn, and what each printed last."""
    found: List[Ran] = [(float("inf"), float("inf"), "")] * len(commands)
    for _ in range(times):
        for place, command in enumerate(commands):
            processor, clock, text = ran(command, folder)
            old = found[place]
            found[place] = (min(old[0], processor), min(old[1], clock), text)
    return found


def classes_of(name: str, folder: pathlib.Path) -> List[str]:
    """The names of the class files of a source, that of its name first."""
    return [path.name for path in compiled([ROOT / f"bench/java/{name}.java"], folder)]


def looping(folder: pathlib.Path) -> List[str]:
    """The name of the class file of an endless loop of local instructions."""
    (folder / "A.class").write_bytes(class_with_main(LOOP, 1, 2))
    return ["A.class"]


def events_of(text: str) -> int:
    return int(next(line for line in text.splitlines() if line.startswith("events ")).split()[1])


def told(found: Ran) -> List[str]:
    """A report without its last line: a replay ends with its schedule where the run ended by its budget."""
    return found[2].splitlines()[:-1]


class Runs:
    """The commands of a program, whose class files are made in a folder: one in Java, or the loop."""

    def __init__(self, program: pathlib.Path, name: str, folder: pathlib.Path) -> None:
        self.program, self.folder = program, folder
        if name == "loop":
            self.files, self.budget = looping(folder), EVENTS
        else:
            self.files, self.budget = classes_of(name, folder), 4_000_000_000

    def run(self, *options: str) -> List[object]:
        return [self.program, "run", "--budget", self.budget, *options, *self.files]

    def replay(self, schedule: str) -> List[object]:
        return [self.program, "replay", "--schedule", schedule, *self.files]

    def start(self, times: int) -> float:
        return least([[self.program, "run", "--workers", "1", "--budget", "1", *self.files]], self.folder, times)[0][0]


def over_replay(program: pathlib.Path, name: str, options: List[str], times: int) -> str:
    """How many times as long a run takes as the replay of what it recorded, and with its record as without."""
    with tempfile.TemporaryDirectory() as temporary:
        folder = pathlib.Path(temporary)
        runs = Runs(program, name, folder)
        ran(runs.run(*options, "--record", "schedule"), folder)
        commands = [runs.replay("schedule"), runs.run(*options), runs.run(*options, "--record", "again")]
        replay, run, record = least(commands, folder, times)
        start = runs.start(times)
        if not told(replay) == told(run) == told(record):
            sys.exit(f"{name}: the reports differ:\n{replay[2]}\n{run[2]}\n{record[2]}")
        size = os.path.getsize(folder / "schedule")
    each = [1e9 * (found[0] - start) / events_of(run[2]) for found in (replay, run, record)]
    return (
        f"replay {each[0]:.2f} ns an event, run {each[1]:.2f}, with --record {each[2]:.2f}:"
        f" {each[1] / each[0]:.2f} times the replay, {each[2] / each[1]:.2f} times with the record,"
        f" a schedule of {size} bytes"
    )


def local(program: pathlib.Path, times: int) -> None:
    for options in (["--workers", "1"], ["--workers", "1", "--quantum", "1000"]):
        print(f"local {' '.join(options)}: {over_replay(program, 'loop', options, times)}")


def single(program: pathlib.Path, times: int) -> None:
    for name in SINGLE:
        told = over_replay(program, name, ["--workers", "1", "--quantum", "1000"], times)
        print(f"single {name} --quantum 1000: {told}", flush=True)


def on_java(name: str, folder: pathlib.Path) -> int:
    """Nanoseconds of the processor that a call of main takes, of all its threads, on average of 20 calls."""
    command = ["java", "-Xint", "-cp", str(folder), "Timed", name, "20", "all"]
    return int(subprocess.run(command, check=True, capture_output=True, text=True).stderr.split()[0])


def instructions(command: Command, folder: pathlib.Path) -> Tuple[int, str]:
    """How many instructions a command takes, by callgrind, and what it prints."""
    counting = ["valgrind", "--tool=callgrind", "--callgrind-out-file=/dev/null"]
    done = subprocess.run([*counting, *map(str, command)], cwd=folder, capture_output=True, text=True, check=False)
    found = re.search(r"Collected : (\d+)", done.stderr)
    if not found:
        sys.exit(done.stderr)
    return int(found[1]), done.stdout


def counted_once(program: pathlib.Path, name: str, quantum: str) -> None:
    with tempfile.TemporaryDirectory() as temporary:
        folder = pathlib.Path(temporary)
        runs = Runs(program, name, folder)
        if name == "loop":
            runs.budget = EVENTS // 100
        words = ["--workers", "1", "--quantum", quantum]
        ran(runs.run(*words, "--record", "schedule"), folder)
        start, _ = instructions([program, "run", *words, "--budget", "1", *runs.files], folder)
        replay, text = instructions(runs.replay("schedule"), folder)
        run, _ = instructions(runs.run(*words), folder)
        record, _ = instructions(runs.run(*words, "--record", "again"), folder)
    each = [(count - start) / events_of(text) for count in (replay, run, record)]
    print(
        f"counted {name} --quantum {quantum}: replay {each[0]:.2f} instructions an event, run {each[1]:.2f}:"
        f" {each[1] / each[0]:.3f} times the replay, {each[2] / each[1]:.4f} times with the record",
        flush=True,
    )


def counted(program: pathlib.Path, _times: int) -> None:
    counted_once(program, "loop", "1")
    for name in ("loop", *SINGLE):
        counted_once(program, name, "1000")


def threaded(runs: Runs, name: str, java: int, workers: str, quantum: str, times: int) -> str:
    """What is told of a run of some workers, which has to say what its replay says."""
    command = runs.run("--workers", workers, "--quantum", quantum, "--record", "schedule")
    processor, clock, text = least([command], runs.folder, times)[0]
    replayed = ran(runs.replay("schedule"), runs.folder)[2]
    if replayed != text:
        sys.exit(f"{name}: the reports differ:\n{replayed}\n{text}")
    events = events_of(text)
    return (
        f"threads {name} {workers} workers, quantum {quantum}: {1e9 * clock / events:.1f} ns an event by the clock,"
        f" {1e9 * processor / events:.1f} by the processor, java {java / events:.1f}, {events} events"
    )


def threads(program: pathlib.Path, times: int) -> None:
    for name in ("Locks", "Buffer"):
        with tempfile.TemporaryDirectory() as folder:
            runs = Runs(program, name, pathlib.Path(folder))
            classes_of("Timed", runs.folder)
            java = min(on_java(name, runs.folder) for _ in range(3))
            for workers in ("1", "2", "4"):
                for quantum in ("1", "1000"):
                    print(threaded(runs, name, java, workers, quantum, times), flush=True)


def seconds_of(command: Command, folder: pathlib.Path) -> float:
    return ran(command, folder)[0]


def ratios(program: pathlib.Path, source: pathlib.Path, times: int) -> Tuple[float, float]:
    """How long the runs of seeds take over those of quantum 1000, and these over `java -Xint`."""
    with tempfile.TemporaryDirectory() as temporary:
        folder = pathlib.Path(temporary)
        files = [path.name for path in compiled([source], folder)]
        (folder / "Empty.java").write_text("class Empty { public static void main(String[] words) { } }", "ascii")
        compiled([folder / "Empty.java"], folder)
        java = ["java", "-Xint", "-XX:+UseSerialGC", "-cp", "."]
        sums = [0.0] * 5
        for seed in range(1, times + 1):
            commands: List[Command] = [
                [program, "run", "--seed", seed, *files],
                [program, "run", "--quantum", 1000, *files],
                [program, "run", "--budget", 1, "--seed", seed, *files],
                [*java, source.stem],
                [*java, "Empty"],
            ]
            sums = [old + seconds_of(command, folder) for old, command in zip(sums, commands)]
    seeds, quantum, start, on_java, java_start = sums
    return (seeds - start) / (quantum - start), (quantum - start) / (on_java - java_start)


def policies(program: pathlib.Path, times: int) -> None:
    found = []
    for source in sorted((ROOT / "bench/java/whole").glob("*.java")):
        over_quantum, over_java = ratios(program, source, times)
        found.append((over_quantum, over_java))
        print(f"policies {source.stem}: seeds {over_quantum:.2f} times quantum 1000, that {over_java:.2f} times java")
    means = [statistics.geometric_mean(column) for column in zip(*found)]
    print(f"policies, geometric mean: seeds {means[0]:.2f} times quantum 1000, that {means[1]:.2f} times java")


MEASURES = {"local": local, "single": single, "counted": counted, "policies": policies, "threads": threads}


def main() -> None:
    parser = argparse.ArgumentParser(description=__doc__, formatter_class=argparse.RawDescriptionHelpFormatter)
    parser.add_argument("--program", type=pathlib.Path, default=JVM)
    parser.add_argument("--runs", type=int, default=15)
    parser.add_argument("names", nargs="*", metavar="NAME")
    options = parser.parse_args()
    for name in options.names:
        if name not in MEASURES:
            parser.error(f"{name!r} is none of {', '.join(MEASURES)}")
    for name in options.names or MEASURES:
        MEASURES[name](options.program.resolve(), options.runs)


if __name__ == "__main__":
    main()
