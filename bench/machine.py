#!/usr/bin/env python3
"""Measures the machine next to `java -Xint`, on programs in Java.

    bench/machine.py [--program PROGRAM] [--runs N] [NAME..]

PROGRAM is the built program `bench` [default: crates/bench/out/bench, which `rt run` leaves], run as `bench machine`. A
line is printed for each program [default: all of them]: how many events it has, the nanoseconds of the machine for one
of them, those of `java -Xint`, and how many times as long the machine takes. All run in turn, the machine and java one
after the other, N times over [default: 20], and the least of each counts. A JDK that knows `--release 8` has to be
there.

The sources stand in bench/java; `tools/java-classes` compiles them to class files of version 49.0, which both run. An
event is a bytecode; but to enter a class, to call main, and to look for the handler of an exception in a frame are
events too. So what java takes is divided by the same number, though an exception is one bytecode for it.

Of the machine the events alone are timed, from the first event of main on, by the clock. Of java it is the time of the
processor that the thread of main takes from the call of main to its return (`bench/java/Timed.java`): the least of five
such calls behind a first one, which isn't counted. The numbers that both print are compared. The programs:

count     a loop of ints
sieve     primes by an array of ints
quicksort an array of ints, by recursion
fields    a list of objects, whose fields are read and written
fib       a static method that calls itself
virtual   calls of a method that two classes have
locks     a synchronized method and a synchronized block, which no other thread wants
throws    an exception that a method throws and its caller catches
turns     two threads that do the same. Under the schedule they change at each event. In java they run side by side,
          each on a processor, and main's time is taken twice
buffer    two threads that put numbers into a ring of 16 places and two that take them, by wait and notifyAll. Under the
          schedule, which oracle/machine.py makes, each goes on as long as it can. Of java it is the time of the
          processor that all threads take together, on average of 20 calls
"""

import argparse
import dataclasses
import pathlib
import subprocess
import sys
import tempfile
from typing import Dict, List, Sequence, Tuple

sys.dont_write_bytecode = True
sys.path.insert(0, str(pathlib.Path(__file__).resolve().parent.parent))

from oracle.machine import Machine
from oracle.schedules import Entry, file_of_entries
from oracle.state import NotEnabled
from tools.repository import BENCH, ROOT, compiled

PROGRAMS = ("count", "sieve", "quicksort", "fields", "fib", "virtual", "locks", "throws", "turns", "buffer")

# More events than any of the programs has.
ALL = 4_294_967_295

# So many events of main come first where two threads take turns; the other thread is started among them.
FIRST = 100

# So many calls of main does a run of java time; and so many where the time of all threads counts, which goes by steps
# of 10 ms.
CALLS, CALLS_OF_ALL = 5, 20

# A thread, and how many events of it.
Turn = Tuple[int, int]

NOT_ENABLED, ALL_DONE = "the next is not enabled", "all were done"


@dataclasses.dataclass
class Ran:
    """A run of the machine: what it printed, how many events it did, why no more, and the microseconds."""

    printed: List[str]
    events: int
    why: str
    microseconds: int


@dataclasses.dataclass
class Timed:
    """A program to time: the name of its class, its class files, the word that says which events to do, how many these
    are and what they print, and how many times the time of java's main is taken (0: the time of all its threads)."""

    name: str
    files: List[str]
    word: str
    events: int
    printed: List[str]
    times: int


def classes_of(name: str, folder: str) -> List[str]:
    """The class files of a source, that of its name first."""
    return [str(path) for path in compiled([ROOT / "bench/java" / f"{name}.java"], folder)]


def on_machine(program: pathlib.Path, word: str, files: List[str]) -> Ran:
    ran = subprocess.run([program, "machine", word, *files], capture_output=True, text=True)
    said = ran.stdout.splitlines()
    told = ran.stderr.split()
    if ran.returncode != 0 or len(said) < 2 or not said[-2].startswith("events ") or told[1:] != ["microseconds"]:
        sys.exit(f"{files[0]}: status {ran.returncode}: {ran.stdout}{ran.stderr}")
    return Ran(said[:-2], int(said[-2].split()[1]), said[-1], int(told[0]))


def on_java(bench: Timed, folder: str) -> int:
    """The nanoseconds that count of java."""
    calls, words = (CALLS, []) if bench.times else (CALLS_OF_ALL, ["all"])
    command = ["java", "-Xint", "-cp", folder, "Timed", bench.name, str(calls), *words]
    ran = subprocess.run(command, capture_output=True, text=True)
    if ran.returncode != 0 or ran.stdout.splitlines() != bench.printed * (calls + 1):
        sys.exit(f"{bench.name}: java: status {ran.returncode}: {ran.stdout}{ran.stderr}")
    return max(bench.times, 1) * int(ran.stderr.split()[0])


def write_schedule(path: pathlib.Path, entries: Sequence[Turn]) -> None:
    """Writes a schedule file of entries, each a thread and how many events of it."""
    path.write_bytes(file_of_entries([Entry(thread, 0, events) for thread, events in entries if events]))


def events_after(
    program: pathlib.Path, files: List[str], path: pathlib.Path, entries: Sequence[Turn], thread: int
) -> int:
    """How many events a thread has after these entries, alone."""
    write_schedule(path, [*entries, (thread, ALL)])
    ran = on_machine(program, str(path), files)
    if ran.why != NOT_ENABLED:
        sys.exit(f"{files[0]}: {ran.why}")
    return ran.events - sum(events for _, events in entries)


def write_turns(program: pathlib.Path, files: List[str], path: pathlib.Path) -> None:
    """Writes the schedule by which main and the thread that it starts take turns, an event each."""
    ahead = events_after(program, files, path, [], 0)
    other = events_after(program, files, path, [(0, ahead)], 1)
    behind = events_after(program, files, path, [(0, ahead), (1, other)], 0)
    turns = min(ahead - FIRST, other)
    rest = [(0, ahead - FIRST - turns), (1, other - turns), (0, behind)]
    write_schedule(path, [(0, FIRST), *[(1, 1), (0, 1)] * turns, *rest])


def write_whole(files: List[str], path: pathlib.Path) -> None:
    """Writes the schedule by which each thread goes on as long as it can, and then the next one that can."""
    machine = Machine([pathlib.Path(file).read_bytes() for file in files])
    entries: List[Turn] = []
    thread = idle = 0
    while idle < len(machine.threads):
        before = machine.done
        try:
            while True:
                machine.step(thread)
        except NotEnabled:
            entries.append((thread, machine.done - before))
        idle = 0 if machine.done > before else idle + 1
        thread = (thread + 1) % len(machine.threads)
    write_schedule(path, entries)


def prepared(program: pathlib.Path, name: str, folder: str) -> Timed:
    """Compiles a program, and runs it once to learn its events."""
    files = classes_of(name.capitalize(), folder)
    word, wanted = str(ALL), NOT_ENABLED
    if name in ("turns", "buffer"):
        path = pathlib.Path(folder) / f"{name}.schedule"
        if name == "turns":
            write_turns(program, files, path)
        else:
            write_whole(files, path)
        word, wanted = str(path), ALL_DONE
    ran = on_machine(program, word, files)
    if ran.why != wanted:
        sys.exit(f"{name}: {ran.events} events, {ran.why}")
    times = {"turns": 2, "buffer": 0}.get(name, 1)
    return Timed(name.capitalize(), files, word, ran.events, ran.printed, times)


def measured(program: pathlib.Path, folder: str, benches: Sequence[Timed], runs: int) -> Dict[str, Tuple[float, float]]:
    """The least nanoseconds for an event of the machine and of java, by the names of the classes."""
    found: Dict[str, Tuple[List[float], List[float]]] = {bench.name: ([], []) for bench in benches}
    for _ in range(runs):
        for bench in benches:
            machine, java = found[bench.name]
            machine.append(1_000 * on_machine(program, bench.word, bench.files).microseconds / bench.events)
            java.append(on_java(bench, folder) / bench.events)
    return {name: (min(machine), min(java)) for name, (machine, java) in found.items()}


def main() -> None:
    parser = argparse.ArgumentParser(description=__doc__, formatter_class=argparse.RawDescriptionHelpFormatter)
    parser.add_argument("--program", type=pathlib.Path, default=BENCH)
    parser.add_argument("--runs", type=int, default=20)
    parser.add_argument("names", nargs="*", metavar="NAME")
    options = parser.parse_args()
    for name in options.names:
        if name not in PROGRAMS:
            parser.error(f"{name!r} is none of {', '.join(PROGRAMS)}")
    program = options.program.resolve()
    with tempfile.TemporaryDirectory() as folder:
        classes_of("Timed", folder)
        benches = [prepared(program, name, folder) for name in options.names or PROGRAMS]
        found = measured(program, folder, benches, options.runs)
    print("program       events   machine  java -Xint  ratio")
    for bench in benches:
        machine, java = found[bench.name]
        print(f"{bench.name.lower():9}{bench.events:11} {machine:6.1f} ns   {java:6.2f} ns  {machine / java:5.1f}")


if __name__ == "__main__":
    main()
