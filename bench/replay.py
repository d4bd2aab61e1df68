#!/usr/bin/env python3
"""Measures the programs `jvm replay`, `jvm trace` and `jvm races`, process and all.

    bench/replay.py [--program PROGRAM] [NAME..]

PROGRAM is the built program [default: crates/jvm/out/jvm, which `rt run` leaves]. A line is printed for each NAME
[default: all of them]. The class files and the schedules are made anew in a temporary folder. The reports and statuses
are compared with what they must be.

start     the eight events of the class file of 241 bytes: the least milliseconds of 200 runs, from the start of the
          process to its end, next to those of a program that does nothing (`true`)
loop      10,000,000 events of one thread in a loop of local instructions: events a second, and peak resident memory
long      the same with 1,000,000,000 events
switches  10,000,000 events of two threads, another thread at each: the nanoseconds of a switch beyond those of an
          event, by a run of as many events with one switch, and peak resident memory. `javac` has to be there
trace     the first 1,000,000 events of Fib, Fields, Locks and Throws of bench/java, traced to a file: seconds, the
          least of three runs, next to those of the replay alone, and the size of the file. `javac` has to be there
races     the data races of the same events: seconds of the processor, next to those of the replay alone, and peak
          resident memory. `javac` has to be there
"""

import argparse
import pathlib
import subprocess
import sys
import tempfile
import time
from typing import Callable, Dict, Sequence, Tuple

sys.dont_write_bytecode = True
sys.path.insert(0, str(pathlib.Path(__file__).resolve().parent.parent))

from bench.measures import measured
from oracle.schedules import Entry, file_of_entries
from tools.class_files import class_with_main
from tools.repository import JVM, ROOT, compiled

# 0 iconst_0, 1 istore_1, 2 iinc 1 1, 5 iload_1, 6 pop, 7 goto 2
LOOP = bytes.fromhex("03 3c 840101 1b 57 a7fffb")

STARTS = 200

SWITCHES = 10_000_000

TRACED = 1_000_000

TRACED_PROGRAMS = ("Fib", "Fields", "Locks", "Throws")

# So many events of main come first where there are two threads; the other one is started among them.
FIRST = 20

# The schedule is used up while a thread can go on.
USED_UP = 5


def replayed(program: pathlib.Path, folder: pathlib.Path, file: str, threads: int, events: int) -> Tuple[float, int]:
    """Seconds and peak kilobytes of a run of so many events, whose threads all go on."""
    ran = measured([program, "replay", "--schedule", "schedule", file], folder)
    states = "".join(f"thread {number} runnable\n" for number in range(threads))
    if ran.status != USED_UP or ran.written != f"{states}events {events}\nend schedule\n":
        sys.exit(f"status {ran.status}, report:\n{ran.written}")
    return ran.clock, ran.kilobytes


def milliseconds(command: Sequence[object], folder: pathlib.Path, wanted: str) -> float:
    """The time of one process."""
    begin = time.monotonic()
    ran = subprocess.run([str(word) for word in command], cwd=folder, stdout=subprocess.PIPE)
    elapsed = 1_000 * (time.monotonic() - begin)
    if ran.returncode != 0 or ran.stdout.decode() != wanted:
        sys.exit(f"status {ran.returncode}, report:\n{ran.stdout.decode()}")
    return elapsed


def start(program: pathlib.Path, _folder: pathlib.Path) -> None:
    data = ROOT / "crates/jvm/data"
    command = [program, "replay", "--schedule", "prints-seven.schedule", "A.class"]
    least = nothing = float("inf")
    for _ in range(STARTS):
        least = min(least, milliseconds(command, data, "7\nthread 0 ended\nevents 8\nend quiet\n"))
        nothing = min(nothing, milliseconds(["true"], data, ""))
    print(f"start: {least:.2f} ms, a program that does nothing {nothing:.2f} ms")


def loop(program: pathlib.Path, folder: pathlib.Path, events: int = 10_000_000) -> None:
    (folder / "A.class").write_bytes(class_with_main(LOOP, 1, 2))
    (folder / "schedule").write_text(f"0*{events}")
    seconds, peak = replayed(program, folder, "A.class", 1, events)
    print(f"{events} events in {seconds:.3f} s: {events / seconds:.0f} events a second, peak resident memory {peak} kB")


def long(program: pathlib.Path, folder: pathlib.Path) -> None:
    loop(program, folder, 1_000_000_000)


def switches(program: pathlib.Path, folder: pathlib.Path) -> None:
    compiled([ROOT / "bench/java/Spins.java"], folder)
    half, events, schedule = SWITCHES // 2, FIRST + SWITCHES, folder / "schedule"
    schedule.write_bytes(file_of_entries([Entry(0, 0, FIRST + half), Entry(1, 0, half)]))
    few, _ = replayed(program, folder, "Spins.class", 2, events)
    schedule.write_bytes(file_of_entries([Entry(0, 0, FIRST), *[Entry(1, 0, 1), Entry(0, 0, 1)] * half]))
    many, peak = replayed(program, folder, "Spins.class", 2, events)
    size = schedule.stat().st_size
    nanoseconds = 1e9 * (many - few) / SWITCHES
    print(
        f"{SWITCHES} switches in {many:.3f} s, as many events with one switch in {few:.3f} s: {nanoseconds:.1f} ns a"
        f" switch, peak resident memory {peak} kB at a schedule file of {size // 1_000} kB"
    )


def seconds_of(command: Sequence[object], folder: pathlib.Path, output: pathlib.Path) -> float:
    """The least time of three processes that write to a file."""
    least = float("inf")
    for _ in range(3):
        with open(output, "wb") as file:
            begin = time.monotonic()
            ran = subprocess.run([str(word) for word in command], cwd=folder, stdout=file)
            least = min(least, time.monotonic() - begin)
        if ran.returncode != USED_UP:
            sys.exit(f"status {ran.returncode}")
    return least


def trace(program: pathlib.Path, folder: pathlib.Path) -> None:
    (folder / "schedule").write_text(f"0*{TRACED}")
    for name in TRACED_PROGRAMS:
        files = [path.name for path in compiled([ROOT / f"bench/java/{name}.java"], folder)]
        words = ["--schedule", "schedule", *files]
        replay = seconds_of([program, "replay", *words], folder, folder / "report")
        traced = seconds_of([program, "trace", *words], folder, folder / "trace")
        with open(folder / "trace", "rb") as file:
            lines = sum(1 for _ in file)
        report = (folder / "report").read_bytes()
        if lines != TRACED + report.count(b"\n"):
            sys.exit(f"{name}: {lines} lines")
        size = (folder / "trace").stat().st_size
        seconds = f"{TRACED} events traced in {traced:.2f} s, replayed in {replay:.2f} s"
        print(f"{name}: {seconds}, a file of {size // 1_000} kB")


def races(program: pathlib.Path, folder: pathlib.Path) -> None:
    (folder / "schedule").write_text(f"0*{TRACED}")
    for name in TRACED_PROGRAMS:
        files = [path.name for path in compiled([ROOT / f"bench/java/{name}.java"], folder)]
        words = ["--schedule", "schedule", *files]
        replay, raced = (measured([program, command, *words], folder) for command in ("replay", "races"))
        if raced.status != USED_UP or raced.written != replay.written:
            sys.exit(f"{name}: status {raced.status}, report:\n{raced.written}")
        seconds = f"{raced.processor:.2f} s of a processor, replayed in {replay.processor:.2f} s"
        print(f"{name}: races of {TRACED} events told in {seconds}, peak resident memory {raced.kilobytes} kB")


MEASURES: Dict[str, Callable[[pathlib.Path, pathlib.Path], None]] = {
    "start": start,
    "loop": loop,
    "long": long,
    "switches": switches,
    "trace": trace,
    "races": races,
}


def main() -> None:
    parser = argparse.ArgumentParser(description=__doc__, formatter_class=argparse.RawDescriptionHelpFormatter)
    parser.add_argument("--program", type=pathlib.Path, default=JVM)
    parser.add_argument("names", nargs="*", metavar="NAME")
    options = parser.parse_args()
    for name in options.names:
        if name not in MEASURES:
            parser.error(f"{name!r} is none of {', '.join(MEASURES)}")
    for name in options.names or MEASURES:
        with tempfile.TemporaryDirectory() as folder:
            MEASURES[name](options.program.resolve(), pathlib.Path(folder))


if __name__ == "__main__":
    main()
