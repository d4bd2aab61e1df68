#!/usr/bin/env python3
"""Makes a table of how long class files that are hard to link or to verify take, by the program `bench verify`.

    bench/hostile.py [--program PROGRAM] [--largest | --of-each N] [NAME..]

PROGRAM is the built program `bench` [default: crates/bench/out/bench, which `rt run` leaves]. Each shape of files that
bench/hostile_files.py makes is run by itself, with twice as much of everything in it each time, until a run takes five
seconds, the files have half a million bytes, or they are refused. All names are those of shapes [default: all]. A line
of the table is the last run of a shape: what was doubled, the bytes of the files, the seconds of processor time of the
process, those of verification by the clock, to which power of the bytes the former grew in the last doubling, and the
peak memory of the process.

With --largest there is as much of everything in the files of each shape as makes a megabyte, or as a method may have:
it is doubled until there is more, and then sought between the last two, to an eighth. A line is the run with the most:
what was sought, the bytes of the files, the seconds of processor time of the process, its peak memory, and `TooLarge`
where the files were refused for their steps. With --of-each N there is one run of each shape, with so much of
everything.
"""

import argparse
import dataclasses
import math
import pathlib
import re
import struct
import sys
import tempfile
from typing import Iterator, Optional, Sequence

sys.dont_write_bytecode = True
sys.path.insert(0, str(pathlib.Path(__file__).resolve().parent.parent))

from bench.hostile_files import SHAPES
from bench.measures import measured
from tools.repository import BENCH, PathLike

# How much of everything there is at first.
LEAST = 8

# A run that takes longer, in seconds, is the last one; and so is a run over files of more bytes.
LONGEST, LARGEST = 5.0, 500_000

MEGABYTE = 1_000_000

# What a run prints of files that link, and how long it says that verification took.
CODE = re.compile(r"\d+ bytes of code (.*)", re.DOTALL)
TIME = re.compile(r"(\d+) microseconds")

TOO_MUCH = "too much for a class file"


@dataclasses.dataclass
class Ran:
    """A run of a shape: how much of everything there was, the bytes, what was said, seconds, the peak in bytes."""

    number: int
    size: int
    said: str
    seconds: float = 0.0
    verifying: float = 0.0
    peak: int = 0

    def passes(self) -> bool:
        return self.said == "verified"

    def fits(self) -> bool:
        """Whether the files are class files that link, and are no more than a megabyte."""
        return self.size <= MEGABYTE and (self.passes() or "TooLarge" in self.said)


def run_of(program: PathLike, name: str, number: int) -> Ran:
    try:
        files = SHAPES[name](number)
    except struct.error:
        return Ran(number, 0, TOO_MUCH)
    with tempfile.TemporaryDirectory() as folder:
        names = [str(place) for place in range(len(files))]
        for file, data in zip(names, files):
            pathlib.Path(folder, file).write_bytes(data)
        ran = measured([pathlib.Path(program).resolve(), "verify", *names], folder)
    if ran.status:
        sys.exit(f"{name} {number}: status {ran.status}: {ran.error}")
    found, time = CODE.match(ran.written.strip()), TIME.search(ran.error)
    said = found[1] if found else ran.written.strip()
    verifying = int(time[1]) / 1e6 if time else 0.0
    return Ran(number, sum(map(len, files)), said, ran.processor, verifying, 1024 * ran.kilobytes)


def runs_of(program: PathLike, name: str) -> Iterator[Ran]:
    """Runs of a shape, with twice the number each time."""
    number = LEAST
    while True:
        ran = run_of(program, name, number)
        if not ran.passes():
            print(f"{name} {number}: {ran.said}", file=sys.stderr)
            return
        yield ran
        if ran.seconds > LONGEST or ran.size > LARGEST:
            return
        number *= 2


def exponent(before: Optional[Ran], after: Ran) -> str:
    """The power of the bytes to which the seconds grew."""
    if not before or not before.seconds or not after.seconds or before.size == after.size:
        return ""
    return f"{math.log(after.seconds / before.seconds) / math.log(after.size / before.size):.1f}"


def memory(ran: Ran) -> str:
    return f"{ran.peak / 2**20:.0f} MB"


def print_runs(program: PathLike, names: Sequence[str], of_each: Optional[int] = None) -> None:
    print("| Shape | Of each | Bytes | Seconds | Verification, s | Exponent | Peak |")
    print("|---|---|---|---|---|---|---|")
    for name in names:
        before: Optional[Ran] = None
        last: Optional[Ran] = None
        for ran in runs_of(program, name) if of_each is None else [run_of(program, name, of_each)]:
            before, last = last, ran
        if last:
            times = f"{last.seconds:.3f} | {last.verifying:.3f} | {exponent(before, last)}"
            print(f"| `{name}` | {last.number:,} | {last.size:,} | {times} | {memory(last)} |", flush=True)


def largest(program: PathLike, name: str) -> Ran:
    """The run of a shape with the most of everything that fits, to an eighth."""
    last, number = run_of(program, name, LEAST), 2 * LEAST
    while (ran := run_of(program, name, number)).fits():
        last, number = ran, 2 * number
    low, high = last.number, number
    while high - low > max(1, low // 8):
        ran = run_of(program, name, (low + high) // 2)
        if ran.fits():
            last, low = ran, ran.number
        else:
            high = ran.number
    return last


def print_largest(program: PathLike, names: Sequence[str]) -> None:
    print("| Shape | Of each | Bytes | Seconds | Peak | |")
    print("|---|---|---|---|---|---|")
    for name in names:
        ran = largest(program, name)
        what = "`TooLarge`" if "TooLarge" in ran.said else ""
        cost = f"{ran.seconds:.1f} | {memory(ran)}"
        print(f"| `{name}` | {ran.number:,} | {ran.size:,} | {cost} | {what} |", flush=True)


def main() -> None:
    parser = argparse.ArgumentParser(description=__doc__, formatter_class=argparse.RawDescriptionHelpFormatter)
    parser.add_argument("--program", default=BENCH)
    how = parser.add_mutually_exclusive_group()
    how.add_argument("--largest", action="store_true")
    how.add_argument("--of-each", type=int, metavar="N")
    parser.add_argument("names", nargs="*", metavar="NAME")
    options = parser.parse_args()
    for name in options.names:
        if name not in SHAPES:
            parser.error(f"{name} is none of {', '.join(SHAPES)}")
    names = options.names or list(SHAPES)
    if options.largest:
        print_largest(options.program, names)
    else:
        print_runs(options.program, names, options.of_each)


if __name__ == "__main__":
    main()
