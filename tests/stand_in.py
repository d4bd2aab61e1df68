#!/usr/bin/env python3
"""What stands in for `jvm` in tests where that isn't built: its runs by seeds are those of the oracle.

    tests/stand_in.py run [--quiet] [--files-alone] (--seeds A..B | --seed N) [OPTIONS] FILE..

What it records of a sweep is the text of a schedule in the place of the file. It has no more of the options than the
oracle.
"""

import argparse
import pathlib
import sys
from typing import List

sys.dont_write_bytecode = True
sys.path.insert(0, str(pathlib.Path(__file__).resolve().parent.parent))

from cluster.fuzzing import POLICIES, end_of
from oracle.machine import status_of, text_of
from oracle.schedules import entries_of_events, file_of_entries
from oracle.seeds import Run
from oracle.sweeps import Sweep, words_of

BUDGET_STATUS = 5


def swept(words: List[str]) -> int:
    options = words_of(words)
    sweep = Sweep([pathlib.Path(path).read_bytes() for path in options.files], options)
    policy = " --policy random" if options.policy == "random" else ""
    sys.stdout.write(sweep.text(policy + "".join(f" {path}" for path in options.files)))
    for number, schedule in enumerate(sweep.schedules() if options.record else [], 1):
        (pathlib.Path(options.record) / f"outcome-{number}.schedule").write_text(schedule)
    return int(sweep.is_found)


def ran(words: List[str]) -> int:
    parser = argparse.ArgumentParser()
    for name in ("--seed", "--policy", "--budget", "--record", "--as-version"):
        parser.add_argument(name)
    parser.add_argument("files", nargs="+", type=pathlib.Path)
    options = parser.parse_args(words)
    run = Run([path.read_bytes() for path in options.files], int(options.budget))
    POLICIES[options.policy](run, int(options.seed))
    end = end_of(run)
    sys.stdout.write(text_of(run.machine, end))
    if options.record:
        pathlib.Path(options.record).write_bytes(file_of_entries(entries_of_events(run.events)))
    return BUDGET_STATUS if end == "budget" else status_of(run.machine, end)


def main() -> int:
    words = [word for word in sys.argv[2:] if word not in ("--quiet", "--files-alone")]
    return swept(words) if "--seeds" in words else ran(words)


if __name__ == "__main__":
    sys.exit(main())
