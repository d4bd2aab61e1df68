"""The command `jvm-cluster`: its options, and what each of its commands does."""

import argparse
import os
import pathlib
import re
import shutil
import sys
from typing import Callable, Dict, List, Optional, Sequence

from cluster.dask_engine import DaskEngine
from cluster.engines import Engine, Job, ParallelEngine
from cluster.faults import FAILED, USAGE, Fault
from cluster.folders import Folder
from cluster.fuzzing import keep_difference, whole_comparison
from cluster.plans import SWEEP
from cluster.sweeping import whole_table, write_schedules
from cluster.words import LIMITS, Asked, Parser, fuzz_plan, sweep_plan
from cluster.work import keep_part_of
from tools.repository import JVM

GREATEST = 2**32 - 1
FUZZ_BUDGET = 100_000
SEEDS_OF_A_PART = 1_000
INTERRUPTED = 130


def number(least: int, most: int) -> Callable[[str], int]:
    """What reads a number of decimal digits from a range."""

    def read(word: str) -> int:
        if not re.fullmatch("[0-9]+", word) or not least <= int(word) <= most:
            raise argparse.ArgumentTypeError(f"{word!r} is no number from {least} to {most}")
        return int(word)

    return read


def add_program(parser: argparse.ArgumentParser) -> None:
    parser.add_argument("--program", metavar="PROGRAM", help="the built program, at the same path on each machine")


def add_engine(parser: argparse.ArgumentParser) -> None:
    """The options of what is done in parts."""
    add_program(parser)
    at_most = number(1, GREATEST)
    parser.add_argument("--seeds", required=True, metavar="A..B", help="the seeds")
    parser.add_argument("--folder", required=True, type=pathlib.Path, metavar="FOLDER", help="where parts are kept")
    parser.add_argument("--engine", choices=["parallel", "dask"], default="parallel")
    jobs = "how many parts are done at a time on a machine"
    parser.add_argument("--jobs", type=at_most, default=os.cpu_count(), metavar="N", help=jobs)
    parser.add_argument("--machines", type=pathlib.Path, metavar="FILE", help="of parallel: its --sshloginfile")
    parser.add_argument("--scheduler", metavar="ADDRESS", help="of dask: its scheduler, as tcp://10.0.0.1:8786")
    size = "how many seeds a part has"
    parser.add_argument("--seeds-of-a-part", type=at_most, default=SEEDS_OF_A_PART, metavar="N", help=size)
    parser.add_argument("--tries", type=at_most, default=3, metavar="N", help="how often a part is tried that fails")
    parser.add_argument("--only-plan", action="store_true", help="lays the folder out, and runs nothing")


def add_run(parser: argparse.ArgumentParser) -> None:
    parser.add_argument("--policy", choices=["mixed", "random"], default="mixed")
    parser.add_argument("files", nargs="*", metavar="FILE", help="the class files")


def sweep_parser(parser: argparse.ArgumentParser) -> None:
    add_engine(parser)
    add_run(parser)
    parser.add_argument("--for", dest="goal", metavar="OUTCOME", help="what is looked for, as by jvm run")
    parser.add_argument("--budget", type=number(0, GREATEST), metavar="N")
    parser.add_argument("--record", type=pathlib.Path, metavar="FOLDER", help="for the first schedule of each outcome")
    parser.add_argument("--as-version", type=number(1, 3), metavar="N")
    parser.add_argument("--main", metavar="NAME")
    parser.add_argument("--files-alone", action="store_true")
    for name in LIMITS:
        parser.add_argument(f"--{name}", type=number(0, GREATEST), metavar="N")
    parser.set_defaults(does=lambda options: run(options, sweep_plan), sets=False)


def fuzz_parser(parser: argparse.ArgumentParser) -> None:
    add_engine(parser)
    add_run(parser)
    parser.add_argument("--budget", type=number(0, GREATEST), default=FUZZ_BUDGET, metavar="N")
    parser.add_argument("--sets", action="store_true", help="tries sets of class files that are made by chance")
    parser.set_defaults(does=lambda options: run(options, fuzz_plan), record=None)


def part_parser(parser: argparse.ArgumentParser) -> None:
    add_program(parser)
    parser.add_argument("folder", type=pathlib.Path, metavar="FOLDER")
    parser.add_argument("number", type=number(1, GREATEST), metavar="NUMBER")
    parser.set_defaults(does=do_part)


def merge_parser(parser: argparse.ArgumentParser) -> None:
    parser.add_argument("--record", type=pathlib.Path, metavar="FOLDER")
    parser.add_argument("folder", type=pathlib.Path, metavar="FOLDER")
    parser.set_defaults(does=lambda options: merge(Folder(options.folder), options.record))


def program_path(word: Optional[str]) -> str:
    """The path of the program, from the root."""
    found = word or str(JVM)
    found = found if "/" in found else shutil.which(found) or found
    return os.path.abspath(found)


def do_part(options: argparse.Namespace) -> int:
    folder = Folder(options.folder)
    plan = folder.plan()
    if options.number > plan.parts():
        raise Fault(USAGE, f"error: the plan has {plan.parts()} parts, and no part {options.number}")
    keep_part_of(folder, options.number, program_path(options.program))
    return 0


def engine_of(options: argparse.Namespace) -> Engine:
    if options.engine == "dask":
        if options.machines:
            raise Fault(USAGE, "error: --machines is of the engine parallel")
        return DaskEngine(options.jobs, options.scheduler)
    if options.scheduler:
        raise Fault(USAGE, "error: --scheduler is of the engine dask")
    return ParallelEngine(options.jobs, options.machines)


def run(options: argparse.Namespace, plan_of: Callable[[argparse.Namespace], Asked]) -> int:
    """Does a plan, and tells what its parts tell. Nothing is written before its words are looked at."""
    options.program = program_path(options.program)
    engine, asked = engine_of(options), plan_of(options)
    job = Job(Folder(options.folder.absolute()), options.program)
    if not options.only_plan:
        engine.check(job)
    job.folder.lay_out(asked.plan, asked.files)
    job.folder.check()
    if options.only_plan:
        print(f"parts {asked.plan.parts()}")
        return 0
    do_all(job, engine, options.tries)
    return merge(job.folder, options.record)


def do_all(job: Job, engine: Engine, tries: int) -> None:
    """Does all parts that are wanted; those that fail again and again are told."""
    for again in range(tries):
        wanted = job.folder.wanted()
        if not wanted:
            return
        if again:
            sys.stderr.write(f"done again: {' '.join(map(str, wanted))}\n")
        engine.do(job, wanted)
    wanted = job.folder.wanted()
    if wanted:
        why = f"parts {' '.join(map(str, wanted))} of {job.folder.plan().parts()} failed {tries} times"
        raise Fault(FAILED, f"part failed {wanted[0]} seeds {job.folder.plan().part_seeds(wanted[0])}", why)


def merge(folder: Folder, record: Optional[pathlib.Path]) -> int:
    """Tells what the parts of a folder tell together."""
    folder.check()
    plan = folder.plan()
    if plan.task != SWEEP:
        return merge_comparisons(folder)
    if record and not (plan.is_recorded and record.is_dir()):
        raise Fault(USAGE, f"record refused Missing {record}", "the folder isn't there, or the plan records nothing")
    table = whole_table(folder)
    if record:
        write_schedules(table, record)
    sys.stdout.buffer.write(table.text(plan.repeated).encode("latin-1"))
    return int(table.is_found)


def merge_comparisons(folder: Folder) -> int:
    whole = whole_comparison(folder)
    lines: List[str] = [*whole.lines, "fuzz found" if whole.difference else "fuzz done"]
    if whole.difference:
        lines += [f"seed {whole.difference['seed']}", str(keep_difference(folder, whole.difference))]
    print("\n".join(lines))
    return int(whole.difference is not None)


COMMANDS: Dict[str, Callable[[argparse.ArgumentParser], None]] = {
    "sweep": sweep_parser,
    "fuzz": fuzz_parser,
    "part": part_parser,
    "merge": merge_parser,
}


def parsed(words: Sequence[str]) -> argparse.Namespace:
    """The options of the words behind a command. Options and files come in any order, each option once."""
    if not words or words[0] not in COMMANDS:
        raise Fault(USAGE, f"error: a command has to be there: {', '.join(COMMANDS)}")
    parser = Parser(f"jvm-cluster {words[0]}", allow_abbrev=False)
    COMMANDS[words[0]](parser)
    names = [word.partition("=")[0] for word in words if word.startswith("--")]
    twice = [name for name in names if names.count(name) > 1]
    if twice:
        raise Fault(USAGE, f"error: the option {twice[0]} is given twice")
    return parser.parse_intermixed_args(words[1:])


def main(words: Sequence[str], text: str) -> int:
    """Does a command, and answers its status."""
    if list(words) in (["--help"], ["-h"]):
        print(text.rstrip("\n"))
        return 0
    try:
        options = parsed(words)
        status: int = options.does(options)
        return status
    except Fault as fault:
        sys.stderr.write(fault.told())
        return fault.status
    except OSError as fault:
        sys.stderr.write(f"device\n  {fault.filename}: {fault.strerror}\n")
        return USAGE
    except KeyboardInterrupt:
        sys.stderr.write("interrupted\n  the same command goes on with the parts that are done\n")
        return INTERRUPTED
