"""The words of the command line, and the plan that they ask for."""

import argparse
import os
import subprocess
from typing import List, NamedTuple, NoReturn, Sequence

from cluster.faults import REFUSED, USAGE, Fault
from cluster.given import Given, bytes_at, check_names, given_files
from cluster.plans import FUZZ_RUNS, FUZZ_SETS, MOST_PARTS, SWEEP, Files, Plan, checksums, program_at, seeds_of

LIMITS = ("objects", "cells", "monitors", "threads", "frames")
DIFFERS = "differs="
RACE = "race"

# The name of a text that printed numbers are compared with, below the folder of a plan.
EXPECTED = "expected"

# The statuses of runs of no event, of a sweep and of one run.
SWEPT, BUDGET_USED_UP = 0, 5


class Parser(argparse.ArgumentParser):
    """A parser whose faults have the status of `jvm`."""

    def error(self, message: str) -> NoReturn:
        raise Fault(USAGE, f"error: {message}", f"{self.prog} --help tells its words")


class Asked(NamedTuple):
    """A plan that is asked for, and its files."""

    plan: Plan
    files: Files


def checked_seeds(options: argparse.Namespace) -> str:
    """The seeds, in parts that aren't too many."""
    try:
        seeds = seeds_of(options.seeds)
    except ValueError as fault:
        raise Fault(USAGE, f"error: invalid value for --seeds: {fault}") from fault
    if seeds.runs() > MOST_PARTS * options.seeds_of_a_part:
        raise Fault(USAGE, "error: invalid value for --seeds-of-a-part", f"there are more than {MOST_PARTS} parts")
    return str(seeds)


def limit_words(options: argparse.Namespace) -> List[str]:
    """The options that `jvm` tells in the line that repeats a run, in its order, but for the policy."""
    given = [(name, getattr(options, name)) for name in LIMITS]
    words = [word for name, number in given if number is not None for word in (f"--{name}", str(number))]
    words += ["--files-alone"] if options.files_alone else []
    return words + (["--main", options.main] if options.main is not None else [])


def run_words(options: argparse.Namespace, goal: str, budget: str) -> List[str]:
    """The options of `jvm run` that stand beside the seeds."""
    words = ["--policy", options.policy] + (["--budget", budget] if budget else [])
    return words + (["--for", goal] if goal else []) + limit_words(options)


def try_words(program: str, words: Sequence[str]) -> None:
    """Lets the program look at the words and the files, for a run of no event; its fault is handed on."""
    ran = subprocess.run([program, "run", *words], stdin=subprocess.DEVNULL, capture_output=True)
    if ran.returncode not in (SWEPT, BUDGET_USED_UP):
        line, _, reason = ran.stderr.decode("utf-8", "replace").strip().partition("\n")
        raise Fault(ran.returncode if ran.returncode > 0 else REFUSED, line or "program failed", reason.strip())


def try_sweep(options: argparse.Namespace) -> None:
    """Raises the fault that a sweep would tell of its words and files, before anything is run."""
    first = seeds_of(options.seeds).first
    record = ["--record", str(options.record)] if options.record else []
    if options.record and not os.path.isdir(options.record):
        raise Fault(USAGE, f"record refused Missing {options.record}", "it has to be a folder that is there")
    version = ["--as-version", str(options.as_version)] if options.as_version else []
    words = [*run_words(options, options.goal or "", "0"), *record, *version]
    try_words(options.program, ["--seeds", f"{first}..{first}", *words, *options.files])


def told_words(words: Sequence[str]) -> str:
    """Words as they stand in a line of a table, each behind a space."""
    return "".join(f" {os.fsencode(word).decode('latin-1')}" for word in words)


def sweep_plan(options: argparse.Namespace) -> Asked:
    """The plan of a sweep, over what its words name now."""
    seeds = checked_seeds(options)
    try_sweep(options)
    given = given_files(options.files)
    check_names(given.files)
    files, goal = dict(given.files), options.goal or ""
    if goal.startswith(DIFFERS):
        files[EXPECTED] = bytes_at(goal[len(DIFFERS) :])
        goal = f"{DIFFERS}{EXPECTED}"
    words = run_words(options, goal, "" if options.budget is None else str(options.budget))
    words += ["--as-version", str(options.as_version)] if options.as_version else []
    policy = ["--policy", "random"] if options.policy == "random" else []
    races = ["--races"] if goal == RACE else []
    repeated = told_words([*races, *policy, *limit_words(options), *options.files])
    return asked(options, SWEEP, seeds, words, Given(given.words, files), repeated)


def fuzz_plan(options: argparse.Namespace) -> Asked:
    """The plan of fuzzing, by class files or by sets of them that are made by chance."""
    seeds = checked_seeds(options)
    if options.sets == bool(options.files):
        raise Fault(USAGE, "error: class files, or --sets without any, have to be there")
    if options.sets:
        return asked(options, FUZZ_SETS, seeds, [], Given([], {}), "")
    for path in options.files:
        bytes_at(path)
    words = ["--policy", options.policy, "--files-alone"]
    try_words(options.program, ["--seed", str(seeds_of(seeds).first), "--budget", "0", *words, *options.files])
    given = given_files(options.files)
    return asked(options, FUZZ_RUNS, seeds, [*words, "--budget", str(options.budget)], given, "")


def asked(
    options: argparse.Namespace, task: str, seeds: str, words: List[str], given: Given, repeated: str
) -> Asked:
    program = program_at(options.program)
    is_recorded = bool(getattr(options, "record", None))
    told = checksums(given.files)
    step = options.seeds_of_a_part
    plan = Plan(
        task, seeds, step, words, given.words, told, is_recorded, repeated, program.version, program.checksum
    )
    return Asked(plan, given.files)
