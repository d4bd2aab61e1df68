"""A part of fuzzing, as a worker does it; and what the parts together tell.

Runs of given class files are compared with those of the oracle, a plain machine of Python (oracle/machine.py): the
report, the status and the schedule of each seed. Sets of class files that are made by chance are tried by tools/fuzz.
"""

import base64
import pathlib
import re
import shutil
import signal
import subprocess
from typing import Any, Dict, List, NamedTuple, Optional, Sequence

from cluster.faults import FAILED, Fault
from cluster.folders import Folder, write_whole
from cluster.parts import Part, part_fault
from cluster.plans import FUZZ_SETS, Plan, Seeds, seeds_of
from cluster.sweeping import told_of
from oracle.machine import Machine, status_of, text_of
from oracle.schedules import entries_of_events, file_of_entries
from oracle.seeds import Run, mixed, random
from tools.repository import ROOT
from tools.set_counts import SetCounts

# It makes the sets, and tries them.
FUZZ = ROOT / "tools/fuzz"

POLICIES = {"mixed": mixed, "random": random}

RECORD = "seed.schedule"
BUDGET_STATUS, REFUSED_STATUS = 5, 3

# A program that is so ended, by the system or by a user, says nothing of what it runs.
STOPPED = (-signal.SIGKILL, -signal.SIGTERM, -signal.SIGINT, -signal.SIGHUP)
WANT_OF_MEMORY = b"run refused Memory"

# The oracle doesn't tell which limit a run has met.
LIMIT = re.compile(r"^(end refused \d+) \w+$", re.M)


class Side(NamedTuple):
    """What one machine says of a run: its report, its status, and its schedule as a file of version 1."""

    text: str
    status: int
    schedule: bytes

    def told(self) -> Dict[str, Any]:
        return {**self._asdict(), "schedule": base64.b64encode(self.schedule).decode("ascii")}


def option(plan: Plan, name: str) -> str:
    return plan.options[plan.options.index(name) + 1]


def end_of(run: Run) -> str:
    """Why a run of the oracle has ended."""
    if not run.machine.enabled():
        return "quiet"
    return "budget" if len(run.events) == run.most else f"refused {len(run.events)}"


def oracle_side(plan: Plan, files: Sequence[bytes], seed: int) -> Side:
    run = Run(files, int(option(plan, "--budget")))
    POLICIES[option(plan, "--policy")](run, seed)
    end = end_of(run)
    machine: Machine = run.machine
    cut = {"budget": BUDGET_STATUS, "refused": REFUSED_STATUS}
    status = cut[end.split()[0]] if end != "quiet" else status_of(machine, end)
    return Side(text_of(machine, end), status, file_of_entries(entries_of_events(run.events)))


def jvm_side(plan: Plan, scratch: pathlib.Path, seed: int, program: str) -> Side:
    record = scratch / RECORD
    record.unlink(missing_ok=True)
    words = ["--seed", str(seed), *plan.options, "--record", RECORD, "--as-version", "1", *plan.words]
    command = [program, "run", "--quiet", *words]
    ran = subprocess.run(command, cwd=scratch, stdin=subprocess.DEVNULL, capture_output=True)
    if ran.returncode in STOPPED or ran.stderr.startswith(WANT_OF_MEMORY):
        raise Fault(FAILED, f"part failed seed {seed}", told_of(ran))
    said = (ran.stdout + ran.stderr).decode("latin-1")
    return Side(LIMIT.sub(r"\1", said), ran.returncode, record.read_bytes() if record.exists() else b"")


def compared(plan: Plan, scratch: pathlib.Path, seeds: Seeds, program: str) -> Dict[str, Any]:
    """Compares the runs of some seeds, up to the first that differs."""
    files = [(scratch / word).read_bytes() for word in plan.words]
    events = 0
    for seed in range(seeds.first, seeds.last + 1):
        oracle, jvm = oracle_side(plan, files, seed), jvm_side(plan, scratch, seed, program)
        events += sum(int(told) for told in re.findall(r"^events (\d+)$", oracle.text, re.M))
        if oracle != jvm:
            difference = {"seed": seed, "jvm": jvm.told(), "oracle": oracle.told()}
            return {"runs": seed - seeds.first + 1, "events": events, "difference": difference}
    return {"runs": seeds.runs(), "events": events, "difference": None}


def tried(scratch: pathlib.Path, seeds: Seeds, program: str) -> Dict[str, Any]:
    """What is said of the sets of some seeds, and the first that is wrong."""
    command = [str(FUZZ), "--program", program, "--jobs", "1", "--seed", str(seeds.first), str(seeds.runs())]
    ran = subprocess.run(command, cwd=scratch, stdin=subprocess.DEVNULL, capture_output=True)
    if ran.returncode in STOPPED:
        raise Fault(FAILED, f"part failed seeds {seeds}", told_of(ran))
    text = ran.stdout.decode("latin-1")
    first = re.search(r"^# seed (\d+): .*\n(?:(?!# seed |\d+ sets of class files).*\n)*", text, re.M)
    difference = {"seed": int(first[1]), "set": first[0]} if first else None
    if not first and ran.returncode != 0:
        difference = {"seed": seeds.first, "set": f"# from seed {seeds.first} on: {told_of(ran)}\n"}
    return {"text": text, "difference": difference}


def fuzzed(plan: Plan, scratch: pathlib.Path, seeds: Seeds, program: str) -> Dict[str, Any]:
    return tried(scratch, seeds, program) if plan.task == FUZZ_SETS else compared(plan, scratch, seeds, program)


def lines_of(folder: Folder, parts: Sequence[Part]) -> List[str]:
    """What all parts tell together."""
    plan = folder.plan()
    if plan.task == FUZZ_SETS:
        counts = SetCounts()
        for part in parts:
            counts.take(part.result["text"])
        return counts.lines()
    runs, events = (sum(part.result[name] for part in parts) for name in ("runs", "events"))
    first = seeds_of(plan.seeds).first
    return [f"runs {runs}, seeds {first}..{first + runs - 1}", f"events {events}"]


def checked(folder: Folder, part: Part) -> Part:
    """A part whose result has the form of its task."""
    wanted: Dict[str, type] = {"text": str} if part.task == FUZZ_SETS else {"runs": int, "events": int}
    result = part.result
    is_formed = all(isinstance(result.get(name), kind) for name, kind in wanted.items()) and "difference" in result
    if not is_formed or (result["difference"] is not None) != part.is_found:
        raise part_fault("Result", folder.part_path(part.number, part.is_found), "it isn't that of its task")
    return part


def keep_difference(folder: Folder, difference: Dict[str, Any]) -> pathlib.Path:
    """Keeps the first difference in the folder: the class files, and of each machine its report and its schedule."""
    into = folder.path / "difference"
    shutil.rmtree(into, ignore_errors=True)
    into.mkdir()
    if "set" in difference:
        write_whole(into / "set.cases", difference["set"].encode("latin-1"))
        return into
    shutil.copytree(folder.path / "files", into / "files")
    for name in ("jvm", "oracle"):
        side = difference[name]
        write_whole(into / f"{name}.txt", f"{side['text']}status {side['status']}\n".encode("latin-1"))
        write_whole(into / f"{name}.schedule", base64.b64decode(side["schedule"]))
    return into


class WholeComparison(NamedTuple):
    """What all parts tell: lines, and the difference at the lowest seed."""

    lines: List[str]
    difference: Optional[Dict[str, Any]]


def whole_comparison(folder: Folder) -> WholeComparison:
    parts = [checked(folder, part) for part in folder.parts()]
    return WholeComparison(lines_of(folder, parts), parts[-1].result["difference"])
