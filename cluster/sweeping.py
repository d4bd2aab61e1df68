"""A part of a sweep, as a worker does it; and what the parts together tell."""

import base64
import pathlib
import subprocess
from typing import Any, Dict, Iterator, List

from cluster.faults import FAILED, Fault
from cluster.folders import Folder, write_whole
from cluster.parts import Part, part_fault
from cluster.plans import Plan, Seeds, seeds_of
from cluster.tables import Table, merged, read_table

RECORDS = "outcomes"


def told_of(ran: "subprocess.CompletedProcess[bytes]") -> str:
    """Why a program came to nothing."""
    if ran.returncode < 0:
        return f"it was ended by signal {-ran.returncode}"
    said = ran.stderr.decode("utf-8", "replace").strip()
    return f"status {ran.returncode}: {said}" if said else f"status {ran.returncode}"


def sweep_command(plan: Plan, program: str, seeds: Seeds) -> List[str]:
    record = ["--record", RECORDS] if plan.is_recorded else []
    return [program, "run", "--quiet", "--seeds", str(seeds), *plan.options, *record, *plan.words]


def swept(plan: Plan, scratch: pathlib.Path, seeds: Seeds, program: str) -> Dict[str, Any]:
    """What the runs of some seeds tell, in a folder that has the files."""
    (scratch / RECORDS).mkdir()
    command = sweep_command(plan, program, seeds)
    ran = subprocess.run(command, cwd=scratch, stdin=subprocess.DEVNULL, capture_output=True)
    if ran.returncode not in (0, 1):
        raise Fault(FAILED, f"part failed seeds {seeds}", told_of(ran))
    text = ran.stdout.decode("latin-1")
    count = sum(1 for _ in (scratch / RECORDS).iterdir())
    paths = [scratch / RECORDS / f"outcome-{number}.schedule" for number in range(1, count + 1)]
    schedules = [base64.b64encode(path.read_bytes()).decode("ascii") for path in paths]
    return {"text": text, "schedules": schedules}


def table_of(part: Part, path: pathlib.Path, is_recorded: bool) -> Table:
    """The table of a part, which has to be that of its seeds."""
    try:
        schedules = [base64.b64decode(text, validate=True) for text in part.result["schedules"]]
        table = read_table(part.result["text"], schedules)
        seeds = seeds_of(part.seeds)
        is_whole = table.last() == seeds.last or table.is_found and table.last() < seeds.last
        if table.first != seeds.first or not is_whole or table.is_found != part.is_found:
            raise ValueError(f"it tells of the seeds {table.first}..{table.last()}")
        if is_recorded and len(schedules) != len(table.outcomes()):
            raise ValueError("it hasn't the schedule of each outcome")
    except (ValueError, KeyError, TypeError) as fault:
        raise part_fault("Table", path, str(fault)) from fault
    return table


def tables(folder: Folder) -> Iterator[Table]:
    is_recorded = folder.plan().is_recorded
    for part in folder.parts():
        yield table_of(part, folder.part_path(part.number, part.is_found), is_recorded)


def whole_table(folder: Folder) -> Table:
    """What all parts of a folder tell together."""
    return merged(tables(folder))


def write_schedules(table: Table, into: pathlib.Path) -> None:
    """Writes the schedule of the first run of each outcome."""
    for number, outcome in enumerate(table.outcomes(), 1):
        write_whole(into / f"outcome-{number}.schedule", outcome.schedule)
