"""What a worker does: one part of a plan, over files that are written to a folder of its own."""

import pathlib
import tempfile
from typing import Any, Dict

from cluster.folders import Folder
from cluster.fuzzing import fuzzed
from cluster.parts import Part
from cluster.plans import SWEEP, Files, Plan, checksums, program_at
from cluster.sweeping import swept


def write_files(files: Files, scratch: pathlib.Path) -> None:
    for name, data in files.items():
        path = scratch / name
        path.parent.mkdir(parents=True, exist_ok=True)
        path.write_bytes(data)


def is_found_in(result: Dict[str, Any], task: str) -> bool:
    """Whether a part shows what is looked for."""
    if task == SWEEP:
        text: str = result["text"]
        return text.split("\n")[-3:-2] == ["sweep found"]
    return result["difference"] is not None


def made_part(plan: Plan, files: Files, number: int, program: str) -> Part:
    """Does a part. It tells what it was run over: the checksums are those of the files and of the program here."""
    seeds, found = plan.part_seeds(number), program_at(program)
    with tempfile.TemporaryDirectory(prefix="jvm-cluster-") as folder:
        scratch = pathlib.Path(folder)
        write_files(files, scratch)
        result = (swept if plan.task == SWEEP else fuzzed)(plan, scratch, seeds, program)
    is_found = is_found_in(result, plan.task)
    told = checksums(files)
    return Part(
        number, str(seeds), plan.task, plan.options, plan.words, told, found.version, found.checksum, is_found, result
    )


def keep_part_of(folder: Folder, number: int, program: str) -> None:
    """Does a part of a folder, and keeps it there; or nothing, where a part before it has found what is looked for."""
    if not folder.is_needless(number):
        plan = folder.plan()
        folder.keep(made_part(plan, folder.files(plan), number, program))
