"""What a worker hands back of a part: a record that tells what was run over what, with a checksum of its own."""

import json
import pathlib
from typing import Any, Dict, List, NamedTuple, Union

from cluster.faults import REFUSED, Fault
from cluster.plans import Plan, Seeds, checksum

FORMAT = "jvm-cluster part 1"


class Part(NamedTuple):
    """A part that is done. `result` is what its task tells: of a sweep the text and the schedules of its outcomes."""

    number: int
    seeds: str
    task: str
    options: List[str]
    words: List[str]
    files: Dict[str, str]
    version: str
    program: str
    is_found: bool
    result: Dict[str, Any]

    def name(self) -> str:
        """The name of its file."""
        return part_name(self.number, self.is_found)


def part_name(number: Union[int, str], is_found: bool) -> str:
    """The name of a part's file, or a pattern of such. It tells whether a run of it showed what is looked for."""
    return f"{number}.found.json" if is_found else f"{number}.json"


def part_fault(name: str, path: pathlib.Path, reason: str) -> Fault:
    return Fault(REFUSED, f"part refused {name} {path}", reason)


def part_text(part: Part) -> str:
    """The text of a part's file."""
    body = json.dumps(part._asdict(), sort_keys=True)
    return f'{{"format": "{FORMAT}", "sha256": "{checksum(body.encode("ascii"))}", "part": {body}}}\n'


def read_part(path: pathlib.Path) -> Part:
    """The part of a file, which is whole and unchanged."""
    text = path.read_bytes().decode("latin-1")
    try:
        part = Part(**json.loads(text)["part"])
        is_whole = part_text(part) == text
    except (ValueError, KeyError, TypeError) as fault:
        raise part_fault("Damaged", path, f"it is cut or changed: {fault}") from fault
    if not is_whole:
        raise part_fault("Damaged", path, "it is changed: its checksum is that of another text")
    return part


def check_part(part: Part, path: pathlib.Path, plan: Plan) -> None:
    """Refuses a part that isn't of this plan, or has a name that isn't its own."""
    if not 1 <= part.number <= plan.parts():
        raise part_fault("Range", path, f"it is part {part.number} of a plan, and this one has {plan.parts()}")
    wanted: Seeds = plan.part_seeds(part.number)
    for name, there, asked, what in (
        ("Task", [part.task, part.options, part.words], [plan.task, plan.options, plan.words], "task or options"),
        ("Range", part.seeds, str(wanted), f"seeds of part {part.number}"),
        ("Files", part.files, plan.files, "checksums of the class files"),
        ("Version", part.version, plan.version, "version of the program"),
        ("Program", part.program, plan.program, "checksum of the program"),
    ):
        if there != asked:
            raise part_fault(name, path, f"{what}: {there} in the part, {asked} in the plan")
    if path.name != part.name():
        if any((path.parent / part_name(part.number, found)).exists() for found in (False, True)):
            raise part_fault("Twice", path, f"it is part {part.number}, which is there under its own name, too")
        raise part_fault("Misnamed", path, f"it is {part.name()} by what it holds")
