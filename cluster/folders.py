"""The folder of a plan: the plan, its files, and the parts that are done.

Parts are written under another name, and then take their own at once: so a worker that is killed leaves none that is
cut.
"""

import os
import pathlib
import platform
import re
from typing import Dict, Iterator, List

from cluster.faults import REFUSED, USAGE, Fault
from cluster.parts import Part, check_part, part_fault, part_name, part_text, read_part
from cluster.plans import Files, Plan, checksums, differing, read_plan

PART = re.compile(r"(?P<number>[1-9][0-9]*)(?P<found>\.found)?\.json")


def write_whole(path: pathlib.Path, data: bytes) -> None:
    """Puts a file there at once, with all of its bytes."""
    new = path.with_name(f"{path.name}.{platform.node()}.{os.getpid()}.new")
    with open(new, "wb") as file:
        file.write(data)
        file.flush()
        os.fsync(file.fileno())
    os.replace(new, path)


class Folder:
    """The folder of a plan, by its path."""

    def __init__(self, path: pathlib.Path) -> None:
        self.path = path

    def plan_path(self) -> pathlib.Path:
        return self.path / "plan.json"

    def plan(self) -> Plan:
        return read_plan(self.plan_path())

    def part_path(self, number: int, is_found: bool) -> pathlib.Path:
        return self.path / "parts" / part_name(number, is_found)

    def lay_out(self, plan: Plan, files: Files) -> None:
        """Makes the folder; or looks whether it is that of this plan, where there is one."""
        if self.plan_path().exists():
            why = differing(self.plan(), plan)
            if why:
                raise Fault(REFUSED, f"plan refused Differs {self.plan_path()}", why)
            self.files(plan)
            return
        (self.path / "parts").mkdir(parents=True, exist_ok=True)
        for name, data in files.items():
            path = self.path / "files" / name
            path.parent.mkdir(parents=True, exist_ok=True)
            write_whole(path, data)
        write_whole(self.plan_path(), plan.text().encode("ascii"))

    def files(self, plan: Plan) -> Files:
        """The files of the plan, as they stand in the folder."""
        try:
            found = {name: (self.path / "files" / name).read_bytes() for name in plan.files}
        except OSError as fault:
            raise Fault(USAGE, f"file refused Missing {fault.filename}", fault.strerror or "") from fault
        for name, told in checksums(found).items():
            if told != plan.files[name]:
                path = self.path / "files" / name
                raise Fault(REFUSED, f"file refused Changed {path}", "its checksum is another one")
        return found

    def keep(self, part: Part) -> None:
        write_whole(self.part_path(part.number, part.is_found), part_text(part).encode("ascii"))

    def part_paths(self) -> List[pathlib.Path]:
        return sorted((self.path / "parts").glob("*.json"))

    def numbers(self) -> Dict[int, bool]:
        """The numbers of the parts that are done, and whether a run of each showed what is looked for. A part that is
        there twice, or under a name that is none, is refused."""
        found: Dict[int, bool] = {}
        plan = self.plan()
        for path in self.part_paths():
            name = PART.fullmatch(path.name)
            if not name:
                check_part(read_part(path), path, plan)
                raise part_fault("Misnamed", path, "no part has this name")
            number = int(name["number"])
            if number in found:
                raise part_fault("Twice", path, f"part {number} is there under two names")
            found[number] = name["found"] is not None
        return found

    def check(self) -> None:
        """Refuses parts that are no whole parts of the plan."""
        plan = self.plan()
        self.numbers()
        for path in self.part_paths():
            check_part(read_part(path), path, plan)

    def wanted(self) -> List[int]:
        """The numbers of the parts that are still to be done: none behind the first that has found something."""
        numbers = self.numbers()
        end = min((number for number, is_found in numbers.items() if is_found), default=self.plan().parts())
        return [number for number in range(1, end + 1) if number not in numbers]

    def is_needless(self, number: int) -> bool:
        """Whether a part before it has found what is looked for."""
        names = (PART.fullmatch(path.name) for path in (self.path / "parts").glob(part_name("*", True)))
        return any(name and int(name["number"]) < number for name in names)

    def parts(self) -> Iterator[Part]:
        """The parts in their order, up to the first that has found something. One that is left out is refused."""
        plan, numbers = self.plan(), self.numbers()
        for number in range(1, plan.parts() + 1):
            if number not in numbers:
                raise part_fault("Missing", self.part_path(number, False), f"the seeds {plan.part_seeds(number)}")
            path = self.part_path(number, numbers[number])
            part = read_part(path)
            check_part(part, path, plan)
            yield part
            if part.is_found:
                return
