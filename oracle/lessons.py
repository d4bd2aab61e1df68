#!/usr/bin/env python3
"""Makes the class files of the lessons, and compares what their pages show with what the commands have to print.

    oracle/lessons.py [--write]

Each folder of `lessons/` has a page, README.md, with commands as

    $ jvm replay --schedule NAME.schedule [--then-run] FILE.. # status N
    $ jvm races --schedule NAME.schedule FILE.. # status N

each at the head of a block `text`, and below it what it prints. The Java sources of a folder are compiled by
`tools/java-classes`; what a command prints is worked out by `oracle/machine.py` or `oracle/races.py`, which is the
machine once more, written by the rules alone. With --write the class files, the blocks and the cases (cases/lessons.cases, with what they
must print) are written; without it they are compared, and the status is 1 where one differs.
"""

import argparse
import pathlib
import re
import sys
import tempfile
from typing import Dict, List, Match, Optional, Sequence, Tuple

sys.dont_write_bytecode = True
sys.path.insert(0, str(pathlib.Path(__file__).resolve().parent.parent))

from oracle.machine import Machine, status_of, text_of
from oracle.races import races
from oracle.schedules import Entry, entries_of_text
from oracle.state import NotEnabled, Refused
from tools.cases import differing, file_lines, write_cases
from tools.repository import ROOT, compiled

LESSONS = ROOT / "lessons"

COMMAND = re.compile(
    r"```text\n\$ (?P<words>jvm (?P<command>replay|races) --schedule (?P<schedule>\S+)(?P<goes_on> --then-run)?"
    r" (?P<files>[^#\n]+?))"
    r" # status (?P<status>\d)\n.*?```\n",
    re.DOTALL,
)

HEAD = "# What the pages of lessons/ show, made by `oracle/lessons.py`.\n"


def followed(machine: Machine, entries: Sequence[Entry]) -> Optional[str]:
    """Does the events of a schedule, and answers why there are no more."""
    for thread, pick, repeat in entries:
        for _ in range(repeat):
            try:
                machine.step(thread, pick)
            except NotEnabled:
                return f"not enabled {machine.done}"
            except Refused as refused:
                return f"refused {machine.done} {refused}"
    return None if machine.enabled() else "quiet"


def gone_on(machine: Machine) -> str:
    """Does an event of each thread in turn until none can go on."""
    behind = -1
    while able := machine.enabled():
        behind = next((one for one in able if one > behind), able[0])
        machine.step(behind)
    return "quiet"


def outcome(command: str, files: Sequence[bytes], schedule: str, goes_on: bool) -> Tuple[str, int]:
    """The report of a command, and its status."""
    if command == "races":
        return races(files, entries_of_text(schedule))
    machine = Machine(files)
    end = followed(machine, entries_of_text(schedule)) or (gone_on(machine) if goes_on else "schedule")
    return text_of(machine, end), status_of(machine, end)


def class_files(folder: pathlib.Path) -> Dict[str, bytes]:
    """The class files of the sources of a folder, by their names: each source is compiled alone."""
    files = {}
    for source in sorted(folder.glob("*.java")):
        with tempfile.TemporaryDirectory() as into:
            files.update({path.name: path.read_bytes() for path in compiled([source], into)})
    return files


class Lesson:
    """A folder of lessons/: its class files, its page as it has to be, its cases, and what they must print."""

    def __init__(self, folder: pathlib.Path) -> None:
        self.folder, self.files = folder, class_files(folder)
        self.schedules = {path.name: path.read_text() for path in sorted(folder.glob("*.schedule"))}
        self.stored = (folder / "README.md").read_text()
        self.cases: List[str] = []
        self.printed: List[str] = []
        self.wrong: List[str] = []
        self.page = COMMAND.sub(self.shown, self.stored)

    def shown(self, found: Match[str]) -> str:
        """A command of the page with what it prints behind it; it is a case, too."""
        names = found["files"].split()
        files = [self.files[name] for name in names]
        report, status = outcome(found["command"], files, self.schedules[found["schedule"]], bool(found["goes_on"]))
        if str(status) != found["status"]:
            self.wrong.append(f"{self.folder.name}: {found['words']}: status {status}")
        case = f"{self.folder.name}-{found['schedule'][: -len('.schedule')]}-{names[0][: -len('.class')]}"
        case += "-races" if found["command"] == "races" else ""
        within = [f"{self.folder.name}/{name}" for name in (found["schedule"], *names)]
        words = [f"{found['command']} --schedule", within[0], *(["--then-run"] if found["goes_on"] else []), *within[1:]]
        self.cases += [f"case {case}", "  " + " ".join(words)]
        self.printed.append(f"case {case}\n{report}status {status}\n")
        return f"```text\n$ {found['words']} # status {found['status']}\n{report}```\n"

    def text(self) -> str:
        """The text of its cases."""
        lines: List[str] = []
        contents = {**self.files, **{name: text.encode() for name, text in self.schedules.items()}}
        for name, data in contents.items():
            lines += file_lines(f"{self.folder.name}/{name}", data)
        return "\n".join([f"# lessons/{self.folder.name}", *lines, *self.cases, ""])

    def differing(self) -> List[str]:
        """What is stored otherwise."""
        names = [name for name, data in self.files.items() if not self.is_stored(name, data)]
        return [f"{self.folder.name}/{name}" for name in names + (["README.md"] if self.page != self.stored else [])]

    def is_stored(self, name: str, data: bytes) -> bool:
        path = self.folder / name
        return path.exists() and path.read_bytes() == data

    def write(self) -> None:
        (self.folder / "README.md").write_text(self.page)
        for name, data in self.files.items():
            (self.folder / name).write_bytes(data)


def main() -> None:
    parser = argparse.ArgumentParser(description=__doc__, formatter_class=argparse.RawDescriptionHelpFormatter)
    parser.add_argument("--write", action="store_true")
    options = parser.parse_args()
    lessons = [Lesson(folder) for folder in sorted(LESSONS.iterdir()) if folder.is_dir()]
    text = "\n".join([HEAD, *(lesson.text() for lesson in lessons)])
    printed = "".join(block for lesson in lessons for block in lesson.printed)
    if options.write:
        for lesson in lessons:
            lesson.write()
        write_cases("lessons", text, printed)
        lessons = [Lesson(lesson.folder) for lesson in lessons]
    found = [name for lesson in lessons for name in lesson.differing()]
    found += differing("lessons", text, printed)
    wrong = [line for lesson in lessons for line in lesson.wrong]
    for line in [*wrong, *(f"{name} differs from what is stored" for name in found)]:
        print(line)
    print(f"{len(lessons)} lessons, {printed.count('status ')} commands")
    sys.exit(1 if found or wrong else 0)


if __name__ == "__main__":
    main()
