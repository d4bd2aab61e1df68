"""What comes of command lines of the built `jvm`."""

import pathlib
import subprocess
from typing import List, NamedTuple, Sequence, Tuple

# A command that takes longer is ended.
SECONDS = 600

# At these words the part of a refusal ends that says what it is.
PLACES = ("file", "method", "line")


class Outcome(NamedTuple):
    """What came of a command line: its status, and the bytes of its output and of its standard error."""

    status: int
    output: bytes
    error: bytes

    def text(self) -> str:
        return f"{(self.output + self.error).decode('latin-1')}status {self.status}\n"


class Jvm:
    """The built program, which runs in a folder."""

    def __init__(self, program: pathlib.Path, folder: pathlib.Path) -> None:
        self.program, self.folder = program, folder

    def ran(self, words: Sequence[str], data: bytes = b"") -> Outcome:
        """What comes of these words, with a standard input of these bytes."""
        command = [str(self.program), *words]
        try:
            ran = subprocess.run(command, cwd=self.folder, input=data, capture_output=True, timeout=SECONDS)
        except subprocess.TimeoutExpired:
            return Outcome(-1, b"", f"no end in {SECONDS} s\n".encode())
        return Outcome(ran.returncode, ran.stdout, ran.stderr)


def parted(report: str) -> Tuple[str, str]:
    """A report, and what stands behind `end`."""
    states, _, end = report.rpartition("\nend ")
    return states, end


def is_replay(ran: Outcome, replayed: Outcome) -> bool:
    """Whether a replay says what the run said: the same report; and the same end where no thread could go on, and else
    that the schedule is used up."""
    states, end = parted(ran.text())
    again, end_again = parted(replayed.text())
    is_end = end_again == end if end.startswith("quiet\n") else end_again == "schedule\nstatus 5\n"
    return bool(end) and again == states and is_end


def in_words(command: str, outcome: Outcome) -> str:
    """The command, and what came of it: why it was refused, or how its report ends; without numbers and places."""
    said = outcome.error.partition(b"\n")[0].decode("latin-1")
    last = outcome.output.rstrip(b"\n").rpartition(b"\n")[2].decode("latin-1")
    found: List[str] = [command]
    if not said and not last.startswith("end "):
        return f"{command} accepted"
    for word in (said or last).split(" "):
        if word in PLACES:
            break
        if not word.isdecimal():
            found.append(word)
    if said.startswith("refused 1 "):
        found.append(said.split(" ")[-1])
    return " ".join(found)
