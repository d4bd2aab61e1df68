"""Runs of cases by the built `jvm`, in a folder with their files, and what differs from their answers."""

import ctypes
import difflib
import os
import pathlib
import re
import tempfile
from typing import Dict, Iterator, List, NamedTuple

from tools.cases import Case, CaseText, RecordedRuns, answers, blocks_of, read_text, write_files
from tools.outcomes import Jvm, Outcome, is_replay

# Behind this line stands the advice of `verify`.
ADVICE = b"  what is wrong with each file, and what to write instead (advice, by a pass of its own):\n"

# Lines that tell a person more: how a thread stands, a deadlock, and what has two spaces before it.
FOR_A_PERSON = re.compile(rb"(?:(?:  |thread \d+ |deadlock: )[^\n]*\n)*")

# The file that runs record which are replayed.
SCHEDULE = "recorded.schedule"

# Of prctl (Linux): what drops a capability, and the one by which permissions don't count.
PR_CAPBSET_DROP, CAP_DAC_OVERRIDE = 24, 1


def heed_permissions() -> None:
    """Makes permissions count for the programs that this one begins, as a user that is root, too."""
    if os.geteuid() == 0:
        ctypes.CDLL(None).prctl(PR_CAPBSET_DROP, CAP_DAC_OVERRIDE, 0, 0, 0)


class Difference(NamedTuple):
    """What a case printed in the place of its answer."""

    name: str
    answer: str
    printed: str

    def lines(self) -> Iterator[str]:
        return difflib.unified_diff(self.answer.split("\n"), self.printed.split("\n"), "answer", "printed", lineterm="")


# ---- cases of a text


class TextRun:
    """A program that runs the cases of a text in a folder with its files, which may not be written."""

    def __init__(self, program: pathlib.Path, text: CaseText, folder: pathlib.Path) -> None:
        self.jvm, self.text, self.folder = Jvm(program, folder), text, folder
        write_files(text.files, folder)
        for name in text.files:
            (folder / name).chmod(0o444)

    def shown(self, case: Case) -> str:
        """The bytes of the file that the case was to write, in hexadecimal, 32 a line."""
        if case.shown is None:
            return ""
        path = self.folder / case.shown
        if case.shown in self.text.files or not path.is_file():
            return f"recorded {case.shown} is missing\n"
        data = path.read_bytes()
        lines = [f"  {data[at : at + 32].hex()}\n" for at in range(0, len(data), 32)]
        return f"recorded {case.shown}\n{''.join(lines)}"

    def printed(self, case: Case, answer: str) -> str:
        """What is printed of a case: the answer, where all differs that a case leaves open."""
        ran = self.jvm.ran(case.words, (self.folder / case.input).read_bytes() if case.input else b"")
        if case.is_advised:
            return f"case {case.name}\n{b''.join(ran.error.partition(ADVICE)[1:]).decode('latin-1')}"
        end = f"status {ran.status}\n{self.shown(case)}"
        said = answer[len(f"case {case.name}\n") : -len(end)].encode("latin-1")
        error = ran.error
        if not case.is_told and "--explain" not in case.words and may_be_more(ran, said):
            error = said[len(ran.output) :]
        return f"case {case.name}\n{(ran.output + error).decode('latin-1')}{end}"

    def compared(self, runs: RecordedRuns) -> str:
        """What is printed of class files that are run in all the ways of the text: `equal`, or the first run and replay
        that aren't as they are to be."""
        for way in self.text.ways:
            for _ in range(way.times):
                ran = self.jvm.ran(["run", "--quiet", "--record", SCHEDULE, *way.options, *runs.files])
                replayed = self.jvm.ran(["replay", "--quiet", "--schedule", SCHEDULE, *runs.files])
                is_expected = not runs.beginnings or ran.text().startswith(tuple(runs.beginnings))
                if not is_expected or not is_replay(ran, replayed):
                    return f"case {runs.name}\n{' '.join(way.options)}\n{ran.text()}replayed:\n{replayed.text()}"
        return f"case {runs.name}\nequal\n"

    def differences(self, wanted: Dict[str, str]) -> Iterator[Difference]:
        """What differs from these answers."""
        for case in self.text.cases:
            answer = wanted.get(case.name, "")
            printed = self.printed(case, answer) if isinstance(case, Case) else self.compared(case)
            if printed != answer:
                yield Difference(case.name, answer, printed)


def may_be_more(ran: Outcome, said: bytes) -> bool:
    """Whether all of the output was said, and of standard error all but last lines for a person."""
    more = ran.error[len(said) - len(ran.output) :] if len(said) >= len(ran.output) else b""
    return (ran.output + ran.error).startswith(said) and bool(FOR_A_PERSON.fullmatch(more))


class TextResult(NamedTuple):
    """How many cases a text has, and which of them differ."""

    topic: str
    cases: int
    differences: List[Difference]


def tried(program: pathlib.Path, topic: str) -> TextResult:
    """Runs the cases of a text in a folder that is made for it. An answer that is of no case differs, too."""
    text, wanted = read_text(topic), blocks_of(answers(topic))
    with tempfile.TemporaryDirectory(prefix="jvm-cases-") as folder:
        found = list(TextRun(program, text, pathlib.Path(folder)).differences(wanted))
    names = [case.name for case in text.cases]
    found += [Difference(name, block, "") for name, block in wanted.items() if name not in names]
    return TextResult(topic, len(names), found)
