"""The cases of cases/: texts of files and command lines of `jvm`, and what each of them must print.

docs/CASES.md tells the form of a text. What the cases of `cases/TOPIC.cases` print is `cases/TOPIC.answers`: a block
for each, which its name begins. A character of an answer is a byte.
"""

import dataclasses
import pathlib
import re
from typing import Callable, Dict, Iterable, Iterator, List, Mapping, Optional, Sequence, Tuple, Union

from tools.repository import ROOT, PathLike

CASES = ROOT / "cases"

# So many groups of digits stand in a line.
IN_A_LINE = 12

Lines = Callable[[List[str]], None]

# ---- what a text says


class TextFault(Exception):
    """The first fault of a text, with the number of its line."""

    def __init__(self, topic: str, line: int, what: str) -> None:
        super().__init__(f"{topic}.cases line {line}: {what}")


@dataclasses.dataclass
class Case:
    """A command line, of which all is compared that comes of it."""

    name: str
    words: List[str] = dataclasses.field(default_factory=list)
    # The file that its standard input is, and the file that it writes whose bytes are to be shown.
    input: Optional[str] = None
    shown: Optional[str] = None
    # Whether what standard error tells a person more is compared, and whether nothing is but the advice there.
    is_told: bool = False
    is_advised: bool = False


@dataclasses.dataclass
class RecordedRuns:
    """Class files that are run in all the ways of the text, recorded and replayed."""

    name: str
    files: List[str] = dataclasses.field(default_factory=list)
    # How a report may begin; any may, where there is none.
    beginnings: List[str] = dataclasses.field(default_factory=list)


@dataclasses.dataclass
class Way:
    """A way of running class files: how often it is done, and the options of `jvm run`."""

    times: int
    options: List[str]


class CaseText:
    """What a text gives: files by their names, the ways in which class files are run, and cases in order."""

    def __init__(self, topic: str) -> None:
        self.topic = topic
        self.files: Dict[str, bytes] = {}
        self.ways: List[Way] = []
        self.cases: List[Union[Case, RecordedRuns]] = []


# ---- reading


class CaseReader:
    """The reading of a text, line by line. Texts whose files it wants lie in the same folder."""

    def __init__(self, topic: str, folder: pathlib.Path = CASES) -> None:
        self.text, self.folder = CaseText(topic), folder
        # What takes the indented lines of the section.
        self.add: Optional[Lines] = None

    def read(self, lines: str) -> CaseText:
        for number, line in enumerate(lines.split("\n"), 1):
            try:
                self.take(line)
            except ValueError as fault:
                raise TextFault(self.text.topic, number, str(fault)) from None
        return self.text

    def take(self, line: str) -> None:
        words = line.split()
        if not words or line.startswith("#"):
            return
        if not line.startswith(" "):
            self.add = self.begun(words)
        elif self.add:
            self.add(words)
        else:
            raise ValueError("an indented line of no section")

    def begun(self, words: List[str]) -> Optional[Lines]:
        """What takes the indented lines of the section that the words begin."""
        begins: Dict[Tuple[str, int], Callable[[], Optional[Lines]]] = {
            ("file", 2): lambda: self.given(words[1], hexadecimal),
            ("text", 2): lambda: self.given(words[1], line_of),
            ("case", 2): lambda: self.case(words[1]),
            ("recorded", 2): lambda: self.recorded(words[1]),
            ("runs", 1): lambda: self.way,
        }
        notes: Dict[Tuple[str, int], Callable[[], None]] = {
            ("files", 2): lambda: self.give_files_of(words[1]),
            ("input", 2): lambda: self.note("input", words[1]),
            ("shown", 2): lambda: self.note("shown", words[1]),
            ("told", 1): lambda: self.note("is_told", True),
            ("advised", 1): lambda: self.note("is_advised", True),
        }
        word = (words[0], len(words))
        if word in begins:
            return begins[word]()
        if word in notes:
            notes[word]()
            return None
        if word == ("file", 4) and words[2] == "from":
            return self.changes(words[1], words[3])
        raise ValueError("none of the sections of a text of cases")

    def give(self, name: str, data: bytes) -> None:
        if name in self.text.files:
            raise ValueError("the file was given before")
        self.text.files[name] = data

    def given(self, name: str, bytes_of: Callable[[Sequence[str]], bytes]) -> Lines:
        self.give(name, b"")

        def add(words: List[str]) -> None:
            self.text.files[name] += bytes_of(words)

        return add

    def changes(self, name: str, other: str) -> Lines:
        if other not in self.text.files:
            raise ValueError("the file that is to be changed isn't given above")
        self.give(name, self.text.files[other])

        def change(words: List[str]) -> None:
            self.text.files[name] = changed(self.text.files[name], words)

        return change

    def give_files_of(self, other: str) -> None:
        """Gives the files of another text, too."""
        topic = other[: -len(".cases")]
        if other != f"{topic}.cases" or not (self.folder / other).exists():
            raise ValueError("the text whose files are wanted isn't there")
        for name, data in read_text(topic, self.folder).files.items():
            self.give(name, data)

    def case(self, name: str) -> Lines:
        case = Case(name)
        self.text.cases.append(case)

        def say(words: List[str]) -> None:
            if case.words:
                raise ValueError("a second command line of a case")
            case.words = words

        return say

    def recorded(self, name: str) -> Lines:
        runs = RecordedRuns(name)
        self.text.cases.append(runs)

        def say(words: List[str]) -> None:
            if runs.files:
                runs.beginnings.append("".join(f"{number}\n" for number in words) + "thread 0 ")
            else:
                runs.files = words

        return say

    def note(self, what: str, value: Union[str, bool]) -> None:
        """Notes what a line says of the case above that has no indented lines."""
        case = self.text.cases[-1] if self.text.cases else None
        if not isinstance(case, Case):
            raise ValueError("it belongs to no case")
        setattr(case, what, value)

    def way(self, words: List[str]) -> None:
        if not words[0].isdecimal():
            raise ValueError("no number of times")
        self.text.ways.append(Way(int(words[0]), words[1:]))


def hexadecimal(words: Sequence[str]) -> bytes:
    """The bytes that the words spell, each of them two hexadecimal digits for each byte."""
    if not all(re.fullmatch("(?:[0-9a-fA-F]{2})+", word) for word in words):
        raise ValueError("no pairs of hexadecimal digits")
    return bytes.fromhex("".join(words))


def line_of(words: Sequence[str]) -> bytes:
    """A line of these words, with a space between two."""
    return " ".join(words).encode() + b"\n"


def changed(data: bytes, words: List[str]) -> bytes:
    """The bytes behind a change of a line."""
    if words[0] == "add":
        return data + hexadecimal(words[1:])
    if words[0] not in ("at", "cut") or not words[1:] or not words[1].isdecimal() or words[0] == "cut" and words[2:]:
        raise ValueError("neither `at OFFSET HEX` nor `cut LENGTH` nor `add HEX`")
    place, new = int(words[1]), hexadecimal(words[2:])
    if place + len(new) > len(data):
        raise ValueError("a change past the end of the file")
    return data[:place] if words[0] == "cut" else data[:place] + new + data[place + len(new) :]


def topics() -> List[str]:
    """The names of all texts."""
    return sorted(path.stem for path in CASES.glob("*.cases"))


def read_text(topic: str, folder: pathlib.Path = CASES) -> CaseText:
    return CaseReader(topic, folder).read((folder / f"{topic}.cases").read_text(encoding="utf-8"))


# ---- cases by their names


class CaseFolder:
    """The cases of all texts, or of some, by their names, each with its text."""

    def __init__(self, names: Optional[Sequence[str]] = None) -> None:
        self.cases: Dict[str, Case] = {}
        self.texts: Dict[str, CaseText] = {}
        for topic in topics() if names is None else names:
            self.take(read_text(topic))

    def take(self, text: CaseText) -> None:
        for case in text.cases:
            self.texts[case.name] = text
            if isinstance(case, Case):
                self.cases[case.name] = case

    def files(self, case: str) -> Dict[str, bytes]:
        """The files that are there for a case."""
        return self.texts[case].files

    def parts(self, case: str) -> Tuple[Optional[str], List[str], List[str]]:
        """The name of the schedule file of a replay, its options, and the names of its class files."""
        words, schedule = self.cases[case].words[1:], None
        options: List[str] = []
        files: List[str] = []
        while words:
            word = words.pop(0)
            if word == "--schedule" and words:
                schedule = words.pop(0)
            elif word.startswith("--"):
                options += [word, *words[:1]]
                words = words[1:]
            else:
                files.append(word)
        return schedule, options, files

    def replayed(self, case: str) -> Tuple[str, List[str], List[str]]:
        """The parts of a replay that has a schedule."""
        schedule, options, files = self.parts(case)
        if schedule is None:
            raise ValueError(f"{case} has no schedule")
        return schedule, options, files

    def replays(self) -> Iterator[str]:
        """The cases that replay files which are all given, and do no more."""
        for name, case in self.cases.items():
            if case.words[:1] == ["replay"] and not {"--explain", "--quiet", "--then-run"} & set(case.words):
                schedule, _, files = self.parts(name)
                if schedule and all(one in self.files(name) for one in [schedule, *files]):
                    yield name

    def write(self, case: str, names: Iterable[str], folder: PathLike) -> None:
        """Writes files that are there for a case into a folder."""
        write_files({name: self.files(case)[name] for name in names}, folder)


def write_files(files: Mapping[str, bytes], folder: PathLike) -> None:
    for name, data in files.items():
        path = pathlib.Path(folder) / name
        path.parent.mkdir(parents=True, exist_ok=True)
        path.write_bytes(data)


# ---- texts that are made


def grouped(groups: Sequence[str], most: int) -> List[str]:
    """Indented lines of groups of digits, so many in each."""
    return ["  " + " ".join(groups[at : at + most]) for at in range(0, len(groups), most)]


def file_lines(name: str, data: bytes) -> List[str]:
    """The section of a file."""
    return [f"file {name}", *grouped(re.findall("..?.?.?.?.?.?.?", data.hex()), IN_A_LINE)]


# ---- answers


def path_of(topic: str) -> pathlib.Path:
    return CASES / f"{topic}.cases"


def answers_path(topic: str) -> pathlib.Path:
    return CASES / f"{topic}.answers"


def answers(topic: str) -> str:
    """What the cases of a text must print."""
    return answers_path(topic).read_bytes().decode("latin-1")


def write_cases(topic: str, text: str, printed: str) -> None:
    """Writes a text, and what its cases must print."""
    path_of(topic).write_text(text, encoding="utf-8")
    answers_path(topic).write_bytes(printed.encode("latin-1"))


def differing(topic: str, text: str, printed: str) -> List[str]:
    """The names of the files of a text and its answers that hold something else."""
    wanted = {path_of(topic): text.encode("utf-8"), answers_path(topic): printed.encode("latin-1")}
    return [path.name for path, data in wanted.items() if not path.exists() or path.read_bytes() != data]


def blocks_of(printed: str) -> Dict[str, str]:
    """What each case prints, by its name, in order."""
    return {block.split("\n")[0]: "case " + block for block in re.split(r"(?m)^case ", printed)[1:]}


def expected() -> Dict[str, Tuple[str, int]]:
    """What each case must write to standard output, with the status that ends it, by the case's name."""
    found = {}
    for topic in topics():
        for name, block in blocks_of(answers(topic)).items():
            told = re.fullmatch(r"(?s)[^\n]*\n(.*)status ([0-9])\n", block)
            if told:
                found[name] = told[1], int(told[2])
    return found
