#!/usr/bin/env python3
"""Schedules with places by the oracle: what `jvm replay` has to print, worked out by a machine of its own.

    oracle/places.py --schedule TEXT [--budget N] [--then-run] FILE..
    oracle/places.py --write

A place lets a thread go on, event by event, until its next bytecode is where docs/REFERENCE.md says. With --write the
schedules below become cases/places.cases, over lessons that are compiled with their lines.
"""

import argparse
import pathlib
import re
import sys
import tempfile
from typing import Dict, Iterator, List, NamedTuple, Optional, Sequence, Set, Tuple, Union

sys.dont_write_bytecode = True
sys.path.insert(0, str(pathlib.Path(__file__).resolve().parent.parent))

from oracle.classes import ClassReader, Reader
from oracle.frames import Frame
from oracle.lessons import LESSONS, gone_on, outcome
from oracle.machine import Machine, status_of, text_of
from oracle.schedules import Entry, Event, entries_of_events, entries_of_text, text_of_events
from oracle.shrinks import Shrunk, joined, lines_of, words_of as entry_words
from oracle.state import NotEnabled, Refused
from oracle.traces import trace
from tools.cases import file_lines, write_cases
from tools.repository import ROOT, compiled

# A method of a class: the names of both, and the descriptor.
Member = Tuple[str, str, str]

PLACE = re.compile(
    r"(?P<thread>\d+)@(?P<class>[^.]*)\.(?P<method>[^(]*?)(?P<descriptor>\(.*\).*?)?(?P<mark>[:+])(?P<number>\d+)"
)


class Place(NamedTuple):
    """A thread that goes on, and the offsets at which it stops, by the methods that have them."""

    thread: int
    offsets: Dict[Member, Set[int]]


def line_starts(data: bytes) -> Iterator[Tuple[Member, int, int]]:
    """The entries of the line tables of a class file (JVMS 4.7.12): the method, the offset and the line of each."""
    reader = ClassReader(data)
    reader.number(2)
    name, _ = reader.class_name(), reader.number(2)
    reader.take(2 * reader.number(2))
    for _ in range(reader.number(2)):
        reader.member()
    for _ in range(reader.number(2)):
        _, method, descriptor, attributes = reader.member()
        for attribute, told in attributes:
            if attribute == "Code":
                for offset, line in code_lines(told, reader):
                    yield (name, method, descriptor), offset, line


def code_lines(data: bytes, names: ClassReader) -> Iterator[Tuple[int, int]]:
    """The entries of the line tables of a code."""
    reader = Reader(data)
    reader.take(4)
    reader.take(reader.number(4))
    reader.take(8 * reader.number(2))
    for _ in range(reader.number(2)):
        attribute: str = names.pool[reader.number(2)][1]
        told = Reader(reader.take(reader.number(4)))
        if attribute == "LineNumberTable":
            for _ in range(told.number(2)):
                yield told.number(2), told.number(2)


def place_of(found: "re.Match[str]", files: Sequence[bytes], machine: Machine) -> Place:
    """The place of a word."""
    offsets: Dict[Member, Set[int]] = {}
    number = int(found["number"])
    members = [
        (one.name, method.name, method.descriptor)
        for one in machine.classes.values()
        for method in one.methods.values()
        if method.code is not None
    ]
    for member in members:
        if member[:2] != (found["class"], found["method"]) or found["descriptor"] not in (None, member[2]):
            continue
        if found["mark"] == "+":
            offsets[member] = {number}
        else:
            starts = [start for data in files for start in line_starts(data)]
            offsets[member] = {offset for method, offset, line in starts if method == member and line == number}
    return Place(int(found["thread"]), offsets)


def words_of(text: str, files: Sequence[bytes], machine: Machine) -> List[Union[Entry, Place]]:
    """What the words of a text stand for."""
    words: List[Union[Entry, Place]] = []
    for word in re.sub(r"#(?![a-z]).*", "", text).split():
        found = PLACE.fullmatch(word)
        if found:
            words.append(place_of(found, files, machine))
        else:
            words.extend(entries_of_text(word))
    return words


def stands(machine: Machine, number: int) -> Optional[Tuple[Member, int]]:
    """Where the next bytecode of a thread is: in which method, and at which offset."""
    thread = machine.threads[number]
    top = thread.top()
    if thread.has_ended or thread.pending or thread.waits or thread.relock or not isinstance(top, Frame):
        return None
    return (top.method.owner.name, top.method.name, top.method.descriptor), top.at


def is_at(machine: Machine, place: Place) -> bool:
    """Whether the next bytecode of the thread is at the place."""
    found = stands(machine, place.thread)
    return found is not None and found[1] in place.offsets.get(found[0], set())


def events_of(machine: Machine, word: Union[Entry, Place], budget: int) -> Iterator[Event]:
    """The events of a word, one after the other, as they are to be done."""
    if isinstance(word, Entry):
        for _ in range(word.repeat):
            yield word.thread, word.pick
        return
    while True:
        if machine.done >= budget:
            raise OverflowError
        yield word.thread, 0
        if is_at(machine, word):
            return


class Followed:
    """A run by a schedule with places: its events, and why there are no more."""

    def __init__(self, files: Sequence[bytes], text: str, budget: int, goes_on: bool) -> None:
        self.machine, self.events = Machine(files), list[Event]()
        self.end = self.followed(words_of(text, files, self.machine), budget)
        if self.end is None:
            self.end = gone_on(self.machine) if goes_on else "schedule" if self.machine.enabled() else "quiet"

    def followed(self, words: Sequence[Union[Entry, Place]], budget: int) -> Optional[str]:
        try:
            for word in words:
                for event in events_of(self.machine, word, budget):
                    self.machine.step(*event)
                    self.events.append(event)
        except NotEnabled:
            return f"not enabled {self.machine.done}"
        except Refused as refused:
            return f"refused {self.machine.done} {refused}"
        except OverflowError:
            return f"place {self.machine.done}"
        return None

    def report(self) -> Tuple[str, int]:
        """The report, and the status."""
        assert self.end is not None
        status = 3 if self.end.startswith("place") else status_of(self.machine, self.end)
        return text_of(self.machine, self.end), status


def words_at(member: Member, at: int, files: Sequence[bytes], machine: Machine) -> Iterator[str]:
    """The words of the places at an offset of a method: by its line, if one begins there, and by the offset."""
    methods = machine.classes[member[0]].methods.values()
    overloads = [one for one in methods if one.name == member[1] and one.code is not None]
    name = f"{member[0]}.{member[1]}{member[2] if len(overloads) > 1 else ''}"
    begun = [line for data in files for method, offset, line in line_starts(data) if (method, offset) == (member, at)]
    if begun:
        yield f"{name}:{begun[-1]}"
    yield f"{name}+{at}"


def placed_word(machine: Machine, entry: Entry, files: Sequence[bytes]) -> str:
    """The word of an entry that is done: the first place to which it brings its thread, and no fewer of its events."""
    passed = []
    for _ in range(entry.repeat):
        machine.step(entry.thread, entry.pick)
        passed.append(stands(machine, entry.thread))
    last = passed[-1]
    for place in words_at(*last, files, machine) if last is not None and entry.pick == 0 else []:
        word = f"{entry.thread}@{place}"
        found = PLACE.fullmatch(word)
        assert found
        offsets = place_of(found, files, machine).offsets
        reached = [one is not None and one[1] in offsets.get(one[0], set()) for one in passed]
        if reached.index(True) == len(passed) - 1:
            return word
    return entry_words([entry])[0]


def placed_text(files: Sequence[bytes], text: str) -> str:
    """What `schedule --places` prints of a schedule: a word in a line, or the entries alone."""
    machine, entries = Machine(files), joined(entries_of_text(text))
    try:
        words = [placed_word(machine, entry, files) for entry in entries]
    except (NotEnabled, Refused):
        words = []
    lines = words if any("@" in word for word in words) else lines_of(entries)
    return "".join(f"{line}\n" for line in lines)


class Shown(NamedTuple):
    """A case: its name and what it shows, the lesson and its classes, the schedule, and options of `replay`."""

    name: str
    shows: str
    folder: str
    names: List[str]
    schedule: str
    budget: Optional[int] = None
    goes_on: bool = False


BUFFER: Tuple[str, List[str]] = ("bounded-buffer", ["IfForWhile"])
ORDER: Tuple[str, List[str]] = ("lock-order", ["LockOrder"])

# Where main is behind both starts, and where a thread tests whether the buffer is empty.
STARTED = "0@IfForWhile.main:36"

SHOWN = [
    Shown("line", "main goes on to the line that calls put", *BUFFER, STARTED),
    Shown("offset", "and to the bytecode behind monitorenter", *BUFFER, "0@IfForWhile.put+6"),
    Shown("words", "a thread up to its test, and then main by numbers", *BUFFER, f"{STARTED} 1@IfForWhile.take:9 0*3"),
    Shown(
        "again", "where the thread stands already, it is the next time",
        *BUFFER, "0@IfForWhile.put:20 0@IfForWhile.put:20",
    ),
    Shown("constructor", "a constructor has its name", *BUFFER, "0@IfForWhile.<init>:2"),
    Shown("descriptor", "a method by its descriptor", *BUFFER, "0@IfForWhile.put(I)V:21"),
    Shown("monitor", "a thread that needs a monitor can't go on", *BUFFER, "0@IfForWhile.put:20 1@IfForWhile.take:9"),
    Shown("wait-set", "nor can one that waits", *BUFFER, f"{STARTED} 1@IfForWhile.take:12"),
    Shown("no-thread", "nor one that isn't there", *BUFFER, "0*3 5@IfForWhile.run:29"),
    Shown("ended", "main ends before it comes there", *BUFFER, "0@IfForWhile.take:9"),
    Shown("budget", "behind so many events it gives up", *BUFFER, "0@IfForWhile.put:20", 20),
    Shown("budget-of-0", "and so it does before any", *BUFFER, "0@IfForWhile.put:20", 0),
    Shown("budget-behind", "numbers count for it, and don't give up", *BUFFER, "0*20 0@IfForWhile.put:20", 10),
    Shown("budget-enough", "behind the place it counts for nothing", *BUFFER, "0@IfForWhile.put:20 0*9", 60),
    Shown("then-run", "behind the last word all threads go on", *BUFFER, f"{STARTED} 1@IfForWhile.take:9", None, True),
    Shown("then-run-budget", "a place gives up, and nothing goes on", *BUFFER, "0@IfForWhile.put:20", 20, True),
    Shown(
        "deadlock", "each thread up to its second lock",
        *ORDER, "0@LockOrder.main:25 1@LockOrder.run:16 2@LockOrder.run:16", None, True,
    ),
]

# What isn't there: a word, the fault, and what is told of it.
MISSING = [
    ("class", "0@Nix.main:5", "Class", "Nix.main:5: there is no class of this name"),
    ("method", "0*3 0@IfForWhile.nix:5", "Method", "IfForWhile.nix:5: the class has no method with code of this name"),
    (
        "descriptor", "0@IfForWhile.put(Z)V:20", "Method",
        "IfForWhile.put(Z)V:20: the class has no method with code of this name",
    ),
    (
        "native", "0@java/lang/Object.wait:1", "Method",
        "java/lang/Object.wait:1: the class has no method with code of this name",
    ),
    (
        "line", "0@IfForWhile.put:9", "Line",
        "IfForWhile.put:9: no instruction begins that line, as far as the class file tells its lines",
    ),
    ("offset", "0@IfForWhile.put+1", "Offset", "IfForWhile.put+1: no instruction begins at that offset"),
    ("offset-behind", "0@IfForWhile.put+39", "Offset", "IfForWhile.put+39: no instruction begins at that offset"),
]

# Words that are none: a mark or a number is missing or another, or the thread is no thread alone.
NO_WORDS = ["0@IfForWhile", "0@IfForWhile.put", "0@IfForWhile.put:", "0@IfForWhile.put:01", "0@IfForWhile.put:65536"]
NO_WORDS += ["0*2@IfForWhile.put:20", "@IfForWhile.put:20", "0.1@IfForWhile.put:20", "00@IfForWhile.put:20"]

HEAD = ["# Schedules with places, made by `oracle/places.py` over classes of the lessons, with their lines.", ""]


def class_files(folder: str, names: Sequence[str]) -> Dict[str, bytes]:
    """The class files of sources of a lesson, with their lines, by their names."""
    files: Dict[str, bytes] = {}
    for name in names:
        with tempfile.TemporaryDirectory() as into:
            for path in compiled([LESSONS / folder / f"{name}.java"], into, True):
                files[f"{folder}/{path.name}"] = path.read_bytes()
    return files


def replayed(shown: Shown, files: Dict[str, bytes]) -> Tuple[List[str], str]:
    """The lines of a case, and what it has to print."""
    budget = 10_000_000 if shown.budget is None else shown.budget
    report, status = Followed(list(files.values()), shown.schedule, budget, shown.goes_on).report()
    options = [f"--budget {shown.budget}"] * (shown.budget is not None) + ["--then-run"] * shown.goes_on
    name = f"place-{shown.name}"
    lines = [f"# {shown.shows}", f"text {name}.text", f"  {shown.schedule}", f"case {name}"]
    lines += ["  " + " ".join(["replay", f"--schedule {name}.text", *options, *files])]
    return lines, f"case {name}\n{report}status {status}\n"


def refused(files: Sequence[str]) -> Tuple[List[str], str]:
    """The lines of the cases of places that aren't there, and of words that are none, and what they have to print."""
    lines, shown = ["# a place that isn't there is told by its words, and nothing runs"], ""
    for name, words, fault, told in MISSING:
        lines += [f"text no-{name}.text", f"  {words}", f"case place-no-{name}"]
        lines += [f"  replay --schedule no-{name}.text {' '.join(files)}", "told"]
        shown += f"case place-no-{name}\nschedule refused {fault} line 1\n  no-{name}.text: line 1: {told}\nstatus 2\n"
    lines += ["# words that are none, behind one that is"]
    for place, word in enumerate(NO_WORDS):
        lines += [f"text no-word-{place}.text", "  0@IfForWhile.put:20", f"  {word}", f"case place-no-word-{place}"]
        lines += [f"  replay --schedule no-word-{place}.text {' '.join(files)}"]
        shown += f"case place-no-word-{place}\nschedule refused Entry line 2\nstatus 2\n"
    return lines, shown


def recorded(files: Dict[str, bytes]) -> Tuple[List[str], str]:
    """Cases of what else takes a schedule with places: a recording has its events by numbers."""
    schedule = f"{STARTED} 1@IfForWhile.take:9"
    report, status = Followed(list(files.values()), schedule, 10_000_000, True).report()
    paths = " ".join(files)
    lines = ["# what is recorded has numbers in place of places", "text place-recorded.text", f"  {schedule}"]
    lines += ["case place-recorded", f"  replay --then-run --record p.schedule --schedule place-recorded.text {paths}"]
    lines += ["case place-replayed", f"  replay --schedule p.schedule {paths}"]
    shown = f"case place-recorded\n{report}status {status}\ncase place-replayed\n{report}status {status}\n"
    lines += ["# a text with places is no schedule file", "case place-no-file", "  schedule --write q.schedule"]
    lines += ["input place-recorded.text", "case place-no-text", "  schedule place-recorded.text"]
    for name in ("no-file", "no-text"):
        shown += f"case place-{name}\nschedule refused Entry line 1\nstatus 2\n"
    return lines, shown


# Schedules that are written with places: a name, what it shows, the lesson and its classes, and the schedule.
PLACED: List[Tuple[str, str, Tuple[str, List[str]], str]] = [
    ("deadlock", "each thread stands in front of its second lock", ORDER, "0*43 1*6 2*6"),
    ("offset", "where no line begins it is the offset", BUFFER, "0*26 1*10 0*3"),
    ("joined", "neighbouring entries of a thread are one", BUFFER, "0*20 0*6 1*4 1*6 0 0 0"),
    ("waits", "a thread that waits is at no place", BUFFER, "0*26 1*11 0*3"),
    ("ended", "nor is one that has ended", BUFFER, "0*67 1*9"),
    ("again", "nor is it a place that is met before", BUFFER, "0*56 1*9"),
    ("not-enabled", "an event that can't be done leaves the entries as they are", BUFFER, "0*3 7*2 0"),
    ("empty", "and so does a schedule without events", BUFFER, "# none"),
]


def placed(files: Dict[str, Dict[str, bytes]]) -> Tuple[List[str], str]:
    """Cases of schedules that are written with places; and what is written is replayed."""
    lines, shown = ["# schedules that are written with places, and what is written is read"], ""
    for name, shows, (folder, _), text in PLACED:
        own, paths = list(files[folder].values()), " ".join(files[folder])
        words = re.sub(r"#.*", "", text)
        told = placed_text(own, words)
        lines += [f"# {shows}", f"text placed-{name}.text", f"  {text}", f"case placed-{name}"]
        lines += [f"  schedule --places --schedule placed-{name}.text {paths}"]
        shown += f"case placed-{name}\n{told}status 0\n"
        report, status = outcome("replay", own, words, False)
        again = f"placed-{name}-again.text"
        if told.split():
            lines += [f"text {again}", *(f"  {line}" for line in told.splitlines())]
        else:
            # A line without a word is none of a text of the cases.
            lines += file_lines(again, told.encode())
        lines += [f"case placed-{name}-again", f"  replay --schedule {again} {paths}"]
        shown += f"case placed-{name}-again\n{report}status {status}\n"
    return lines, shown


def traced_and_shrunk(files: Dict[str, Dict[str, bytes]]) -> Tuple[List[str], str]:
    """Cases of `trace` and `shrink` of schedules with places."""
    lines, shown = ["# a trace of a schedule with places is one of its events, and so is what is left of it"], ""
    own, paths = list(files[BUFFER[0]].values()), " ".join(files[BUFFER[0]])
    text = f"{STARTED} 1@IfForWhile.take:9"
    told, status = trace(own, entries_of_events(Followed(own, text, 10_000_000, False).events))
    lines += ["text place-traced.text", f"  {text}", "case place-traced"]
    lines += [f"  trace --schedule place-traced.text {paths}"]
    shown += f"case place-traced\n{told}status {status}\n"
    own, paths = list(files[ORDER[0]].values()), " ".join(files[ORDER[0]])
    text = "0@LockOrder.main:25 1*2 2*2 1@LockOrder.run:16 2@LockOrder.run:16"
    given = entries_of_events(Followed(own, text, 10_000_000, False).events)
    best = Shrunk(own, "deadlock", 10_000_000, given).best
    assert best is not None
    lines += ["text place-shrunk.text", f"  {text}", "case place-shrunk"]
    lines += [f"  shrink --for deadlock --schedule place-shrunk.text {paths}"]
    left = "".join(f"{line}\n" for line in lines_of(best))
    shown += f"case place-shrunk\n{left}  words: {len(given)} before, {len(best)} after\nstatus 0\n"
    return lines, shown


# A program that uses a class of the library, and a schedule with places in that.
LATCHED = """class Latched extends Thread {
    static java.util.concurrent.CountDownLatch latch = new java.util.concurrent.CountDownLatch(1);

    public void run() {
        latch.countDown();
    }

    public static void main(String[] words) throws InterruptedException {
        new Latched().start();
        latch.await();
    }
}
"""
LATCH = "java/util/concurrent/CountDownLatch"


def with_library() -> Tuple[List[str], str]:
    """The case of places in a class of the library, whose file is given, too."""
    with tempfile.TemporaryDirectory() as into:
        source = pathlib.Path(into, "Latched.java")
        source.write_text(LATCHED)
        files = {"latched/Latched.class": compiled([source], into)[0].read_bytes()}
    files[f"latched/{LATCH}.class"] = (ROOT / f"library/classes/{LATCH}.class").read_bytes()
    lines = [line for name, data in files.items() for line in file_lines(name, data)]
    text = f"0@Latched.main+10 1@{LATCH}.countDown+0"
    shown = Shown("library", "a class of the library has slashes", "latched", [], text)
    case, printed = replayed(shown, files)
    return [*lines, *case], printed


def write() -> None:
    lines, shown, files = [*HEAD], "", dict[str, bytes]()
    for one in SHOWN:
        own = class_files(one.folder, one.names)
        for name in own.keys() - files.keys():
            lines += file_lines(name, own[name])
        files.update(own)
        case, printed = replayed(one, own)
        lines, shown = [*lines, *case], shown + printed
    own = class_files(*BUFFER)
    lessons = {BUFFER[0]: own, ORDER[0]: class_files(*ORDER)}
    others = refused(list(own)), recorded(own), placed(lessons), traced_and_shrunk(lessons), with_library()
    for case, printed in others:
        lines, shown = [*lines, *case], shown + printed
    write_cases("places", "\n".join([*lines, ""]), shown)


def main() -> int:
    if sys.argv[1:] == ["--write"]:
        write()
        return 0
    parser = argparse.ArgumentParser()
    parser.add_argument("--schedule", required=True)
    parser.add_argument("--budget", type=int, default=10_000_000)
    parser.add_argument("--then-run", action="store_true")
    parser.add_argument("files", nargs="+")
    words = parser.parse_args()
    files = [pathlib.Path(path).read_bytes() for path in words.files]
    run = Followed(files, words.schedule, words.budget, words.then_run)
    report, status = run.report()
    sys.stdout.write(f"{text_of_events(run.events)}\n{report}")
    return status


if __name__ == "__main__":
    sys.exit(main())
