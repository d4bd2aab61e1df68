#!/usr/bin/env python3
"""Makes the cases of the Java programs of `programs/`, and compares what they print with `java`.

    oracle/programs.py [--write] [NAME..]

Each program [default: all of them] is compiled by `tools/java-classes`, run by `java`, and run under several schedules
by `oracle/machine.py`, which is the machine once more, written by the rules alone. What each run prints, and the
exceptions that end its threads, have to be those of `java`; but not of a program that races, as its first line says,
and not of a run whose schedule or limit ends it before its threads.

The cases that come of it are compared with cases/java-TOPIC.cases: the class files, the schedules and what they must
print. With --write they are written there. A line is printed for each program. The status is 1 where `java` or a case
differs.

The schedules are made by running the program:

alone    the only thread of the program
turns    two events of each thread that has one enabled, in turn
whole    a thread goes on as long as it can, then the next one
hostile  behind each event that touches what threads share, the last thread that can go on is next, where there is
         another one; and of several threads that wait the last one is notified
0* 1*4   by hand: thread 0 as long as it can go on, then at most four events of thread 1; then as `whole`

With `+2` behind it, one event of thread 2 comes last, though it is not enabled.
"""

import argparse
import pathlib
import re
import subprocess
import sys
import tempfile
from typing import Dict, List, Mapping, Optional, Sequence, Tuple

sys.dont_write_bytecode = True
sys.path.insert(0, str(pathlib.Path(__file__).resolve().parent.parent))

from oracle.frames import Frame
from oracle.machine import Machine, replay
from oracle.opcodes import SHARED
from oracle.schedules import Event, entries_of_events
from oracle.state import JavaThread, NotEnabled, Refused
from tools.cases import answers, blocks_of, differing, file_lines, grouped, write_cases
from tools.repository import ROOT, compiled

# What java prints, a character for each byte, and the exceptions that end its threads.
Java = Tuple[str, List[str]]

# A name, how the schedule is made, options, and how many events there are at most.
Way = Tuple[str, str, str, Optional[int]]

TOPICS = {
    "values": "Quicksort NarrowTypes Switches Matrices Texts",
    "objects": "Shapes InnerClasses Shadowed LinkedObjects Initialisers",
    "exceptions": "FailingReferences Finally Recursions Uncaught Misused Messages Asserts",
    "locks": "SafeCounter RacingCounter Philosophers LeftForks OppositeOrders DoubleChecked LazyTwice Peterson"
    " StopFlag",
    "waiting": "OneSlot BoundedBuffer PingPong Barrier Semaphore NestedEntries Notified ReadersWriter Workers",
    "threads": "Interrupts InterruptedJoin Holder FailingInitialisers CrossedInitialisers",
    "prints": "Hello Letters Surrogates Unfinished NoStream Quoted OneLine Words TwoVoices",
    "strings": "Answers Pieces Sought Ordered Asked TooShort Speakers Kept",
    "telling": "Named Shown Causes Beside Copies Reports",
    "copies": "Clones Spelled Roles",
    "builders": "Sums Joined Truths Builds Built Edited Beyond BothStreams Reported Counted Chorus Gathered Halves",
}

# Further cases of a program.
FURTHER: Dict[str, List[Way]] = {
    "Quicksort": [("cut", "alone", "", 100)],
    "Matrices": [("cells", "alone", "--cells 11", None)],
    "LinkedObjects": [("objects", "alone", "--objects 7", None), ("exact", "alone", "--objects 14 --cells 35", None)],
    "Recursions": [("frames", "alone", "--frames 6", None), ("more-frames", "alone", "--frames 40", None)],
    "Misused": [("beyond", "whole+1", "", None)],
    "Texts": [("once-more", "hostile+0", "", None)],
    "SafeCounter": [("threads", "whole", "--threads 2", None), ("no-monitors", "turns", "--monitors 0", None)],
    "Philosophers": [("cut", "hostile", "", 260)],
    "LeftForks": [("deadlock", "0* 1*6 2*6 3*6", "", None), ("two-forks", "0* 1*11 2*9 3*6", "", None)],
    "OppositeOrders": [("blocked", "turns+0", "", None)],
    "LazyTwice": [("twice", "0*13 1*4 0*", "", None)],
    "DoubleChecked": [("late", "0*22 1*6 2*6", "", None)],
    "RacingCounter": [("worst", "0* 1*13 2*39 1*3 2 1*", "", None)],
    "StopFlag": [("endless", "0*13 1*150", "", 163), ("late", "0*13 1*150 0*", "", None)],
    "OneSlot": [("no-monitors", "turns", "--monitors 0", None), ("cut", "whole", "", 60)],
    "Barrier": [("one-monitor", "whole", "--monitors 1", None), ("cut", "whole", "", 70)],
    "Workers": [("objects", "turns", "--objects 9", None)],
    "InterruptedJoin": [("cut", "hostile", "", 60)],
    "Holder": [("cut", "turns", "", 60), ("too-early", "turns+2", "", 60)],
    "CrossedInitialisers": [("blocked", "hostile+1", "", None)],
    "Notified": [("beyond", "hostile+2", "", None)],
    "Interrupts": [("objects", "whole", "--objects 1", None)],
    "Surrogates": [("half", "alone", "", 112)],
    "Pieces": [
        ("exact", "alone", "--objects 74 --cells 928", None),
        ("objects", "alone", "--objects 73", None),
        ("cells", "alone", "--cells 927", None),
        ("both", "alone", "--objects 73 --cells 907", None),
    ],
    "TooShort": [("objects", "whole", "--objects 4", None)],
    "Speakers": [("cut", "turns", "", 40), ("cells", "turns", "--cells 27", None)],
    "Sums": [
        ("exact", "alone", "--objects 88 --cells 632", None),
        ("objects", "alone", "--objects 87", None),
        ("cells", "alone", "--cells 631", None),
    ],
    "Builds": [("both", "alone", "--objects 61 --cells 600", None)],
    "Counted": [("no-cells", "turns", "--cells 2", None), ("cells", "whole", "--cells 9", None)],
    "Gathered": [("objects", "hostile", "--objects 9", None)],
    "BothStreams": [("cut", "hostile", "", 60)],
    "OneLine": [("halves", "0*11 1*7 0*", "", None), ("cut", "0*11 1*4", "", 15)],
}

# No run goes on beyond so many events.
MOST = 10_000

# What java prints of an exception that ends a thread.
UNCAUGHT = re.compile(r'Exception in thread "[^"]*" ([\w.$]+).*\n(?:\s+at .*\n|Caused by: .*\n|\t\.\.\. .*\n)*')

TURN = 2


def touches_shared(thread: JavaThread) -> bool:
    """Whether the next event of a thread is an instruction that touches what threads share."""
    top = thread.top()
    if thread.pending or thread.relock or not isinstance(top, Frame):
        return False
    return top.opcode() in SHARED


def last_pick(machine: Machine, number: int) -> int:
    """The highest pick with which an event of a thread is enabled."""
    for pick in range(len(machine.threads), 0, -1):
        try:
            machine.planned(machine.threads[number], pick)
            return pick
        except NotEnabled:
            pass
    return 0


def by_hand(machine: Machine, way: str) -> List[Event]:
    """The events of a schedule by hand that are enabled."""
    events = []
    for thread, star, count in re.findall(r"([0-9]+)(\*?)([0-9]*)", way):
        for _ in range(int(count) if count else MOST if star else 1):
            if int(thread) not in machine.enabled():
                break
            machine.step(int(thread))
            events.append((int(thread), 0))
    return events


def next_in_turn(able: List[int], number: int) -> int:
    """The next thread behind one, in rotation."""
    return next((other for other in able if other > number), able[0])


def chosen(way: str, machine: Machine, able: List[int], events: List[Event], was_shared: bool) -> Event:
    """The next event of a run, of the threads that are able to go on; the last one touched what they share, or not."""
    last = events[-1][0] if events else 0
    if way == "hostile":
        others = [number for number in able if number != last]
        number = last if last in able and not was_shared or not others else others[-1]
        return number, last_pick(machine, number)
    had_turn = way == "turns" and len(events) >= TURN and all(one[0] == last for one in events[-TURN:])
    return (last if last in able and not had_turn else next_in_turn(able, last)), 0


def scheduled(files: Sequence[bytes], way: str, limits: Mapping[str, int], most: Optional[int]) -> List[Event]:
    """The events of a run, which ends where no thread can go on, a limit stands, or there are enough."""
    way, _, last = way.partition("+")
    machine, was_shared = Machine(files, limits), False
    events = by_hand(machine, way) if way[0].isdigit() else []
    while len(events) < (most or MOST):
        able = machine.enabled()
        if not able:
            break
        event = chosen(way, machine, able, events, was_shared)
        touching = touches_shared(machine.threads[event[0]])
        events.append(event)
        try:
            machine.step(*event)
        except Refused:
            break
        was_shared = touching
    return [*events, (int(last), 0)] if last else events


class Program:
    """A program: its name, its class files, and what `java` says of it."""

    def __init__(self, name: str, folder: str) -> None:
        self.name, self.folder = name, pathlib.Path(folder) / name
        self.source = ROOT / "programs" / f"{name}.java"
        told = re.match(r"/\*\* (.*) \*/", self.source.read_text())
        self.told = told[1] if told else ""
        self.files = {path.name: path.read_bytes() for path in compiled([self.source], self.folder)}

    def races(self) -> bool:
        return self.told.endswith("Races.")

    def java(self) -> Java:
        """What `java` prints, by both streams as they come, and the exceptions that end its threads."""
        words = ["java", "-ea", "-Dfile.encoding=UTF-8", "-cp", str(self.folder), self.name]
        ran = subprocess.run(words, stdout=subprocess.PIPE, stderr=subprocess.STDOUT, encoding="latin-1", timeout=60)
        thrown = UNCAUGHT.findall(ran.stdout)
        return UNCAUGHT.sub("", ran.stdout), sorted(name.replace(".", "/") for name in thrown)

    def runs(self) -> List[Way]:
        """Names of cases, with the way of the schedule, options, and the most events."""
        whole = scheduled(list(self.files.values()), "whole", {}, None)
        ways = ["turns", "whole", "hostile"] if any(number for number, _ in whole) else ["alone"]
        return [(way, way, "", None) for way in ways] + FURTHER.get(self.name, [])


def limits_of(options: str) -> Dict[str, int]:
    words = options.split()
    return {name[2:]: int(number) for name, number in zip(words[::2], words[1::2])}


def differs(program: Program, report: str, java: Optional[Java]) -> bool:
    """Whether a report of a run to the end says something else than java."""
    at = f"\n{report}".rindex("\nthread 0 ")
    thrown = sorted(re.findall(r"(?m)^thread \d+ threw (.*)$", report[at:]))
    return java is None or (report[:at], thrown) != (ended(java[0]), java[1])


def ended(text: str) -> str:
    """A text whose last line is ended."""
    return f"{text}\n" if text and not text.endswith("\n") else text


def cases_of(program: Program, java: Optional[Java]) -> Tuple[str, str, List[str]]:
    """The text of the cases of a program, what they must print, and the names of those that differ from java."""
    text = [f"# {program.told}"]
    printed: List[str] = []
    differing: List[str] = []
    for name, data in program.files.items():
        text += file_lines(name, data)
    for name, way, options, most in program.runs():
        entries = entries_of_events(scheduled(list(program.files.values()), way, limits_of(options), most))
        report, status = replay(list(program.files.values()), entries, limits_of(options))
        schedule = f"{program.name}-{name}.schedule"
        text += [f"file {schedule}", f"  4a534348 01 {len(entries):08x}"]
        text += grouped([f"{thread:04x}{pick:04x}{repeat:08x}" for thread, pick, repeat in entries], 6)
        words = ["replay --schedule", schedule, *options.split(), *program.files]
        text += [f"case {program.name}-{name}", "  " + " ".join(words)]
        printed.append(f"case {program.name}-{name}\n{report}status {status}\n")
        if not options and not most and "+" not in way and not program.races() and differs(program, report, java):
            differing.append(name)
    return "\n".join([*text, ""]), "".join(printed), differing


HEAD = """# Java programs as javac compiles them, made by `oracle/programs.py` of the sources in programs/.
"""


def made(names: Sequence[str], folder: str) -> Tuple[Dict[str, str], Dict[str, str], bool]:
    """The texts of the topics, what all cases must print, and whether a program differs from java."""
    texts: Dict[str, str] = {}
    printed: Dict[str, str] = {}
    is_wrong = False
    for topic, members in TOPICS.items():
        parts = [HEAD]
        for name in members.split():
            if names and name not in names:
                continue
            program = Program(name, folder)
            java = None if program.races() else program.java()
            text, shown, differing = cases_of(program, java)
            parts.append(text)
            printed[topic] = printed.get(topic, "") + shown
            is_wrong |= bool(differing)
            count = shown.count("\ncase ") + 1
            says = "races" if java is None else f"not as java: {' '.join(differing)}" if differing else "as java"
            print(f"{name}: {count} cases, {says}", flush=True)
        texts[topic] = "\n".join(parts)
    return texts, printed, is_wrong


def differing_cases(texts: Dict[str, str], printed: Dict[str, str], names: Sequence[str]) -> List[str]:
    """What stands otherwise in cases/: files, or cases where names are given."""
    if not names:
        return [name for topic in texts for name in differing(f"java-{topic}", texts[topic], printed[topic])]
    found: List[str] = []
    for topic, shown in printed.items():
        kept = blocks_of(answers(f"java-{topic}"))
        found += [name for name, block in blocks_of(shown).items() if kept.get(name) != block]
    return found


def main() -> None:
    parser = argparse.ArgumentParser(description=__doc__, formatter_class=argparse.RawDescriptionHelpFormatter)
    parser.add_argument("--write", action="store_true")
    parser.add_argument("names", nargs="*", metavar="NAME")
    options = parser.parse_args()
    if options.write and options.names:
        parser.error("--write writes the cases of all programs")
    with tempfile.TemporaryDirectory() as folder:
        texts, printed, is_wrong = made(options.names, folder)
    if options.write:
        for topic, text in texts.items():
            write_cases(f"java-{topic}", text, printed[topic])
    found = differing_cases(texts, printed, options.names)
    for name in found:
        print(f"{name} differs from what is stored")
    sys.exit(1 if is_wrong or found else 0)


if __name__ == "__main__":
    main()
