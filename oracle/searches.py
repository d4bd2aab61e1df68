#!/usr/bin/env python3
"""Searches by the oracle: what `jvm search` has to print, worked out by a machine of its own.

    oracle/searches.py [--for OUTCOME] [--states N] [--all-events] FILE..
    oracle/searches.py --write

States are searched breadth first, the events of each in the order of threads and picks. Behind an event with pick 0
those of its thread are done, too, that are alone: local instructions, at most 1,024 in a row, calls and returns by which
no monitor is entered or left, and what leaves a monitor for good. They are told by what they did. A state is told apart from others by its objects in
the order in which they were made, its classes, threads and stacks, and what was printed. A state is kept as the events
that lead to it. With --write the searches of the lessons below become cases/searches.cases, with what they have to
print. The schedule of a run that was found is recorded and replayed. So are those of the programs in `programs/races/`
and `programs/kinds/`, in cases/kinds.cases: their first lines say which variables race, or which kinds of states there
are.

With --all-events each event is a step by itself, and each state that any run comes to is looked at.
"""

import argparse
import pathlib
import re
import sys
import tempfile
from typing import Any, Dict, Iterable, Iterator, List, Optional, Sequence, Set, Tuple, Union

sys.dont_write_bytecode = True
sys.path.insert(0, str(pathlib.Path(__file__).resolve().parent.parent))

from oracle.frames import Frame
from oracle.kinds import KINDS, first_endless, kinds_of, race_line
from oracle.lessons import LESSONS, class_files
from oracle.machine import Machine, status_of, text_of, thread_lines
from oracle.races import next_race
from oracle.schedules import Event
from oracle.state import THREAD_NUMBER, Initialisation, JavaThread, NotEnabled, Object, Refused, Value
from oracle.texts import in_utf8, printed_lines, spelled_units, text_order
from tools.cases import file_lines, write_cases
from tools.repository import ROOT, compiled

# How the words of a report are ordered.
RANKS = ["ended", "threw", "blocked", "waiting", "joining", "initialising"]


# The units that were printed, and how each thread stands.
Outcome = Tuple[Tuple[int, ...], Tuple[str, ...]]

# A value as it tells a state apart.
Word = Union[int, Tuple[Any, ...]]


class Numbered(Machine):
    """A machine that numbers its objects in the order in which they are made."""

    def __init__(self, files: Sequence[bytes]) -> None:
        self.numbers: Dict[Object, int] = {}
        super().__init__(files)
        # Where no file names these, nothing can tell which of the Threads without a name one is.
        given = list(self.classes.values())[-len(files) :]
        members = [value for one in given for _, value in one.pool.values() if isinstance(value, tuple)]
        self.tells_numbers = any(value[1:2] in (("getName",), ("toString",)) for value in members)

    def allocated(self, thing: Object, cells: int) -> Object:
        self.numbers[thing] = len(self.numbers)
        return super().allocated(thing, cells)

    def word(self, value: Value) -> Word:
        """A value as a word: null is 0, as are locals that were not written."""
        if value is None:
            return 0
        if isinstance(value, int):
            return value
        number = self.numbers.get(value)
        return ("new", number) if number is not None else ("old", value.kind, self.place(value))

    def place(self, thing: Object) -> Union[int, str]:
        """An object that is there from the beginning."""
        for name, one in self.classes.items():
            if one.object is thing:
                return name
        for text, string in self.strings.items():
            if string is thing:
                return text
        streams = self.classes["java/lang/System"].statics.items()
        return next((name for name, stream in streams if stream is thing), 0)

    def monitor(self, thing: Object) -> Tuple[Any, ...]:
        owner = self.threads.index(thing.owner) if thing.owner else None
        return owner, thing.entries, tuple(self.threads.index(waiter) for waiter in thing.waiters)

    def entry(self, entry: Union[Frame, Initialisation]) -> Tuple[Any, ...]:
        if not isinstance(entry, Frame):
            return entry.of.name, entry.phase
        entered = self.word(entry.entered)
        method = entry.method.owner.name, entry.method.name, entry.method.descriptor
        return method, entry.at, entered, tuple(map(self.word, entry.locals)), tuple(map(self.word, entry.stack))

    def thread(self, thread: JavaThread) -> Tuple[Any, ...]:
        waits = thread.waits and (self.word(thread.waits[0]), thread.waits[1])
        relock = thread.relock and (self.word(thread.relock[0]), *thread.relock[1:])
        entries = tuple(map(self.entry, thread.entries))
        flags = thread.is_interrupted, thread.has_ended
        return self.word(thread.object), self.word(thread.pending), flags, waits, relock, entries

    def things(self) -> List[Object]:
        return [*self.numbers, *(one.object for one in self.classes.values()), *self.strings.values()]

    def key(self) -> Tuple[Any, ...]:
        """What tells the state apart from others."""
        things = []
        for thing in [*self.numbers, *(one.object for one in self.classes.values())]:
            hidden = set() if self.tells_numbers else {THREAD_NUMBER}
            fields = [value for field, value in thing.fields.items() if field not in hidden]
            parts = thing.elements if thing.elements is not None else fields
            things.append((thing.kind, tuple(map(self.word, parts)), tuple(thing.text), self.monitor(thing)))
        # Of a constant nothing but its monitor changes.
        strings = {text: self.monitor(one) for text, one in sorted(self.strings.items()) if one.owner or one.waiters}
        classes = []
        for one in self.classes.values():
            by = self.threads.index(one.by) if one.state == "begun" and one.by else None
            classes.append((one.state, by, tuple(map(self.word, one.statics.values()))))
        threads = tuple(map(self.thread, self.threads))
        kept = self.unnamed if self.tells_numbers else 0, tuple(map(self.word, self.interned))
        return tuple(things), tuple(strings.items()), tuple(classes), threads, tuple(self.printed), kept

    def is_quiet(self) -> bool:
        return all(self.state(number) != "runnable" for number in range(len(self.threads)))

    def outcome(self) -> Outcome:
        return tuple(self.printed), tuple(self.state(number) for number in range(len(self.threads)))


def at(files: Sequence[bytes], events: Tuple[Event, ...]) -> Numbered:
    """A machine that has done these events."""
    machine = Numbered(files)
    for thread, pick in events:
        machine.step(thread, pick)
    return machine


# How many local instructions are done at most, and how often these and another event that is alone.
MOST, ROUNDS = 1024, 1024


def seen(thread: JavaThread) -> Optional[Tuple[int, Optional[Object]]]:
    """How many entries a thread has that runs in a frame, with no exception pending, and what the frame has entered."""
    top = thread.top()
    if thread.has_ended or thread.waits or thread.relock or thread.pending or not isinstance(top, Frame):
        return None
    return len(thread.entries), top.entered


def is_alone(machine: Numbered, number: int) -> bool:
    """Does the next event of a thread, if it is enabled, and tells whether it was alone."""
    thread = machine.threads[number]
    owned = [thing for thing in machine.things() if thing.owner is thread]
    before = seen(thread)
    try:
        machine.step(number)
    except (NotEnabled, Refused):
        return False
    after = seen(thread)
    if not before or not after:
        return False
    called = after[0] == before[0] + 1 and not after[1]
    returned = after[0] + 1 == before[0] and not before[1]
    left = after[0] <= before[0] and any(thing.owner is not thread for thing in owned)
    return called or returned or left


def past(files: Sequence[bytes], events: Tuple[Event, ...], number: int) -> Tuple[Tuple[Event, ...], Numbered]:
    """These events, and those of a thread behind them that are alone, and where they lead."""
    machine = at(files, events)
    for _ in range(ROUNDS):
        local = 0
        while local < MOST and machine.threads[number].next_is_local():
            machine.step(number)
            local += 1
        events = (*events, *[(number, 0)] * local)
        if not is_alone(machine, number):
            return events, at(files, events)
        events = (*events, (number, 0))
    return events, machine


def following(
    files: Sequence[bytes], events: Tuple[Event, ...], is_reduced: bool
) -> Iterator[Tuple[Tuple[Event, ...], Numbered]]:
    """The states to which an event leads from the end of these, in the order of threads and picks."""
    for thread in range(len(at(files, events).threads)):
        for pick in range(1 << 16):
            machine = at(files, events)
            try:
                machine.step(thread, pick)
            except NotEnabled:
                break
            after = (*events, (thread, pick))
            yield past(files, after, thread) if is_reduced and not pick else (after, machine)


def is_wanted(goal: Optional[str], outcome: Outcome) -> bool:
    printed, threads = outcome
    if goal == "deadlock":
        return any(state in RANKS[2:] for state in threads)
    if goal == "uncaught":
        return any(state.startswith("threw") for state in threads)
    if goal and goal.startswith("differs="):
        return printed_lines(printed) != text_at(goal.removeprefix("differs="))
    if goal and goal.startswith("text="):
        return list(printed) == spelled_units(goal.removeprefix("text="))
    numbers = [number for number in (goal or "").removeprefix("output=").split(",") if number]
    return goal is not None and goal.startswith("output=") and in_utf8(printed) == lines_of_ints(numbers)


def text_at(path: str) -> str:
    """A text that is given below, or else lies there."""
    numbers = TEXTS.get(path)
    return pathlib.Path(path).read_text(encoding="latin-1") if numbers is None else lines_of_ints(numbers)


def lines_of_ints(numbers: Iterable[Union[int, str]]) -> str:
    return "".join(f"{number}\n" for number in numbers)


def order(outcome: Outcome) -> Tuple[Any, ...]:
    """Where an outcome stands in a list."""
    printed, threads = outcome
    return text_order(printed), tuple((RANKS.index(state.split(" ")[0]), state.encode()) for state in threads)


def lines_of(outcome: Outcome) -> str:
    printed, threads = outcome
    return printed_lines(printed) + thread_lines(threads)


class Seen:
    """What the states of a search have shown."""

    def __init__(self, files: Sequence[bytes], goal: Optional[str]) -> None:
        self.files = files
        self.goal = goal
        self.outcomes: Set[Outcome] = set()
        self.kinds: Set[str] = set()
        self.race = ""

    def is_found(self, machine: Numbered, events: Sequence[Event]) -> bool:
        """Whether the state of a machine is to be found, to which these events led. If not, what it shows is listed."""
        kinds = kinds_of(machine)
        if kinds and self.goal == "any" or self.goal in kinds:
            return True
        if "race" in kinds - self.kinds:
            self.race = next_race(self.files, events)
        self.kinds |= kinds
        if not machine.is_quiet():
            return False
        outcome = machine.outcome()
        if self.goal not in KINDS and is_wanted(self.goal, outcome):
            return True
        self.outcomes.add(outcome)
        return False

    def text(self) -> str:
        """The outcomes, and the kinds, that of races with the first one's places."""
        outcomes = enumerate(sorted(self.outcomes, key=order), 1)
        parts = [f"outcome {number}\n{lines_of(outcome)}" for number, outcome in outcomes]
        kinds = [f"kind {self.race}" if kind == "race" else f"kind {kind}\n" for kind in KINDS if kind in self.kinds]
        return "".join([*parts, f"outcomes {len(self.outcomes)}\n", *kinds])


def search(
    files: Sequence[bytes], goal: Optional[str], most: int, is_reduced: bool = True
) -> Tuple[str, int, Optional[Numbered]]:
    """What `jvm search` prints, its status, and the machine that was found. Where the search isn't reduced there are
    more states, and no event is followed by others."""
    met = {at(files, ()).key(): 0}
    states: List[Tuple[Event, ...]] = [()]
    led: List[Set[int]] = []
    seen = Seen(files, goal)
    for events in states:
        led.append(set())
        for after, machine in following(files, events, is_reduced):
            key = machine.key()
            if key not in met:
                if len(states) == most:
                    return last_lines(states, "gave up"), 5, None
                met[key] = len(states)
                states.append(after)
            led[-1].add(met[key])
        machine = at(files, events)
        if seen.is_found(machine, events):
            return text_of(machine, end_of(machine)) + last_lines(states, "found"), 1, machine
    endless = first_endless(led)
    if endless is not None:
        if goal in ("endless", "any"):
            machine = at(files, states[endless])
            return text_of(machine, end_of(machine)) + last_lines(states, "found"), 1, machine
        seen.kinds.add("endless")
    scope = ["of runs that end"] if "race" in seen.kinds else ["of runs that end", race_line(at(files, ()), files)]
    status = 4 if seen.kinds & {"deadlock", "endless"} else 0
    return seen.text() + last_lines(states, "complete", scope), status, None


def end_of(machine: Numbered) -> str:
    return "quiet" if machine.is_quiet() else "schedule"


def last_lines(states: List[Tuple[Event, ...]], word: str, scope: Sequence[str] = ()) -> str:
    return "".join(f"{line}\n" for line in [f"states {len(states)}", *scope, f"search {word}"])


# The lessons that are searched: folder, class files, and options.
SEARCHED = [
    ("lost-update", ["LostUpdate"], ""),
    ("lost-update", ["LostUpdate"], "--states 50"),
    ("lost-update", ["LostUpdate"], "--for race"),
    ("lost-update", ["LostUpdate"], "--for output=1"),
    ("lost-update", ["LostUpdate"], "--for differs=two"),
    ("lost-update", ["Repaired"], "--for race"),
    ("lost-update", ["Repaired"], "--for output=1"),
    ("lost-update", ["Repaired"], "--for differs=two"),
    ("lock-order", ["LockOrder"], "--for deadlock"),
    ("lock-order", ["Repaired"], "--for deadlock"),
    ("missed-notify", ["MissedNotify"], "--for deadlock"),
    ("missed-notify", ["Repaired"], "--for deadlock"),
    ("class-initialisation", ["Initialisers", "Left", "Right"], "--for deadlock"),
    ("interrupted-wait", ["InterruptedWait"], ""),
    ("interrupted-wait", ["InterruptedWait"], "--for uncaught"),
    ("wrong-waiter", ["WrongWaiter"], "--for deadlock"),
]

# The programs that are searched, too, beside all of programs/races/ and programs/kinds/ without an option.
PROGRAMS = [
    ("races/NoLock", "--for race"),
    ("races/NoLock", "--for any"),
    ("races/NoLock", "--for uncaught"),
    ("races/NoLock", "--for race --states 4"),
    ("races/OneLock", "--for race"),
    ("races/OneLock", "--for any"),
    ("races/Interrupted", "--for race"),
    ("races/OneElement", "--for race"),
    ("races/AsksWhatGrows", "--for race"),
    ("kinds/CircleBesideLoop", "--for deadlock"),
    ("kinds/CircleBesideLoop", "--for race"),
    ("kinds/CircleBesideLoop", "--for output="),
    ("kinds/ClassesBesideLoop", "--for deadlock"),
    ("kinds/PrintsInOneLine", "--for output=-17"),
    ("kinds/PrintsInOneLine", "--for output=-7,1"),
    ("kinds/PrintsWords", "--for output=10"),
    ("kinds/PrintsWords", r"--for text=two\n10\n"),
    ("kinds/PrintsWords", r"--for text=1\u0074wo\n\u0030\n"),
    ("kinds/PrintsWords", r"--for text=two\n10"),
    ("kinds/ThrowsBesideLoop", "--for uncaught"),
    ("kinds/ThrowsBesideLoop", "--for any"),
    ("kinds/WaitsBesideLoop", "--for any"),
    ("kinds/AllKinds", "--for uncaught"),
    ("kinds/AllKinds", "--for deadlock"),
    ("kinds/AllKinds", "--for endless"),
    ("kinds/CircleBesideLoop", "--for endless"),
    ("kinds/FlagOnceSeen", "--for endless"),
    ("kinds/FlagOnceSeen", "--for endless --states 4"),
    ("kinds/FlagThatIsSet", "--for endless"),
    ("kinds/FlagThatIsSet", "--for any"),
    ("kinds/LoopsForEver", "--for any"),
    ("kinds/TwoThatYield", "--for endless"),
]

# The texts that printed numbers are compared with, by their lines.
TEXTS = {"two": [2]}

HEAD = [
    "# Searches over all schedules, made by `oracle/searches.py` over the files of the lessons.",
    "",
    "files lessons.cases",
    "",
]

KINDS_HEAD = [
    "# Kinds of states, made by `oracle/searches.py` of the sources in programs/races/ and programs/kinds/.",
    "",
]


def words_of(words: Sequence[str]) -> argparse.Namespace:
    """The words behind `search`."""
    parser = argparse.ArgumentParser()
    parser.add_argument("--for", dest="goal")
    parser.add_argument("--states", type=int, default=10_000_000)
    parser.add_argument("--all-events", action="store_true")
    parser.add_argument("files", nargs="+")
    return parser.parse_args(words)


def cases_of(label: str, files: Dict[str, bytes], options: str) -> Tuple[List[str], str]:
    """The lines of the cases of a search over files, and what they have to print."""
    words = words_of([*options.split(), *files])
    told, status, found = search(list(files.values()), words.goal, words.states)
    name = "-".join([label, re.sub(r"[ =\\]", "-", options.replace("--for ", "").replace("--", "")) or "all"])
    paths = " ".join(files)
    record = f"--record {name}.schedule" if words.goal else ""
    text = [f"case search-{name}", "  " + " ".join(["search", *options.split(), *record.split(), paths])]
    printed = f"case search-{name}\n{told}status {status}\n"
    if found:
        end = end_of(found)
        text += [f"case replay-{name}", f"  replay --schedule {name}.schedule {paths}"]
        printed += f"case replay-{name}\n{text_of(found, end)}status {status_of(found, end)}\n"
    elif record:
        text += [f"shown {name}.schedule"]
        printed += f"recorded {name}.schedule is missing\n"
    return text, printed


def of_lessons() -> Tuple[List[str], str]:
    """The text of the cases of lessons, and what they have to print."""
    lines, shown = [*HEAD], ""
    for name, numbers in TEXTS.items():
        lines += [f"text {name}", *(f"  {number}" for number in numbers), ""]
    for folder, names, options in SEARCHED:
        files = class_files(LESSONS / folder)
        given = {f"{folder}/{name}.class": files[f"{name}.class"] for name in names}
        text, printed = cases_of(f"{folder}-{names[0]}", given, options)
        lines, shown = [*lines, *text], shown + printed
    return lines, shown


def is_as_told(told: str, printed: str) -> bool:
    """Whether a program shows the kinds that its first line says. Of races that is whether there is one."""
    kinds = re.findall("(?m)^kind ([a-z]*)", printed)
    wanted = re.search(r"Kinds: (.*)\. \*/", told)
    if wanted:
        return kinds == wanted[1].split(", ")
    if "No kind." in told:
        return not kinds
    return ("race" in kinds) == ("Races: " in told)


def of_program(source: pathlib.Path) -> Tuple[List[str], str]:
    """The text of the cases of a program, and what they have to print."""
    told = source.read_text().splitlines()[0]
    with tempfile.TemporaryDirectory() as folder:
        files = {f"{source.stem}/{path.name}": path.read_bytes() for path in compiled([source], folder)}
    lines = [f"# {told[4:-3]}", *(line for name, data in files.items() for line in file_lines(name, data))]
    shown = ""
    further = [options for name, options in PROGRAMS if name == f"{source.parent.name}/{source.stem}"]
    for options in ["", *further]:
        text, printed = cases_of(source.stem, files, options)
        lines, shown = [*lines, *text], shown + printed
    if not is_as_told(told, shown.split("\ncase ")[0]):
        sys.exit(f"{source}: not the kinds of its first line")
    return [*lines, ""], shown


def write() -> None:
    lines, shown = of_lessons()
    write_cases("searches", "\n".join([*lines, ""]), shown)
    lines, shown = [*KINDS_HEAD], ""
    for source in [*sorted((ROOT / "programs/races").iterdir()), *sorted((ROOT / "programs/kinds").iterdir())]:
        text, printed = of_program(source)
        lines, shown = [*lines, *text], shown + printed
    write_cases("kinds", "\n".join(lines), shown)


def main() -> int:
    if sys.argv[1:] == ["--write"]:
        write()
        return 0
    words = words_of(sys.argv[1:])
    files = [pathlib.Path(path).read_bytes() for path in words.files]
    text, status, _ = search(files, words.goal, words.states, not words.all_events)
    sys.stdout.buffer.write(text.encode("latin-1"))
    return status


if __name__ == "__main__":
    sys.exit(main())
