#!/usr/bin/env python3
"""Data races by the oracle: what `jvm races` has to print, worked out by a machine of its own (JLS 17.4).

    oracle/races.py --schedule FILE FILE..
    oracle/races.py [--write]

The schedule is a text. Which actions an event does is seen as the event is done; of each action the whole set of
those that happen before it is kept, so a run may have some 10,000 of them.

Without a schedule the programs of `programs/races/` are run under two schedules each. Under the second one
`jvm run --races` runs them, too, where that comes to rest. Their first lines say which variables race, as the JLS has
it: each race that is found has to be of one of these, and each of these has to race in one of the runs. The status is
1 where that isn't so, or where cases/races.cases differs, or what these cases must print. With --write both are
written.
"""

import argparse
import pathlib
import re
import sys
import tempfile
from typing import Any, Dict, Iterable, List, NamedTuple, Optional, Sequence, Set, Tuple, Union

sys.dont_write_bytecode = True
sys.path.insert(0, str(pathlib.Path(__file__).resolve().parent.parent))

from oracle.calls import INVOKEINTERFACE, Called
from oracle.classes import VOLATILE, Class
from oracle.frames import Frame, short
from oracle.kinds import INVOKEVIRTUAL, first_race, is_volatile, of_call
from oracle.machine import ELEMENTS, status_of, text_of
from oracle.programs import scheduled
from oracle.schedules import Entry, Event, entries_of_events, entries_of_text
from oracle.state import BUILDER_TEXT, Action, Initialisation, JavaThread, NotEnabled, Object, Refused
from oracle.traced import Traced
from tools.cases import differing, file_lines, grouped, write_cases
from tools.repository import ROOT, compiled

FIELDS = {0xB2: "read", 0xB3: "write", 0xB4: "read", 0xB5: "write"}

# What is found and left: its kind, and of what.
Place = Tuple[str, object]

# How a variable is accessed, the variable, its name, and whether that is volatile.
Wanted = Tuple[str, Tuple[object, ...], str, bool]


class Access(NamedTuple):
    """A read or write of a variable: its number among all actions, and where it stands."""

    number: int
    thread: int
    sort: str
    site: str


class Raced(Traced):
    """A machine that keeps which actions happen before which, and finds races."""

    def __init__(self, files: Sequence[bytes]) -> None:
        super().__init__(files)
        # By actions, as bits: those that happen before each; by threads, all that are known to them.
        self.count = 0
        self.known: Dict[int, int] = {}
        # What was left at places.
        self.left: Dict[Place, int] = {}
        self.accesses: Dict[Tuple[object, ...], List[Access]] = {}
        self.names: Dict[Tuple[object, ...], str] = {}
        self.lines: List[str] = []
        self.told_races: Set[Tuple[object, ...]] = set()
        self.racing: Set[Tuple[object, ...]] = set()

    # Actions, each in the order of its event

    def act(self, thread: int, before: int = 0) -> int:
        """One more action, behind those that are given and all that its thread knows: what happens before it."""
        behind = self.known.get(thread, 0) | before
        self.known[thread] = behind | 1 << self.count
        self.count += 1
        return behind

    def find(self, thread: JavaThread, *places: Place) -> None:
        for place in places:
            self.act(self.threads.index(thread), self.left.get(place, 0))

    def leave_at(self, thread: JavaThread, *places: Place) -> None:
        number = self.threads.index(thread)
        for place in places:
            self.act(number)
            self.left[place] = self.left.get(place, 0) | self.known[number]

    def access(self, thread: JavaThread, sort: str, variable: Tuple[object, ...], name: str, site: str) -> None:
        number = self.threads.index(thread)
        behind = self.act(number)
        self.names[variable] = name
        earlier = self.accesses.setdefault(variable, [])
        one = Access(self.count - 1, number, sort, site)
        found = [old for old in earlier if old.thread != number and "write" in (old.sort, sort)]
        found = [old for old in found if not behind >> old.number & 1]
        if found:
            self.racing.add(variable)
            self.tell(variable, self.chosen(earlier, found), one)
        earlier.append(one)

    @staticmethod
    def chosen(earlier: List[Access], found: List[Access]) -> Access:
        """Which of several that race is told: a write, if there is one, of the thread that was the first of them to
        write the variable, and of that thread the last one; else the same of reads."""
        for sort in ("write", "read"):
            for thread in dict.fromkeys(old.thread for old in earlier if old.sort == sort):
                last = [old for old in found if old.thread == thread and old.sort == sort]
                if last:
                    return last[-1]
        raise AssertionError(found)

    def tell(self, variable: Tuple[object, ...], first: Access, second: Access) -> None:
        key = (variable, first[1:], second[1:])
        if key in self.told_races:
            return
        self.told_races.add(key)
        words = [f"{one.sort} at {one.site} by thread {one.thread}" for one in (first, second)]
        self.lines.append(f"race {self.names[variable]}: {', '.join(words)}\n")

    # What an event does

    def entering(self, thread: JavaThread, thing: Object) -> Action:
        enter = super().entering(thread, thing)

        def do() -> None:
            is_first = thing.entries == 0
            enter()
            if is_first:
                self.find(thread, ("monitor", id(thing)))

        return do

    def leave(self, thing: Object) -> None:  # type: ignore[override]
        owner = thing.owner
        super().leave(thing)
        if thing.owner is None and owner is not None:
            self.leave_at(owner, ("monitor", id(thing)))

    def waiting(self, thread: JavaThread, this: Object) -> Action:
        wait = super().waiting(thread, this)

        def do() -> None:
            was_owner = this.owner is thread
            wait()
            if was_owner and thread.waits:
                self.leave_at(thread, ("monitor", id(this)))

        return do

    def relocking(self, thread: JavaThread) -> Action:
        assert thread.relock
        thing, _, cause = thread.relock
        relock = super().relocking(thread)

        def do() -> None:
            if cause == "interrupted":
                self.find(thread, ("interrupts", id(thread)))
            else:
                self.find(thread, ("woken", id(thread)))
            self.find(thread, ("monitor", id(thing)))
            relock()

        return do

    def built_in(self, thread: JavaThread, frame: Frame, called: Called, pick: int) -> Action:
        action = super().built_in(thread, frame, called, pick)
        method, arguments = called
        this = arguments[0] if arguments and isinstance(arguments[0], Object) else None
        target = self.of_object(this) if this is not None else None

        def do() -> None:
            self.find(thread, *self.found(thread, method.name, this, target))
            is_alive = target is not None and not target.has_ended
            action()
            if method.name == "start" and target is None and this is not None:
                started = self.of_object(this)
                if started is not None:
                    self.leave_at(thread, ("start", id(started)))
            if method.name == "interrupt" and is_alive:
                self.leave_at(thread, ("interrupts", id(target)))

        return do

    @staticmethod
    def found(
        thread: JavaThread, name: str, this: Optional[Object], target: Optional[JavaThread]
    ) -> List[Place]:
        """What a built-in method finds of threads."""
        own: List[Place] = [("interrupts", id(thread))] if thread.is_interrupted else []
        if name == "interrupted":
            return own
        if name == "wait":
            return own if this is not None and this.owner is thread else []
        if target is None:
            return []
        started: Place = ("start", id(target))
        ended: Place = ("end", id(target))
        if name == "start":
            return [started]
        if name in ("interrupt", "isAlive"):
            return [ended if target.has_ended else started]
        if name == "isInterrupted":
            return [("interrupts" if target.is_interrupted else "cleared", id(target))]
        if name == "join":
            return [ended] if target.has_ended else [*own, started]
        return []

    def beginning(self, thread: JavaThread) -> Action:
        begin = super().beginning(thread)

        def do() -> None:
            self.find(thread, ("start", id(thread)))
            begin()

        return do

    def find_class(self, thread: JavaThread) -> None:
        """What the next event of a thread finds of the class that it needs."""
        one = self.needed(thread)
        if one is not None and one.state in ("initialised", "erroneous"):
            self.find(thread, ("class", one.name))

    def needed(self, thread: JavaThread) -> Optional[Class]:
        top = thread.top()
        if thread.relock or thread.pending or thread.waits or thread.has_ended:
            return None
        if top is None:
            return self.initial if thread is self.threads[0] else None
        if isinstance(top, Initialisation):
            if top.phase == "End" or top.of.flags & 0x0200:
                return None
            return self.classes.get(top.of.superclass or "")
        opcode = top.opcode()
        if opcode not in (0xB2, 0xB3, 0xB8, 0xBB):
            return None
        named = top.method.owner.pool[short(top, 1)][1]
        if opcode == 0xBB:
            return self.classes[named]
        if opcode == 0xB8:
            return self.found_method(*named).owner
        return self.found_field(*named)

    def told_access(self, frame: Frame, variable: Tuple[Any, ...]) -> Tuple[Tuple[object, ...], str, bool]:
        """A variable that a call accesses in its own event, its name, and whether it is volatile."""
        thing, *rest = variable
        if tuple(rest) == BUILDER_TEXT:
            return ("text", *variable), ".".join(BUILDER_TEXT[:2]), False
        if len(rest) == 1:
            array = next(one for one in frame.stack if id(one) == thing)
            return ("element", thing, rest[0]), f"[{rest[0]}] of {self.thing(array)}", False
        owner, field, descriptor = rest
        return ("field", *variable), f"{owner}.{field}", is_volatile(self, (owner, field, descriptor))

    def called_accesses(self, thread: JavaThread, frame: Frame) -> List[Wanted]:
        """What a call reads and writes in its own event."""
        found = of_call(self, thread, frame)
        return [("write" if one.is_write else "read", *self.told_access(frame, one.variable)) for one in found]

    def wanted(self, thread: JavaThread, frame: Frame) -> List[Wanted]:
        """What the instruction of a frame reads and writes, where it goes on, in its order."""
        if INVOKEVIRTUAL <= frame.opcode() <= INVOKEINTERFACE:
            return self.called_accesses(thread, frame)
        found = self.variable(frame)
        return [found] if found else []

    def variable(self, frame: Frame) -> Optional[Wanted]:
        """What an instruction that is no call reads or writes, where it goes on."""
        opcode, stack = frame.opcode(), frame.stack
        if opcode in ELEMENTS:
            array, index = stack[-2:] if opcode < 0x36 else stack[-3:-1]
            if array is None:
                return None
            sort = "read" if opcode < 0x36 else "write"
            return sort, ("element", id(array), index), f"[{index}] of {self.thing(array)}", False
        if opcode not in FIELDS:
            return None
        name, field, descriptor = frame.method.owner.pool[short(frame, 1)][1]
        one = self.found_field(name, field, descriptor)
        flags = next(declared[0] for declared in one.fields if declared[1:3] == (field, descriptor))
        this = 0 if opcode < 0xB4 else id(stack[-1 if opcode == 0xB4 else -2])
        return FIELDS[opcode], ("field", this, one.name, field, descriptor), f"{one.name}.{field}", bool(flags & VOLATILE)

    def site(self, frame: Frame) -> str:
        method = frame.method
        place = f"{method.owner.name}.{method.name} {frame.at}"
        source = self.sources[method.owner.name].at(method, frame.at) if method.owner.name in self.sources else ""
        return f"{source} ({place})" if source else place

    def step(self, number: int, pick: int = 0) -> None:
        if number >= len(self.threads):
            raise NotEnabled("none")
        thread = self.threads[number]
        self.planned(thread, pick)
        top: Union[Frame, Initialisation, None] = thread.top()
        runs = not (thread.relock or thread.pending)
        wanted = self.wanted(thread, top) if runs and isinstance(top, Frame) else []
        site, at = (self.site(top), top.at) if isinstance(top, Frame) else ("", 0)
        was_interrupted, state = thread.is_interrupted, top.of.state if isinstance(top, Initialisation) else ""
        waiting = list(thread.object.waiters)
        self.find_class(thread)
        super().step(number, pick)
        if isinstance(top, Frame) and top.at != at and not thread.pending:
            for sort, variable, name, synchronizes in wanted:
                if not synchronizes:
                    self.access(thread, sort, variable, name, site)
                elif sort == "read":
                    self.find(thread, ("volatile", variable))
                else:
                    self.leave_at(thread, ("volatile", variable))
        if was_interrupted and not thread.is_interrupted:
            self.left.pop(("interrupts", id(thread)), None)
            self.leave_at(thread, ("cleared", id(thread)))
        if isinstance(top, Initialisation) and top.of.state != state and top.of.state in ("initialised", "erroneous"):
            self.leave_at(thread, ("class", top.of.name))
        if thread.has_ended:
            self.leave_at(thread, *(("woken", id(one)) for one in waiting), ("end", id(thread)))


def next_race(files: Sequence[bytes], events: Sequence[Event]) -> str:
    """The line of the first race of the state to which these events lead: of accesses that threads may do next."""
    machine = Raced(files)
    for thread, pick in events:
        machine.step(thread, pick)
    found = first_race(machine)
    assert found is not None
    words, name = [], ""
    for one in found:
        frame = machine.threads[one.thread].top()
        assert isinstance(frame, Frame)
        wanted = [wanted for wanted in machine.wanted(machine.threads[one.thread], frame) if not wanted[3]]
        sort, _, name, _ = wanted[one.place]
        words.append(f"{sort} at {machine.site(frame)} by thread {one.thread}")
    return f"race {name}: {', '.join(words)}\n"


def race_lines(files: Sequence[bytes], events: Sequence[Event]) -> List[str]:
    """A line for each race of the run of these events."""
    machine = Raced(files)
    for thread, pick in events:
        machine.step(thread, pick)
    return machine.lines


def races(files: Sequence[bytes], entries: Sequence[Entry]) -> Tuple[str, int]:
    """What `jvm races` prints, and its status."""
    machine, end = Raced(files), ""
    for thread, pick, repeat in entries:
        for _ in range(repeat):
            try:
                machine.step(thread, pick)
            except NotEnabled:
                end = f"not enabled {machine.done}"
            except Refused as why:
                end = f"refused {machine.done} {why}"
            if end:
                break
        if end:
            break
    end = end or ("schedule" if machine.enabled() else "quiet")
    status = status_of(machine, end)
    return "".join(machine.lines) + text_of(machine, end), 1 if machine.lines and status != 3 else status


HEAD = "# Data races: programs as javac compiles them, made by `oracle/races.py` of the sources in programs/races/.\n"

WAYS = ("turns", "whole")

# Behind the whole of these an event is asked for that is not enabled: that of a thread that has ended.
STOPPED = ("NoLock", "OneLock")

# By turns of so many events a thread goes on as long as it can, as by "whole".
WITHOUT_END = 4294967295


def raced(text: str) -> Set[str]:
    """The variables of which races are told, without the numbers of arrays."""
    return {re.sub(r"#[0-9]+", "#", name) for name in re.findall(r"(?m)^race (.*?): ", text)}


def case_lines(case: str, entries: Sequence[Entry], files: Iterable[str]) -> List[str]:
    """The lines of a case of a schedule."""
    lines = [f"file {case}.schedule", f"  4a534348 01 {len(entries):08x}"]
    lines += grouped([f"{thread:04x}{pick:04x}{repeat:08x}" for thread, pick, repeat in entries], 6)
    return [*lines, f"case {case}", f"  races --schedule {case}.schedule {' '.join(files)}"]


def cases_of(source: pathlib.Path, folder: str) -> Tuple[str, str, bool]:
    """The text of the cases of a program, what they must print, and whether other variables race than it says."""
    told = source.read_text().splitlines()[0]
    found = re.search(r"Races: (.*)\. \*/", told)
    wanted = set(found[1].split(", ")) if found else set()
    files = {path.name: path.read_bytes() for path in compiled([source], folder, True)}
    text, printed, racing = [f"# {told[4:-3]}"], "", set()
    for name, data in files.items():
        text += file_lines(name, data)
    for way in WAYS:
        entries = entries_of_events(scheduled(list(files.values()), way, {}, None))
        shown, status = races(list(files.values()), entries)
        racing |= raced(shown)
        case = f"races-{source.stem}-{way}"
        text += case_lines(case, entries, files)
        printed += f"case {case}\n{shown}status {status}\n"
        if way == "whole" and "\nend quiet\n" in shown:
            text += [f"case races-{source.stem}-run", f"  run --races --quantum {WITHOUT_END} {' '.join(files)}"]
            printed += f"case races-{source.stem}-run\n{shown}status {status}\n"
    if source.stem in STOPPED:
        entries = [*entries_of_events(scheduled(list(files.values()), "whole", {}, None)), Entry(1, 0, 1)]
        shown, status = races(list(files.values()), entries)
        text += case_lines(f"races-{source.stem}-stopped", entries, files)
        printed += f"case races-{source.stem}-stopped\n{shown}status {status}\n"
    return "\n".join([*text, ""]), printed, racing != wanted


def cases() -> Tuple[str, str, List[str]]:
    """The text of all cases, what they must print, and the programs whose races are others than they say."""
    texts, printed, wrong = [HEAD], "", []
    for source in sorted((ROOT / "programs/races").glob("*.java")):
        with tempfile.TemporaryDirectory() as folder:
            text, shown, is_wrong = cases_of(source, folder)
        texts.append(text)
        printed += shown
        wrong += [source.stem] * is_wrong
    return "\n".join(texts), printed, wrong


def all_cases(is_written: bool) -> int:
    text, printed, wrong = cases()
    if is_written:
        write_cases("races", text, printed)
    found = differing("races", text, printed)
    for name in wrong:
        print(f"{name}: other variables race than it says")
    for name in found:
        print(f"{name} differs from what is stored")
    return int(bool(wrong or found))


def main() -> int:
    parser = argparse.ArgumentParser(description=__doc__, formatter_class=argparse.RawDescriptionHelpFormatter)
    parser.add_argument("--write", action="store_true")
    parser.add_argument("--schedule", type=pathlib.Path)
    parser.add_argument("files", nargs="*", type=pathlib.Path)
    given = parser.parse_args()
    if given.schedule is None:
        return all_cases(given.write)
    text, status = races([one.read_bytes() for one in given.files], entries_of_text(given.schedule.read_text()))
    print(text, end="")
    return status


if __name__ == "__main__":
    sys.exit(main())
