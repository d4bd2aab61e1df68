"""Kinds of states that runs come to: data races, uncaught exceptions, deadlocks (JLS 11.3, 17.1, 17.4.1; JVMS 5.5), and
states from which no run ends.

What the next event of a thread accesses, and who holds what it needs, is read off the state that is there. Whether a
run from a state ends is told by the states to which events lead.
"""

from itertools import product
from typing import Any, Dict, Iterator, List, NamedTuple, Optional, Sequence, Set, Tuple

from oracle.calls import INVOKEINTERFACE, Called
from oracle.classes import VOLATILE, Class, ClassReader
from oracle.frames import Frame, short
from oracle.machine import ELEMENTS, Machine
from oracle.state import BUILDER_TEXT, NO_VARIABLES, JavaThread, NotEnabled, Object, Refused, component
from oracle.strings import Raised
from oracle.texts_made import KEEPS, is_cloneable

# The kinds, in the order in which they are told.
KINDS = ["race", "uncaught", "deadlock", "endless"]

GETSTATIC, PUTSTATIC, GETFIELD, PUTFIELD, INVOKEVIRTUAL, AASTORE = 0xB2, 0xB3, 0xB4, 0xB5, 0xB6, 0x53

# Methods of Thread by which threads see of each other what the JLS orders nothing by.
OWN_EDGES = {("isAlive", "()Z"), ("interrupt", "()V"), ("isInterrupted", "()Z"), ("interrupted", "()Z")}


class Access(NamedTuple):
    """An access of an ordinary variable."""

    variable: Tuple[object, ...]
    is_write: bool


class Next(NamedTuple):
    """An access that a thread may do next: which one of its event's, counted from 0."""

    thread: int
    place: int
    access: Access


# ---- races


def of_element(machine: Machine, frame: Frame) -> Optional[Access]:
    """The element that is loaded or stored, where that throws nothing."""
    opcode, stack = frame.opcode(), frame.stack
    is_write = opcode >= 0x4F
    array, index, *rest = stack[-3:] if is_write else stack[-2:]
    if array is None or not 0 <= index < len(array.elements):
        return None
    if opcode == AASTORE and rest[0] is not None and not machine.is_below(rest[0].kind, component(array.kind)):
        return None
    return Access((id(array), index), is_write)


def is_ready(one: Class, thread: JavaThread) -> bool:
    """Whether a thread may use the static fields of a class at once."""
    return one.state == "initialised" or (one.state == "begun" and one.by is thread)


def of_field(machine: Machine, thread: JavaThread, frame: Frame) -> Optional[Access]:
    """The field that is read or written, where that throws nothing and begins no initialisation."""
    opcode = frame.opcode()
    name, field, descriptor = frame.method.owner.pool[short(frame, 1)][1]
    one = machine.found_field(name, field, descriptor)
    flags = next(declared[0] for declared in one.fields if declared[1:3] == (field, descriptor))
    if flags & VOLATILE or (one.name, field, descriptor) in NO_VARIABLES:
        return None
    if opcode in (GETSTATIC, PUTSTATIC):
        is_there, of = is_ready(one, thread), 0
    else:
        this = frame.stack[-1 if opcode == GETFIELD else -2]
        is_there, of = this is not None, id(this)
    return Access((of, one.name, field, descriptor), opcode in (PUTSTATIC, PUTFIELD)) if is_there else None


def is_volatile(machine: Machine, key: Tuple[str, str, str]) -> bool:
    """Whether a field is volatile, by its class, its name and its descriptor."""
    fields = machine.classes[key[0]].fields
    return any(field[1:3] == key[1:] and bool(field[0] & VOLATILE) for field in fields)


def is_of_volatile(machine: Machine, one: Access) -> bool:
    key: Any = one.variable[1:]
    return len(key) == 3 and is_volatile(machine, key)


def of_copy(machine: Machine, name: str, descriptor: str, operands: List[Any]) -> List[Access]:
    """The elements that a constructor of String and getChars copy, and what a clone copies, where that throws nothing;
    volatile fields, too."""
    if name == "clone":
        this = operands[0]
        if not is_cloneable(machine, this):
            return []
        if this.elements is not None:
            return [Access((id(this), at), False) for at in range(len(this.elements))]
        return [Access((id(this), *key), False) for key in this.fields if key not in NO_VARIABLES]
    if (name, descriptor) not in KEEPS or descriptor not in ("([CII)V", "(II[CI)V"):
        return []
    try:
        kept = KEEPS[name, descriptor](*operands)
    except Raised:
        return []
    array, first = (operands[1], operands[2]) if kept.at is None else (operands[3], kept.at)
    return [Access((id(array), first + at), kept.at is not None) for at in range(len(kept.units))]


def of_call(machine: Machine, thread: JavaThread, frame: Frame) -> List[Access]:
    """The variables that a call reads and writes in its own event, where that throws nothing."""
    try:
        called = machine.called(thread, frame, frame.opcode())
    except (NotEnabled, Refused):
        return []
    if not isinstance(called, Called) or called.method.code is not None:
        return []
    if called.method.owner.name != BUILDER_TEXT[0]:
        return of_copy(machine, called.method.name, called.method.descriptor, called.arguments)
    this, *rest = called.arguments
    own, name = (id(this), *BUILDER_TEXT), called.method.name
    if name == "<init>":
        return [] if None in rest else [Access(own, True)]
    operands = [one for one in rest if isinstance(one, Object) and one.kind == BUILDER_TEXT[0]]
    found = [Access(own, False), *(Access((id(one), *BUILDER_TEXT), False) for one in operands)]
    return [*found, Access(own, True)] if name == "append" else found


def accesses_of(machine: Machine, thread: JavaThread) -> List[Access]:
    """The ordinary variables that the next event of a thread accesses."""
    top = thread.top()
    if thread.has_ended or thread.waits or thread.relock or thread.pending or not isinstance(top, Frame):
        return []
    if INVOKEVIRTUAL <= top.opcode() <= INVOKEINTERFACE:
        found = of_call(machine, thread, top)
        return [one for one in found if not is_of_volatile(machine, one)]
    one = None
    if top.opcode() in ELEMENTS:
        one = of_element(machine, top)
    elif GETSTATIC <= top.opcode() <= PUTFIELD:
        one = of_field(machine, thread, top)
    return [one] if one else []


def first_race(machine: Machine) -> Optional[Tuple[Next, Next]]:
    """Two accesses of one variable, one of them a write, that two threads may each do next: the first one of all that
    any other one races with, and the first of these. Threads come by their numbers, accesses in the order in which they
    are done."""
    of_threads = [accesses_of(machine, thread) for thread in machine.threads]
    found = [Next(thread, place, one) for thread, ones in enumerate(of_threads) for place, one in enumerate(ones)]
    for first, second in product(found, repeat=2):
        if first.thread != second.thread and first.access.variable == second.access.variable:
            if first.access.is_write or second.access.is_write:
                return first, second
    return None


# ---- deadlocks


def waited_for(machine: Machine, thread: JavaThread) -> Optional[JavaThread]:
    """Who holds the monitor, or initialises the class, without which a thread can't go on."""
    try:
        machine.planned(thread, 0)
    except NotEnabled as why:
        return why.holder
    except Refused:
        pass
    return None


def has_circle(machine: Machine) -> bool:
    """Whether threads wait for each other in a circle."""
    for first in machine.threads:
        met: List[JavaThread] = []
        thread: Optional[JavaThread] = first
        while thread is not None and thread not in met:
            met.append(thread)
            thread = waited_for(machine, thread)
        if thread is not None:
            return True
    return False


def is_deadlocked(machine: Machine) -> bool:
    """Whether no thread may go on and one hasn't ended, or threads wait in a circle."""
    is_stuck = not machine.enabled() and not all(thread.has_ended for thread in machine.threads)
    return is_stuck or has_circle(machine)


# ---- endless states


def first_endless(led: Sequence[Set[int]]) -> Optional[int]:
    """The first state from which no run ends. Of each state there are the numbers of those to which its events lead."""
    before: Dict[int, List[int]] = {}
    for number, numbers in enumerate(led):
        for one in numbers:
            before.setdefault(one, []).append(number)
    ending = {number for number, numbers in enumerate(led) if not numbers}
    waiting = list(ending)
    while waiting:
        further = set(before.get(waiting.pop(), ())) - ending
        ending |= further
        waiting += further
    return next((number for number in range(len(led)) if number not in ending), None)


# ---- all of them


def kinds_of(machine: Machine) -> Set[str]:
    """The kinds that the state of a machine is of by itself."""
    found = {
        "race": first_race(machine) is not None,
        "uncaught": any(thread.has_ended and thread.pending for thread in machine.threads),
        "deadlock": is_deadlocked(machine),
    }
    return {kind for kind, holds in found.items() if holds}


def members_of(data: bytes) -> Iterator[Tuple[str, str, str]]:
    """The methods that a class file names, as class, name and descriptor."""
    pool = ClassReader(data).pool

    def text(index: int) -> Any:
        return pool[index][1]

    for tag, value in pool.values():
        if tag in (10, 11):
            name, descriptor = pool[value[1]][1]
            yield text(text(value[0])), text(name), text(descriptor)


def names_own_edges(machine: Machine, files: Sequence[bytes]) -> bool:
    """Whether class files name methods of Thread by which the JLS orders nothing."""
    for data in files:
        for name, method, descriptor in members_of(data):
            if (method, descriptor) in OWN_EDGES and name[0] != "[":
                if machine.found_method(name, method, descriptor).owner.name == "java/lang/Thread":
                    return True
    return False


def race_line(machine: Machine, files: Sequence[bytes]) -> str:
    """What is told where no state is a race."""
    if names_own_edges(machine, files):
        return "no data race, by edges of this machine's own"
    return "no data race: correctly synchronized"
