"""The state of a run: classes, objects with their monitors, and threads."""

from typing import Any, Callable, Dict, Iterator, List, Mapping, Optional, Sequence, Tuple, Union

from oracle.classes import PRIVATE, STATIC, Class, Method, built_in_classes, narrowed, read_class
from oracle.frames import Frame, short
from oracle.opcodes import LOCAL, MNEMONICS
from oracle.texts import decoded

# What an event does.
Action = Callable[[], None]

# An int, an Object, or None for null; which of them, verification says.
Value = Any

LIMITS = {"objects": 1_000_000, "cells": 16_000_000, "monitors": 65_536, "threads": 256, "frames": 1_024}

# The hidden fields of built-in classes: what a Thread runs, its name, which of the Threads without a name it is, and its
# priority; the text of a StringBuilder; and what a Throwable keeps.
TARGET = "java/lang/Thread", "target", "Ljava/lang/Runnable;"
THREAD_NAME = "java/lang/Thread", "name", "Ljava/lang/String;"
THREAD_NUMBER = "java/lang/Thread", "number", "I"
THREAD_PRIORITY = "java/lang/Thread", "priority", "I"
BUILDER_TEXT = "java/lang/StringBuilder", "text", "Ljava/lang/String;"
MESSAGE = "java/lang/Throwable", "message", "Ljava/lang/String;"
CAUSE = "java/lang/Throwable", "cause", "Ljava/lang/Throwable;"
SUPPRESSED = "java/lang/Throwable", "suppressed", "[Ljava/lang/Throwable;"

# Those that are no cells, and those that are no variables of races.
NAMES = {THREAD_NAME, THREAD_NUMBER, THREAD_PRIORITY}
NO_CELLS = {BUILDER_TEXT, MESSAGE, CAUSE, SUPPRESSED, *NAMES}
NO_VARIABLES = {TARGET, MESSAGE, CAUSE, SUPPRESSED, *NAMES}

# Texts that the machine itself has Strings of: main's name, and what the message of a division by zero is.
MAIN_NAME, BY_ZERO = "main", "/ by zero"

# A lock keeps this many entries of one owner without a monitor.
THIN_ENTRIES = 256


class NotEnabled(Exception):
    """The event is not enabled: the state of its thread, and the thread that holds what it needs, if one does."""

    def __init__(self, state: str, holder: "Optional[JavaThread]" = None) -> None:
        super().__init__(state)
        self.holder = holder


class Refused(Exception):
    """The event is enabled, and a limit stands at it."""


class Object:
    """An object: its class's name or an array's descriptor, fields or elements, and its monitor."""

    def __init__(self, kind: str) -> None:
        self.kind = kind
        # Its reference number: how many objects there were before it.
        self.number = 0
        # Of a Class object its class's name.
        self.names = ""
        self.fields: Dict[Tuple[str, str, str], Value] = {}
        self.elements: Optional[List[Value]] = None
        # Of a String its UTF-16 code units.
        self.text: List[int] = []
        self.owner: Optional[JavaThread] = None
        self.entries = 0
        self.waiters: List[JavaThread] = []
        self.has_monitor = False


class Initialisation:
    """An initialisation under way."""

    def __init__(self, of: Class) -> None:
        self.of, self.phase = of, "Super"


class JavaThread:
    """A thread: its Thread object, what it stands in, and what it waits for."""

    def __init__(self, thing: Object) -> None:
        self.object = thing
        self.entries: List[Union[Frame, Initialisation]] = []
        self.pending: Optional[Object] = None
        self.is_interrupted, self.has_begun, self.has_ended = False, False, False
        # The object in whose wait set it is, with its entries; and what it enters again, with the cause.
        self.waits: Optional[Tuple[Object, int]] = None
        self.relock: Optional[Tuple[Object, int, str]] = None

    def top(self) -> Union[Frame, Initialisation, None]:
        return self.entries[-1] if self.entries else None

    def top_frame(self) -> Frame:
        top = self.top()
        assert isinstance(top, Frame)
        return top

    def next_is_local(self) -> bool:
        """Whether the next event is an instruction that touches its frame alone, and throws nothing."""
        top = self.top()
        if self.has_ended or self.waits or self.relock or self.pending or not isinstance(top, Frame):
            return False
        name = MNEMONICS[top.opcode()]
        if name in ("ldc", "ldc_w"):
            index = top.code()[top.at + 1] if name == "ldc" else short(top, 1)
            return top.method.owner.pool[index][0] == "int"
        return name in LOCAL and not (name in ("idiv", "irem") and top.stack[-1] == 0)

    def frames(self) -> int:
        return sum(isinstance(entry, Frame) for entry in self.entries)

    def wake(self, cause: str) -> None:
        """Leaves the wait set, to enter the monitor again."""
        assert self.waits
        self.relock, self.waits = (*self.waits, cause), None


class State:
    """Classes, objects and threads, with what events share."""

    def __init__(self, files: Sequence[bytes], limits: Optional[Mapping[str, int]] = None) -> None:
        self.limits = {**LIMITS, **(limits or {})}
        self.classes = {one.name: one for one in built_in_classes()}
        read = [read_class(data) for data in files]
        self.classes.update((one.name, one) for one in read)
        for one in self.classes.values():
            one.object = Object("java/lang/Class")
            one.object.names = one.name
            one.statics = {
                name: None if descriptor[0] in "L[" else 0
                for flags, name, descriptor, _ in one.fields
                if flags & STATIC
            }
        self.classes["java/lang/System"].statics.update(
            (name, Object("java/io/PrintStream")) for name in ("out", "err")
        )
        self.initial, self.done = read[0], 0
        self.strings: Dict[str, Object] = {}
        # The Strings that were interned, and how many Threads were made without a name.
        self.interned: List[Object] = []
        self.unnamed = 0
        # The text that was printed: UTF-16 code units.
        self.printed: List[int] = []
        self.objects = self.cells = self.monitors = 0
        self.threads = [JavaThread(self.made("java/lang/Thread"))]
        self.arguments = Object("[Ljava/lang/String;")
        self.arguments.elements = []
        self.opening = self.opened(read)

    def opened(self, given: Sequence[Class]) -> int:
        """Numbers the objects that are there before any event, and answers how many these are."""
        streams, classes = self.classes["java/lang/System"].statics, self.classes.values()
        things = [streams["out"], self.arguments, self.threads[0].object, *(one.object for one in classes)]
        things += [*map(self.string, texts_of(given, [*classes])), streams["err"]]
        for number, thing in enumerate(things):
            thing.number = number
        self.threads[0].object.fields[THREAD_NAME] = self.string(MAIN_NAME)
        return len(things)

    def string(self, text: str) -> Object:
        """The String of a constant, whose bytes are characters here."""
        if text not in self.strings:
            self.strings[text] = Object("java/lang/String")
            self.strings[text].text = decoded(text.encode("latin-1"))
        return self.strings[text]

    # Classes

    def supers(self, name: Optional[str]) -> Iterator[Class]:
        """The class and its superclasses, the nearest first."""
        while name is not None:
            yield self.classes[name]
            name = self.classes[name].superclass

    def interfaces(self, name: str) -> Iterator[Class]:
        """All interfaces of a class, and those above them."""
        for one in self.supers(name):
            for interface in one.interfaces:
                yield self.classes[interface]
                yield from self.interfaces(interface)

    def is_below(self, kind: str, wanted: str) -> bool:
        """Whether an object of this kind is of the class or array type that is wanted."""
        if wanted == "java/lang/Object" or kind == wanted:
            return True
        if kind[0] == "[":
            if wanted[0] != "[" or kind[1] not in "L[" or wanted[1] not in "L[":
                return False
            return self.is_below(component(kind), component(wanted))
        return any(one.name == wanted for one in [*self.supers(kind), *self.interfaces(kind)])

    def found_field(self, name: str, field: str, descriptor: str) -> Class:
        """The class that declares a field (5.4.3.2)."""
        found = self.declaring(name, field, descriptor)
        assert found, (name, field, descriptor)
        return found

    def declaring(self, name: str, field: str, descriptor: str) -> Optional[Class]:
        one = self.classes[name]
        if any(declared[1:3] == (field, descriptor) for declared in one.fields):
            return one
        for above in [*one.interfaces, *([one.superclass] if one.superclass else [])]:
            found = self.declaring(above, field, descriptor)
            if found:
                return found
        return None

    def found_method(self, name: str, method: str, descriptor: str) -> Method:
        """The method that a reference names (5.4.3.3). An array has the methods of Object."""
        name = "java/lang/Object" if name[0] == "[" else name
        for one in [*self.supers(name), *self.interfaces(name)]:
            if (method, descriptor) in one.methods:
                return one.methods[method, descriptor]
        raise AssertionError((name, method, descriptor))

    def selected(self, start: Optional[str], method: Method) -> Optional[Method]:
        """The nearest declaration from a class upwards of an instance method that isn't private."""
        for one in self.supers(start):
            found = one.methods.get((method.name, method.descriptor))
            if found and not found.has(STATIC) and not found.has(PRIVATE):
                return found
        return None

    # Objects

    def made(self, kind: str) -> Object:
        """A new object with its fields."""
        thing = Object(kind)
        for one in self.supers(kind):
            for flags, name, descriptor, _ in one.fields:
                if not flags & STATIC:
                    thing.fields[one.name, name, descriptor] = None if descriptor[0] in "L[" else 0
        return thing

    @staticmethod
    def cells_of(thing: Object) -> int:
        """How many cells an object takes that `new` makes."""
        return len(thing.fields.keys() - NO_CELLS)

    def room(self, cells: int) -> None:
        """Refuses where a limit stands at one more object with so many cells."""
        if self.objects + 1 > self.limits["objects"]:
            raise Refused("objects")
        self.cell_room(cells)

    def cell_room(self, cells: int) -> None:
        """Refuses where a limit stands at so many cells."""
        if self.cells + cells > self.limits["cells"]:
            raise Refused("cells")

    def allocated(self, thing: Object, cells: int) -> Object:
        thing.number = self.opening + self.objects
        self.objects += 1
        self.cells += cells
        return thing

    def entering(self, thread: JavaThread, thing: Object) -> Action:
        """What enters a monitor, where the thread may."""
        if thing.owner is not None and thing.owner is not thread:
            raise NotEnabled("blocked", thing.owner)
        if thing.entries == THIN_ENTRIES:
            self.monitor_room(thing)

        def enter() -> None:
            if thing.entries == THIN_ENTRIES:
                self.give_monitor(thing)
            thing.owner, thing.entries = thread, thing.entries + 1

        return enter

    def monitor_room(self, thing: Object) -> None:
        if not thing.has_monitor and self.monitors + 1 > self.limits["monitors"]:
            raise Refused("monitors")

    def give_monitor(self, thing: Object) -> None:
        self.monitors += not thing.has_monitor
        thing.has_monitor = True

    @staticmethod
    def leave(thing: Object) -> None:
        thing.entries -= 1
        if thing.entries == 0:
            thing.owner = None

    def throwing(self, thread: JavaThread, name: str, cause: Optional[Object] = None) -> Action:
        """What leaves a new exception of the machine pending, which may have a cause."""
        self.room(0)
        made = self.made(f"java/lang/{name}")
        made.fields[MESSAGE] = self.string(BY_ZERO) if name == "ArithmeticException" else None
        made.fields[CAUSE] = cause

        def throw() -> None:
            thread.pending = self.allocated(made, 0)

        return throw

    def of_object(self, thing: Object) -> Optional[JavaThread]:
        """The thread that was started of a Thread object."""
        return next((thread for thread in self.threads if thread.object is thing), None)

    def begin_class(self, thread: JavaThread, one: Class) -> None:
        """Marks a class, sets its constants and pushes its initialisation."""
        one.state, one.by = "begun", thread
        for _, name, descriptor, constant in one.fields:
            if constant is not None:
                one.statics[name] = narrowed(descriptor, constant)
        thread.entries.append(Initialisation(one))

    def looking(self, thread: JavaThread, one: Class) -> Optional[Action]:
        """What an instruction that uses a class does instead, where the class isn't initialised."""
        if one.state == "none":
            return lambda: self.begin_class(thread, one)
        if one.state == "begun" and one.by is not thread:
            raise NotEnabled("initialising", one.by)
        if one.state == "erroneous":
            return self.throwing(thread, "NoClassDefFoundError")
        return None


def texts_of(given: Sequence[Class], classes: Sequence[Class]) -> List[str]:
    """The texts of which there are Strings before any event: of files, of built-in classes, and of the machine."""
    pools = [one.pool for one in [*given, *classes]]
    texts = [value for pool in pools for sort, value in pool.values() if sort == "string"]
    return list(dict.fromkeys([*texts, MAIN_NAME, BY_ZERO]))


def component(kind: str) -> str:
    """The type of an array's elements, as a class or array type."""
    return kind[2:-1] if kind[1] == "L" else kind[1:]

