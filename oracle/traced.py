"""The machine that tells each event: what it did is seen by the state before it and the state after it."""

from typing import Dict, List, NamedTuple, Optional, Sequence, Tuple, Union

from oracle.classes import FINAL, VOLATILE, Class
from oracle.frames import Frame
from oracle.listing import Lines, instruction
from oracle.machine import Machine
from oracle.opcodes import MNEMONICS, PRIMITIVES, SILENT
from oracle.state import Initialisation, JavaThread, NotEnabled, Object, Value, component
from oracle.strings import STRING
from oracle.texts import quoted
from oracle.told import Part, Told, spelled


def ordinal(number: int) -> str:
    end = {1: "st", 2: "nd", 3: "rd"}.get(number % 10, "th") if number % 100 // 10 != 1 else "th"
    return f"{number}{end}"


# What an event did, in a word, where the first of its words is another one.
WORDS = {"local": "stores", "was": "wakes", "ends": "initialises"}


def modifiers(one: Class, field: str, descriptor: str) -> str:
    """The flags of a field that are told (4.5)."""
    flags = next(declared[0] for declared in one.fields if declared[1:3] == (field, descriptor))
    return ("volatile " if flags & VOLATILE else "") + ("final " if flags & FINAL else "")


class Before(NamedTuple):
    """What of the state before an event is needed to tell it."""

    top: Union[Frame, Initialisation, None]
    depth: int
    frames: int
    at: int
    stack: List[Value]
    waiting: Dict[int, List[JavaThread]]
    pick: int
    # How many units were printed, and how many objects were made.
    printed: int
    objects: int

    def frame(self) -> Frame:
        assert isinstance(self.top, Frame)
        return self.top

    def member(self) -> Tuple[str, str, str]:
        """The field or the method that the instruction names."""
        frame = self.frame()
        index = int.from_bytes(frame.code()[self.at + 1 : self.at + 3], "big")
        found: Tuple[str, str, str] = frame.method.owner.pool[index][1]
        return found


def seen_before(thread: JavaThread, pick: int, printed: int, objects: int) -> Before:
    top = thread.top()
    stack = list(top.stack) if isinstance(top, Frame) else []
    waiting = {id(one): list(one.waiters) for one in stack if isinstance(one, Object)}
    at = top.at if isinstance(top, Frame) else 0
    return Before(top, len(thread.entries), thread.frames(), at, stack, waiting, pick, printed, objects)


class Traced(Machine):
    """A machine which tells each event."""

    def __init__(self, files: Sequence[bytes]) -> None:
        super().__init__(files)
        given = list(self.classes)[-len(files) :]
        self.sources = dict(zip(given, map(Lines, files)))
        # What an object of JSON tells of the event beside its words.
        self.more: Dict[str, Part] = {}

    def thing(self, thing: Object) -> str:
        """An object by its class and its number."""
        if thing.names:
            return f"{thing.names}.class"
        if thing.kind == STRING:
            return f"{spelled(quoted(thing.text))} #{thing.number}"
        return self.numbered(thing)

    def numbered(self, thing: Object) -> str:
        """An object by its class and its number, and a Class object by the name of its class alone."""
        if thing.names:
            return f"{thing.names}.class"
        kind, arrays = thing.kind, 0
        while kind[0] == "[":
            kind, arrays = component(kind), arrays + 1
        kind = PRIMITIVES.get(kind, kind) if arrays else kind
        return f"{kind}{'[]' * arrays} #{thing.number}"

    def value(self, value: Value, descriptor: str = "I") -> str:
        if descriptor == "Z":
            return "true" if value else "false"
        if value is None:
            return "null"
        return str(value) if isinstance(value, int) else self.thing(value)

    def place(self, thread: JavaThread) -> Tuple[str, str, str]:
        top = thread.top()
        if isinstance(top, Frame):
            method = top.method
            source = self.sources[method.owner.name].at(method, top.at) if method.owner.name in self.sources else ""
            return f"{method.owner.name}.{method.name} {top.at}", source, instruction(method, top.at)
        return top.of.name if top else "-", "", ""

    def told(self, number: int, pick: int = 0) -> Told:
        """Does an event, and tells it."""
        thread = self.threads[number] if number < len(self.threads) else None
        if thread is None:
            raise NotEnabled("none")
        at, place, local = self.done, self.place(thread), thread.next_is_local()
        self.more = {}
        words = self.words(thread, number, pick)
        return Told(at, number, place, words, local, {**self.op(thread, words), **self.more})

    def op(self, thread: JavaThread, words: Sequence[str]) -> Dict[str, Part]:
        """The word for what an event did."""
        if thread.has_ended:
            return {"op": "ends"}
        if not words:
            return {}
        first = words[0].split()[0]
        return {"op": WORDS.get(first, first)}

    def keep_monitor(self, thing: Object, count: int) -> None:
        """Keeps which monitor the event entered or left, and how often its thread has entered it since."""
        self.more.update({"monitor": self.numbered(thing), "count": count})

    def words(self, thread: JavaThread, number: int, pick: int) -> List[str]:
        """Does an event, and answers what it did."""
        pending, relock = thread.pending, thread.relock
        before = seen_before(thread, pick, len(self.printed), self.objects)
        self.step(number, pick)
        thrown = thread.pending if thread.pending is not None and thread.pending is not pending else None
        words: List[str] = []
        if relock:
            thing, entries, cause = relock
            times = f" ({entries} times)" if entries > 1 else ""
            self.keep_monitor(thing, entries)
            words.append(f"was {cause}, enters monitor of {self.thing(thing)} again{times}")
        elif pending:
            words += self.handled(thread, pending, before)
        elif thrown is None:
            words += self.done_words(thread, before)
        if thrown is not None:
            words.append(f"throws {self.thing(thrown)}")
        if thread.has_ended:
            words.append(f"ends by {self.thing(thread.pending)}" if thread.pending else "ends")
        return words

    def done_words(self, thread: JavaThread, before: Before) -> List[str]:
        """What an event did that threw nothing."""
        top, now, depth = before.top, thread.top(), len(thread.entries)
        if isinstance(top, Frame) and not (isinstance(now, Initialisation) and depth > before.depth):
            return self.bytecode_words(thread, before)
        if isinstance(top, Initialisation) and top.phase == "End" and now is top:
            return [f"finds no initialiser of {top.of.name}"]
        if isinstance(top, Initialisation) and depth < before.depth:
            return [f"ends initialisation of {top.of.name}"]
        if isinstance(now, Initialisation):
            return [f"begins initialisation of {now.of.name}"]
        return [self.call_words(thread.top_frame())]

    def handled(self, thread: JavaThread, pending: Object, before: Before) -> List[str]:
        if isinstance(before.top, Initialisation):
            return [f"fails initialisation of {before.top.of.name}"]
        if len(thread.entries) == before.depth:
            return [f"catches {self.thing(pending)} at {thread.top_frame().at}"]
        top = before.frame()
        left = f"leaves {top.method.owner.name}.{top.method.name} by {self.thing(pending)}"
        return [left, *self.exit_words(top.entered)]

    def exit_words(self, thing: Optional[Object]) -> List[str]:
        if thing is None:
            return []
        count = thing.entries
        self.keep_monitor(thing, count)
        left = f" ({count} entr{'y' if count == 1 else 'ies'} left)" if count else ""
        return [f"exits monitor of {self.thing(thing)}{left}"]

    def enter_words(self, thing: Object) -> str:
        self.keep_monitor(thing, thing.entries)
        times = f" ({ordinal(thing.entries)} time)" if thing.entries > 1 else ""
        return f"enters monitor of {self.thing(thing)}{times}"

    def call_words(self, frame: Frame) -> str:
        call = f"calls {frame.method.owner.name}.{frame.method.name}"
        return call if frame.entered is None else f"{call}, {self.enter_words(frame.entered)}"

    def bytecode_words(self, thread: JavaThread, before: Before) -> List[str]:
        """What an instruction did that threw nothing, and before which no class had to be initialised."""
        top, at, stack = before.frame(), before.at, before.stack
        name = MNEMONICS[top.code()[at]]
        if name in SILENT:
            return []
        if name.startswith("if") or name in ("goto", "goto_w", "tableswitch", "lookupswitch"):
            return [f"goes to {top.at}"]
        if "store" in name and name[1:].startswith("store") or name == "iinc":
            index = top.code()[at + 1] if name == "iinc" or "_" not in name else int(name[-1])
            return [f"local {index} = {self.value(top.locals[index])}"]
        if name.endswith("return"):
            value = "" if name == "return" else f" {self.value(stack[-1])}"
            return [f"returns{value}", *self.exit_words(top.entered)]
        if name in ("getstatic", "putstatic", "getfield", "putfield"):
            return [self.field_words(name, before)]
        if name.endswith("aload") and name != "aload" or name.endswith("astore") and name != "astore":
            return [self.element_words(name, before)]
        if name in ("new", "newarray", "anewarray"):
            return [f"makes {self.thing(top.stack[-1])}"]
        if name == "monitorenter":
            return [self.enter_words(stack[-1])]
        if name == "monitorexit":
            return self.exit_words(stack[-1])
        if name.startswith("invoke"):
            if thread.frames() > before.frames:
                return [self.call_words(thread.top_frame())]
            return self.built_in_words(thread, before)
        return [f"pushes {self.value(top.stack[-1])}"]

    def element_words(self, name: str, before: Before) -> str:
        if name.endswith("load"):
            array, index = before.stack[-2:]
            return f"reads [{index}] of {self.thing(array)} = {self.value(before.frame().stack[-1])}"
        array, index = before.stack[-3:-1]
        return f"writes [{index}] of {self.thing(array)} = {self.value(array.elements[index])}"

    def field_words(self, name: str, before: Before) -> str:
        owner, field, descriptor = before.member()
        one = self.found_field(owner, field, descriptor)
        if name in ("getstatic", "putstatic"):
            where, value = "", one.statics[field]
        else:
            thing = before.stack[-1] if name == "getfield" else before.stack[-2]
            where, value = f" of {self.thing(thing)}", thing.fields[one.name, field, descriptor]
        verb = "reads" if name.startswith("get") else "writes"
        # Nothing is told of the flags of a built-in class.
        sort = modifiers(one, field, descriptor) if one.name in self.sources else ""
        return f"{verb} {sort}{owner}.{field}{where} = {self.value(value, descriptor)}"

    def thread_word(self, thing: Object) -> str:
        found = self.of_object(thing)
        return f"thread {self.threads.index(found)}" if found else self.thing(thing)

    def built_in_words(self, thread: JavaThread, before: Before) -> List[str]:
        owner, name, descriptor = before.member()
        this = before.stack[-1] if before.stack else None
        if name in ("print", "println"):
            if len(self.printed) > before.printed:
                self.more["printed"] = len(self.printed)
            if (name, descriptor) == ("println", "(I)V"):
                return [f"prints {before.stack[-1]}"]
            return [f"prints {spelled(quoted(self.printed[before.printed :]))}"]
        if name in ("wait", "join") and thread.waits:
            self.keep_monitor(thread.waits[0], 0)
            return [f"waits on {self.thing(thread.waits[0])}"]
        if name in ("notify", "notifyAll"):
            return [self.notify_words(name, before)]
        if name == "yield":
            return ["yields"]
        verb = {"start": "starts", "interrupt": "interrupts", "join": "joins"}.get(name)
        if verb:
            found = self.of_object(this)
            if verb == "starts" and found:
                self.more.update({"started": self.threads.index(found), "object": self.numbered(this)})
            return [f"{verb} {self.thread_word(this)}"]
        if name == "<init>":
            return [f"runs {self.found_method(owner, name, descriptor).owner.name}.<init>"]
        if descriptor.endswith("V"):
            return [f"runs {self.found_method(owner, name, descriptor).owner.name}.{name}"]
        given = before.frame().stack[-1]
        is_made = self.objects > before.objects and isinstance(given, Object)
        if is_made and given.number == self.opening + before.objects:
            return [f"makes {self.thing(given)}"]
        return [f"pushes {self.value(given, descriptor[descriptor.index(')') + 1 :])}"]

    def notify_words(self, name: str, before: Before) -> str:
        members = before.waiting[id(before.stack[-1])]
        woken = members if name == "notifyAll" else members[before.pick : before.pick + 1]
        numbers = [str(self.threads.index(one)) for one in woken]
        if not numbers:
            return "notifies no thread"
        return f"notifies thread{'s' if len(numbers) > 1 else ''} {', '.join(numbers)}"
