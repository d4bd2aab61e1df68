"""Methods made by chance, mostly of good types."""

import random
import struct
from typing import Callable, List, Optional, Sequence, Tuple, Union

from tools.class_files import FIELDREF, INTERFACE_METHODREF, METHODREF, Pool, u2

SUPER = {"A": "java/lang/Object", "B": "A", "C": "A", "D": "B", "T": "B", "I": "java/lang/Object"}
EXCEPTIONS = ["java/lang/Throwable", "java/lang/RuntimeException", "java/lang/ArithmeticException"]
INT, NULL, UNUSABLE, THIS = "int", "null", "unusable", "this"

# A type as it is verified; of an object that is made and not constructed yet, "new", where, and its class.
Type = Union[str, Tuple[str, int, str]]

# class, name, descriptor, is static
FIELDS = [
    ("A", "x", "I", False),
    ("A", "next", "LA;", False),
    ("A", "one", "LA;", True),
    ("B", "numbers", "[I", False),
    ("C", "other", "LI;", False),
    ("C", "any", "Ljava/lang/Object;", True),
    ("T", "n", "I", False),
    ("T", "b", "LB;", False),
    ("T", "s", "LT;", True),
    ("T", "x", "I", False),
]
# opcode, class, name, descriptor
METHODS = [
    (0xB6, "A", "run", "(I)I"),
    (0xB6, "A", "same", "(LA;)LA;"),
    (0xB8, "A", "made", "(LB;)LA;"),
    (0xB6, "B", "all", "()[LA;"),
    (0xB8, "C", "count", "([LA;)I"),
    (0xB8, "D", "print", "(LI;)V"),
    (0xB9, "I", "run", "(I)I"),
    (0xB6, "T", "run", "(I)I"),
    (0xB7, "A", "same", "(LA;)LA;"),
    (0xB7, "B", "same", "(LA;)LA;"),
    (0xB6, "java/lang/Object", "notify", "()V"),
]
CONSTRUCTORS = [
    ("A", "()V"),
    ("A", "(I)V"),
    ("B", "()V"),
    ("B", "(I)V"),
    ("C", "()V"),
    ("D", "()V"),
    ("T", "()V"),
    ("java/lang/Object", "()V"),
    ("java/lang/RuntimeException", "()V"),
]
CLASSES = ["A", "B", "C", "D", "T", "I", "java/lang/Object", "java/lang/RuntimeException", "[I", "[LA;", "[[I", "[LI;"]


def descriptor_type(text: str) -> str:
    if text in ("I", "Z", "B", "C", "S"):
        return INT
    return text[1:-1] if text[0] == "L" else text


def split_descriptor(descriptor: str) -> Tuple[List[str], Optional[str]]:
    """The types of the parameters, and that of the result or None."""
    inside, result = descriptor[1:].split(")")
    parameters = []
    while inside:
        end = 0
        while inside[end] == "[":
            end += 1
        end = inside.index(";", end) + 1 if inside[end] == "L" else end + 1
        parameters.append(descriptor_type(inside[:end]))
        inside = inside[end:]
    return parameters, None if result == "V" else descriptor_type(result)


def is_below(s: Type, t: Type) -> bool:
    """Whether a type fits, as well as the generator needs to know it."""
    if t in (INT, UNUSABLE, THIS) or isinstance(t, tuple) or s in (INT, UNUSABLE, THIS) or isinstance(s, tuple):
        return s == t
    if s == NULL or t == "java/lang/Object" or s == t:
        return True
    if t == "I":
        return s[0] != "["
    while s in SUPER:
        s = SUPER[s]
        if s == t:
            return True
    return s.startswith("[L") and t.startswith("[L") and is_below(s[2:-1], t[2:-1])


def local_joined(s: Type, t: Type) -> Type:
    if s == t:
        return s
    return UNUSABLE if INT in (s, t) or UNUSABLE in (s, t) else "java/lang/Object"


class Instruction:
    """An opcode, and what stands behind it: bytes, or the instruction to which it jumps."""

    def __init__(self, opcode: int, operand: bytes = b"", target: Optional[int] = None) -> None:
        self.opcode, self.operand, self.target = opcode, operand, target

    def length(self) -> int:
        return 3 if self.target is not None else 1 + len(self.operand)

    def bytes(self, at: int, offsets: List[int]) -> bytes:
        if self.target is None:
            return bytes([self.opcode]) + self.operand
        target = offsets[min(self.target, len(offsets) - 1)]
        return bytes([self.opcode]) + struct.pack(">h", target - at)


class Maker:
    """Makes the code of a method, by the types that it has at each instruction."""

    def __init__(self, rng: random.Random, name: str, pool: Pool, kind: str) -> None:
        self.rng, self.name, self.pool, self.kind = rng, name, pool, kind
        self.code: List[Instruction] = []
        # The stack and the local variables before each instruction; jumps whose target is open; and handlers.
        self.states: List[Tuple[List[Type], List[Type]]] = []
        self.open: List[Tuple[int, List[Type], List[Type]]] = []
        self.handlers: List[Tuple[int, int, int, Optional[str]]] = []
        self.stack: List[Type] = []
        self.most = 0
        self.parameters: List[str] = [INT, "A", "[I", "B", "[LA;", INT, "java/lang/Object", "I"]
        if kind == "constructor":
            self.locals: List[Type] = [THIS, *self.parameters[:4]]
        elif kind == "instance":
            self.locals = [self.own("T"), *self.parameters]
        else:
            self.locals = list(self.parameters)
        self.locals += [UNUSABLE] * (12 - len(self.locals))
        self.result = None if kind == "constructor" else rng.choice([None, INT, "A", "[LA;", "java/lang/Object", "I"])

    def own(self, name: str) -> str:
        return self.name if name == "T" else name

    def emit(self, opcode: int, operand: bytes = b"", target: Optional[int] = None) -> None:
        self.states.append((list(self.stack), list(self.locals)))
        self.code.append(Instruction(opcode, operand, target))

    def push(self, t: Type) -> None:
        self.stack.append(t)
        self.most = max(self.most, len(self.stack))

    def pop(self) -> Type:
        return self.stack.pop()

    # ---- what is on the stack

    def load(self, wanted: Type) -> None:
        """Loads a local variable of a type, or makes something of it."""
        fits = [i for i, t in enumerate(self.locals) if self.is_below(t, wanted)]
        if fits and self.rng.random() < 0.8:
            at = self.rng.choice(fits)
            wide = self.rng.random() < 0.1
            self.emit(*self.local_form(0x15 if wanted == INT else 0x19, at, wide))
            self.push(self.locals[at])
        elif wanted == INT:
            self.emit(self.rng.choice([0x02, 0x03, 0x04, 0x08]))
            self.push(INT)
        else:
            self.make(wanted)

    def local_form(self, opcode: int, at: int, wide: bool = False) -> Tuple[int, bytes]:
        if wide:
            return 0xC4, bytes([opcode]) + u2(at)
        short = {0x15: 0x1A, 0x19: 0x2A, 0x36: 0x3B, 0x3A: 0x4B}[opcode]
        if at < 4 and self.rng.random() < 0.5:
            return short + at, b""
        return opcode, bytes([at])

    def is_below(self, s: Type, t: Type) -> bool:
        return is_below("T" if s == self.name else s, "T" if t == self.name else t)

    def make(self, wanted: Type) -> None:
        made = [c for c, d in CONSTRUCTORS if d == "()V" and self.is_below(self.own(c), wanted)]
        if made and self.rng.random() < 0.6:
            self.new(self.rng.choice(made))
        else:
            self.emit(0x01)
            self.push(NULL)

    def new(self, class_name: str) -> None:
        at = len(self.code)
        self.emit(0xBB, u2(self.pool.class_of(self.own(class_name))))
        self.push(("new", at, self.own(class_name)))
        self.emit(0x59)
        self.push(self.stack[-1])
        if self.rng.random() < 0.1:
            self.store()
            self.emit(0x59)
            self.push(self.stack[-1])
        self.construct(class_name)

    def construct(self, class_name: str) -> None:
        forms = [d for c, d in CONSTRUCTORS if c == class_name]
        descriptor = self.rng.choice(forms)
        for t in split_descriptor(descriptor)[0]:
            self.load(t)
        self.emit(0xB7, u2(self.pool.member(METHODREF, self.own(class_name), "<init>", descriptor)))
        for _ in split_descriptor(descriptor)[0]:
            self.pop()
        made = self.pop()
        whole = self.own(class_name) if made != THIS else self.name
        self.stack = [whole if t == made else t for t in self.stack]
        self.locals = [whole if t == made else t for t in self.locals]

    def take(self, types: Sequence[str]) -> None:
        for t in types:
            self.load(t)

    def drop(self, count: int) -> None:
        for _ in range(count):
            self.pop()

    def store(self) -> None:
        t = self.stack[-1]
        at = self.rng.randrange(12)
        self.emit(*self.local_form(0x36 if t == INT else 0x3A, at, self.rng.random() < 0.1))
        self.locals[at] = self.pop()

    # ---- statements, each of which leaves the stack as it was, or one more

    def step(self) -> None:
        weights: List[Tuple[Callable[[], None], int]] = [
            (self.arithmetic, 4),
            (self.field_get, 4),
            (self.field_put, 3),
            (self.call, 5),
            (self.array, 5),
            (self.branch, 6),
            (self.keep, 5),
            (self.shuffle, 3),
            (self.cast, 3),
            (self.leave, 1),
            (self.monitor, 1),
            (self.increment, 1),
            (self.throw, 1),
            (self.switch, 1),
        ]
        self.rng.choices([f for f, _ in weights], [w for _, w in weights])[0]()

    def keep(self) -> None:
        if self.stack and self.rng.random() < 0.8:
            self.store()
        else:
            self.load(self.rng.choice([INT, "A", "B", "I", "[LA;", "[I", "java/lang/Object", self.name]))

    def arithmetic(self) -> None:
        self.take([INT, INT])
        self.emit(self.rng.choice([0x60, 0x64, 0x68, 0x6C, 0x7E, 0x78]))
        self.drop(2)
        self.push(INT)

    def increment(self) -> None:
        at = [i for i, t in enumerate(self.locals) if t == INT]
        if at:
            self.emit(0x84, bytes([self.rng.choice(at), 1]))

    def reference(self, form: Tuple[str, str, str, bool]) -> bytes:
        return u2(self.pool.member(FIELDREF, self.own(form[0]), form[1], form[2].replace("LT;", f"L{self.name};")))

    def field_get(self) -> None:
        form = self.rng.choice(FIELDS)
        t = descriptor_type(form[2])
        if form[3]:
            self.emit(0xB2, self.reference(form))
        else:
            self.load(self.own(form[0]))
            self.emit(0xB4, self.reference(form))
            self.pop()
        self.push(self.own(t))

    def field_put(self) -> None:
        form = self.rng.choice(FIELDS)
        t = self.own(descriptor_type(form[2]))
        if form[3]:
            self.load(t)
            self.emit(0xB3, self.reference(form))
            self.pop()
            return
        if THIS in self.locals and self.rng.random() < 0.7:
            self.emit(0x19, bytes([self.locals.index(THIS)]))
            self.push(THIS)
        else:
            self.load(self.own(form[0]))
        self.load(t)
        self.emit(0xB5, self.reference(form))
        self.drop(2)

    def call(self) -> None:
        opcode, class_name, name, descriptor = self.rng.choice(METHODS)
        if opcode == 0xB7 and self.kind == "static" and self.rng.random() < 0.9:
            return
        parameters, result = split_descriptor(descriptor)
        receiver = [] if opcode == 0xB8 else [self.name if opcode == 0xB7 else self.own(class_name)]
        self.take(receiver + parameters)
        tag = INTERFACE_METHODREF if opcode == 0xB9 else METHODREF
        operand = u2(self.pool.member(tag, self.own(class_name), name, descriptor))
        if opcode == 0xB9:
            operand += bytes([len(receiver + parameters), 0])
        self.emit(opcode, operand)
        self.drop(len(receiver + parameters))
        if result:
            self.push(result)

    def array(self) -> None:
        form = self.rng.randrange(7)
        if form == 0:
            self.take([INT])
            self.emit(0xBC, b"\x0a")
            self.pop()
            self.push("[I")
        elif form == 1:
            element = self.rng.choice(CLASSES)
            self.take([INT])
            self.emit(0xBD, u2(self.pool.class_of(self.own(element))))
            self.pop()
            self.push("[" + (element if element[0] == "[" else f"L{self.own(element)};"))
        elif form == 2:
            self.take(["[I", INT])
            self.emit(0x2E)
            self.drop(2)
            self.push(INT)
        elif form == 3:
            self.take(["[I", INT, INT])
            self.emit(0x4F)
            self.drop(3)
        elif form == 4:
            self.take(["[LA;", INT])
            array = self.stack[-2]
            self.emit(0x32)
            self.drop(2)
            self.push(NULL if array == NULL else descriptor_type(str(array[1:])))
        elif form == 5:
            self.take(["[LA;", INT, "A"])
            self.emit(0x53)
            self.drop(3)
        else:
            self.take([self.rng.choice(["[I", "[LA;"])])
            self.emit(0xBE)
            self.pop()
            self.push(INT)

    def cast(self) -> None:
        self.load("java/lang/Object")
        name = self.own(self.rng.choice(CLASSES))
        is_cast = self.rng.random() < 0.7
        self.emit(0xC0 if is_cast else 0xC1, u2(self.pool.class_of(name)))
        self.pop()
        self.push(name if is_cast else INT)

    def monitor(self) -> None:
        self.load("java/lang/Object")
        self.emit(self.rng.choice([0xC2, 0xC3]))
        self.pop()

    def shuffle(self) -> None:
        need = {0x57: 1, 0x58: 2, 0x59: 1, 0x5A: 2, 0x5B: 3, 0x5C: 2, 0x5D: 3, 0x5E: 4, 0x5F: 2}
        fits = [o for o, n in need.items() if n <= len(self.stack)]
        if not fits:
            return
        opcode = self.rng.choice(fits)
        self.emit(opcode)
        s = self.stack
        if opcode in (0x57, 0x58):
            del s[-need[opcode]:]
        elif opcode == 0x5F:
            s[-1], s[-2] = s[-2], s[-1]
        else:
            count = 1 if opcode in (0x59, 0x5A, 0x5B) else 2
            s[len(s) - need[opcode]:len(s) - need[opcode]] = s[-count:]
        self.most = max(self.most, len(s))

    # ---- jumps

    def branch(self) -> None:
        forms = [(0x99, [INT]), (0xA2, [INT, INT]), (0xC6, ["java/lang/Object"]), (0xA5, ["A", "java/lang/Object"])]
        form = self.rng.choice(forms)
        self.take(form[1])
        self.jump(form[0], len(form[1]))
        if self.rng.random() < 0.15:
            self.jump(0xA7, 0)
            self.resume()

    def jump(self, opcode: int, count: int) -> None:
        after = self.stack[:len(self.stack) - count]
        stacks = [stack for stack, _ in self.states]
        same = [i for i, s in enumerate(stacks) if len(s) == len(after) and all(map(self.is_below, after, s))]
        if same and self.rng.random() < 0.3:
            self.emit(opcode, target=self.rng.choice(same))
        else:
            self.open.append((len(self.code), after, list(self.locals)))
            self.emit(opcode, target=0)
        self.drop(count)

    def resume(self) -> None:
        """Behind what goes nowhere on: here an open jump leads, or a handler begins."""
        if self.rng.random() < 0.4 and len(self.code) > 3:
            start = self.rng.randrange(len(self.code) - 1)
            end = self.rng.randrange(start + 1, len(self.code))
            caught = self.rng.choice(EXCEPTIONS + [None])
            self.handlers.append((start, end, len(self.code), caught))
            self.stack = [caught or "java/lang/Throwable"]
            self.most = max(self.most, 1)
            states = [locals_ for _, locals_ in self.states[start:end]]
            self.locals = [t if all(s[i] == t for s in states) else UNUSABLE for i, t in enumerate(states[0])]
        elif self.open:
            at, self.stack, locals_ = self.open.pop(self.rng.randrange(len(self.open)))
            self.stack = list(self.stack)
            self.locals = list(locals_)
            self.code[at].target = len(self.code)

    def meet(self) -> None:
        """Some open jumps lead here, where the stacks agree."""
        for one in list(self.open):
            if [t == INT for t in one[1]] == [t == INT for t in self.stack] and self.rng.random() < 0.5:
                self.code[one[0]].target = len(self.code)
                self.open.remove(one)
                self.locals = [local_joined(s, t) for s, t in zip(self.locals, one[2])]
                self.stack = [self.joined(s, t) for s, t in zip(self.stack, one[1])]

    def joined(self, s: Type, t: Type) -> Type:
        return s if self.is_below(t, s) else t if self.is_below(s, t) else "java/lang/Object"

    def leave(self) -> None:
        if self.rng.random() < 0.6:
            return
        self.end()
        self.resume()

    def throw(self) -> None:
        if self.rng.random() < 0.5:
            self.new("java/lang/RuntimeException")
            self.emit(0xBF)
            self.pop()
            self.resume()

    def switch(self) -> None:
        """tableswitch with two cases, to where an open jump may lead too."""
        self.load(INT)
        self.emit(0x99, target=len(self.code) + 1)
        self.pop()

    def end(self) -> None:
        if self.result is None:
            self.emit(0xB1)
        else:
            self.load(self.result)
            self.emit(0xAC if self.result == INT else 0xB0)
            self.pop()

    def method(self, length: int) -> None:
        if self.kind == "constructor" and self.rng.random() < 0.9:
            for _ in range(self.rng.randrange(3)):
                self.rng.choice([self.field_put, self.arithmetic, self.branch, self.keep])()
            while self.stack:
                self.emit(0x57)
                self.pop()
            self.emit(0x2A)
            self.push(THIS)
            self.construct(self.rng.choice(["B", "B", "B", "T", "A"]))
        while len(self.code) < length:
            self.step()
            self.meet()
            if len(self.stack) > 5:
                self.emit(0x57)
                self.pop()
        self.end()
        while self.open:
            self.resume()
            self.end()
