"""Sets of class files that are made by chance, for trials of `jvm`: with threads, monitors, wait sets, exceptions and
initialisers. The same numbers always make the same set.

A has `main` and static methods; B has fields and methods, which C overrides below it; E is thrown; B implements the
interface I, and T is a Thread. C is a Runnable.
"""

import functools
import random
from typing import Callable, Dict, NamedTuple

from oracle.classes import PUBLIC, STATIC, SYNCHRONIZED
from tools.growing_classes import INTERFACE, OBJECT, GrowingClass
from tools.random_code import A_BOX, A_THREAD, AN_ARRAY, AN_OBJECT, CAUGHT, COUNTERS, INTS, Body
from tools.random_statements import INT_ARRAY, THREAD, set_array, set_first_box, set_object, set_thread
from tools.random_statements import start, statement

PUBLIC_ABSTRACT = 0x0401

# How many blocks are open at most, one in the other.
DEPTH = 4

LOCAL_COUNT = COUNTERS + DEPTH

# No statement has more on the operand stack.
STACK = 8

CAUGHT_CLASSES = (
    "E",
    "java/lang/Throwable",
    "java/lang/Exception",
    "java/lang/Error",
    "java/lang/RuntimeException",
    "java/lang/InterruptedException",
    "java/lang/NullPointerException",
)


class Wanted(NamedTuple):
    """A method that is to be made, which has fewer statements than a number says."""

    flags: int
    name: str
    descriptor: str
    statements: int


MAIN = Wanted(PUBLIC | STATIC, "main", "([Ljava/lang/String;)V", 24)
RUN = Wanted(PUBLIC, "run", "()V", 20)
OF_INT = Wanted(PUBLIC | STATIC, "f", "(I)I", 8)
OF_BOX = Wanted(PUBLIC | STATIC, "g", "(LB;I)I", 8)
GET = Wanted(PUBLIC, "get", "()I", 8)
PUT = Wanted(PUBLIC, "put", "(I)V", 8)
INITIALISER = Wanted(STATIC, "<clinit>", "()V", 4)


# ---- blocks: each is opened, and answers what closes it


def open_condition(body: Body) -> Callable[[], None]:
    return functools.partial(body.land, body.condition())


def open_loop(body: Body) -> Callable[[], None]:
    counter = COUNTERS + len(body.open)
    body.number(body.chance.randrange(5))
    body.add_with("istore", counter)
    head = body.here()
    body.add_with("iload", counter)
    return functools.partial(close_loop, body, counter, head, body.jump("ifle"))


def close_loop(body: Body, counter: int, head: int, past: int) -> None:
    body.add_with("iinc", counter, -1)
    body.jump_back("goto", head)
    body.land(past)


def open_synchronized(body: Body) -> Callable[[], None]:
    body.load(AN_OBJECT)
    body.add("monitorenter")
    return functools.partial(close_synchronized, body, body.here())


def leave_monitor(body: Body) -> None:
    body.load(AN_OBJECT)
    body.add("monitorexit")


def close_synchronized(body: Body, begin: int) -> None:
    """Leaves the monitor at the end of the code, and mostly by a handler, too."""
    leave_monitor(body)
    if body.is_one_in(6):
        return
    end, past = body.here(), body.jump("goto")
    body.handlers.append((begin, end, body.here(), 0))
    body.store(CAUGHT)
    leave_monitor(body)
    body.load(CAUGHT)
    body.add("athrow")
    body.land(past)


def open_try(body: Body) -> Callable[[], None]:
    return functools.partial(close_try, body, body.here())


def close_try(body: Body, begin: int) -> None:
    """Ends the code with a handler, which goes on behind it."""
    body.add("iconst_0", "pop")
    end, past = body.here(), body.jump("goto")
    name = body.chance.choice(CAUGHT_CLASSES)
    body.handlers.append((begin, end, body.here(), 0 if body.is_one_in(4) else body.pool.class_of(name)))
    if body.is_one_in(2):
        body.add("pop")
    else:
        body.store(AN_OBJECT)
    body.land(past)


BLOCKS = (open_condition, open_condition, open_loop, open_synchronized, open_try, open_try)


def open_block(body: Body) -> None:
    if len(body.open) < DEPTH:
        body.open.append(body.chance.choice(BLOCKS)(body))


def close_block(body: Body) -> None:
    if body.open:
        body.open.pop()()


def add_statements(body: Body, count: int) -> None:
    """So many statements, in blocks, which are all closed behind them."""
    if body.is_one_in(2):
        body.open.append(open_try(body))
    for _ in range(count):
        body.chance.choice((open_block, close_block, *[statement] * 6))(body)
    while body.open:
        close_block(body)


# ---- methods


def add_prologue(body: Body, wanted: Wanted) -> None:
    """Gives each local variable a value of its type, mostly by chance."""
    if wanted == OF_INT:
        body.add_with("iload", 0)
        body.add_with("istore", INTS[0])
    # The int parameter of `g` and `put` is the first int already.
    for local in INTS[1:] if "I" in wanted.descriptor.partition(")")[0] else INTS:
        body.number(body.any_number())
        body.add_with("istore", local)
    for local in (A_BOX, AN_ARRAY, A_THREAD, AN_OBJECT):
        body.add("aconst_null")
        body.store(local)
    if wanted == OF_BOX:
        body.load(0)
        body.store(A_BOX)
    else:
        set_first_box(body)
    set_array(body)
    set_thread(body)
    set_object(body)
    body.add("aconst_null")
    body.store(CAUGHT)
    for place in range(DEPTH):
        body.add("iconst_0")
        body.add_with("istore", COUNTERS + place)


def add_shared(body: Body) -> None:
    """Makes what threads share."""
    body.push_new(OBJECT)
    body.store_static("lock", f"L{OBJECT};")
    body.number(4)
    body.add_with("newarray", INT_ARRAY)
    body.store_static("ints", "[I")
    body.push_new("C")
    body.store_static("box", "LB;")


class RandomClass(GrowingClass):
    """A class that grows by chance."""

    def __init__(self, chance: random.Random, name: str, above: str = OBJECT) -> None:
        super().__init__(name, above)
        self.chance, self.above = chance, above

    def add(self, wanted: Wanted) -> None:
        statements = self.chance.randrange(wanted.statements)
        body = Body(self.pool, self.chance, wanted.descriptor.endswith("I"))
        if wanted == MAIN and not body.is_one_in(8):
            add_shared(body)
        add_prologue(body, wanted)
        if wanted == MAIN:
            for _ in range(self.chance.randrange(4)):
                start(body)
        add_statements(body, statements)
        body.leave()
        is_synchronized = wanted != INITIALISER and body.is_one_in(4)
        flags = wanted.flags | SYNCHRONIZED * is_synchronized
        self.method(flags, wanted.name, wanted.descriptor, body, STACK, LOCAL_COUNT)

    def add_constructor(self) -> None:
        """Adds one that calls that of the superclass."""
        body = Body(self.pool, self.chance)
        body.load(0)
        body.method("invokespecial", self.above, "<init>", "()V")
        body.leave()
        self.method(PUBLIC, "<init>", "()V", body, 1, 1)

    def add_initialiser(self) -> None:
        """Adds one, by chance."""
        if self.chance.randrange(3) == 0:
            self.add(INITIALISER)


# ---- classes


def main_class(chance: random.Random) -> bytes:
    one = RandomClass(chance, "A")
    for name, descriptor in (("n", "I"), ("lock", f"L{OBJECT};"), ("box", "LB;"), ("ints", "[I"), ("last", "LT;")):
        one.field(STATIC, name, descriptor)
    for wanted in (MAIN, OF_INT, OF_BOX):
        one.add(wanted)
    one.add_initialiser()
    return one.data()


def box_class(chance: random.Random) -> bytes:
    one = RandomClass(chance, "B")
    one.stands_on("I")
    one.field(STATIC, "s", "I")
    for name, descriptor in (("x", "I"), ("flag", "Z"), ("small", "B"), ("next", "LB;")):
        one.field(PUBLIC, name, descriptor)
    one.add_constructor()
    for wanted in (GET, PUT):
        one.add(wanted)
    one.add_initialiser()
    return one.data()


def lower_class(chance: random.Random) -> bytes:
    """C, which overrides methods by chance."""
    one = RandomClass(chance, "C", "B")
    one.stands_on("java/lang/Runnable")
    one.field(STATIC, "s", "I")
    one.add_constructor()
    for wanted in (GET, PUT):
        if chance.randrange(2) == 0:
            one.add(wanted)
    one.add(RUN)
    one.add_initialiser()
    return one.data()


def exception_class(chance: random.Random) -> bytes:
    one = RandomClass(chance, "E", chance.choice(("java/lang/RuntimeException", "java/lang/Error")))
    one.add_constructor()
    one.add_initialiser()
    return one.data()


def interface(_chance: random.Random) -> bytes:
    one = GrowingClass("I", flags=INTERFACE)
    one.method(PUBLIC_ABSTRACT, "get", "()I")
    return one.data()


def thread_class(chance: random.Random) -> bytes:
    one = RandomClass(chance, "T", THREAD)
    one.add_constructor()
    one.add(RUN)
    one.add_initialiser()
    return one.data()


CLASSES = {
    "A": main_class,
    "B": box_class,
    "C": lower_class,
    "E": exception_class,
    "I": interface,
    "T": thread_class,
}


def random_set(chance: random.Random) -> Dict[str, bytes]:
    """The class files of a set, by the names of their classes."""
    return {name: make(chance) for name, make in CLASSES.items()}
