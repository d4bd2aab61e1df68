"""Statements of methods that are made by chance.

Each begins and ends with an empty operand stack, and leaves the local variables with values of the same types; so each
body of statements has a typing.
"""

import functools
import struct
from typing import Callable, Sequence

from tools.growing_classes import OBJECT
from tools.random_code import A_BOX, A_THREAD, AN_ARRAY, AN_OBJECT, INTS, Body

THREAD = "java/lang/Thread"

# The code of `newarray` of ints.
INT_ARRAY = 10

# What stands twice in a table, here and below, is drawn twice as often.
OPERATIONS = ("iadd", "isub", "imul", "idiv", "irem", "ishl", "ishr", "iushr", "iand", "ior", "ixor")
CHANGES = ("ineg", "i2b", "i2c", "i2s")
STATICS = (("A", "n"), ("A", "n"), ("B", "s"), ("C", "s"))
NUMBER_FIELDS = (("x", "I"), ("flag", "Z"), ("small", "B"))
TYPES = ("B", "C", "I", "java/lang/Runnable", "[I")
THROWN = ("E", "java/lang/RuntimeException", "java/lang/Error", "java/lang/IllegalStateException")

# Instructions that leave one int of three.
MOVES = (
    ("pop", "pop"),
    ("pop2",),
    ("swap", "pop", "pop"),
    ("dup", "pop2", "pop"),
    ("dup_x1", "pop2", "pop"),
    ("dup_x2", "pop", "pop2"),
    ("dup2", "isub", "pop2", "pop"),
    ("dup2_x1", "pop2", "pop2"),
    ("dup_x2", "dup2_x2", "pop2", "pop2", "pop"),
)

# Arrays of narrow types, by the code of `newarray`, the store and the load.
NARROW = (
    (4, "bastore", "baload"),
    (5, "castore", "caload"),
    (8, "bastore", "baload"),
    (9, "sastore", "saload"),
)

Statement = Callable[[Body], None]


# ---- ints


def compute(body: Body) -> None:
    body.load_int()
    body.push_int()
    body.add(body.chance.choice(OPERATIONS))
    body.store_int()


def change(body: Body) -> None:
    body.load_int()
    body.add(body.chance.choice(CHANGES))
    body.store_int()


def increment(body: Body) -> None:
    body.add_with("iinc", body.chance.choice(INTS), body.chance.randrange(256))


def print_int(body: Body) -> None:
    body.field("getstatic", "java/lang/System", "out", "Ljava/io/PrintStream;")
    body.push_int()
    body.method("invokevirtual", "java/io/PrintStream", "println", "(I)V")


def add_to_static(body: Body) -> None:
    owner, name = body.chance.choice(STATICS)
    body.field("getstatic", owner, name, "I")
    body.push_int()
    body.add("iadd")
    body.field("putstatic", owner, name, "I")


def shuffle(body: Body) -> None:
    for _ in range(3):
        body.push_int()
    body.add(*body.chance.choice(MOVES))
    body.store_int()


def switch(body: Body) -> None:
    """A switch of two cases, the first of which may fall through."""
    body.load_int()
    at = body.here()
    is_table, falls = body.chance.choice((True, False)), body.chance.choice((True, False))
    body.add("tableswitch" if is_table else "lookupswitch", *["nop"] * (3 - at % 4))
    first = body.here() - at + (20 if is_table else 24)
    second = first + (3 if falls else 6)
    last = second + 3
    words = [last, 0, 1, first, second] if is_table else [last, 2, 1, first, 5, second]
    body.code += struct.pack(f">{len(words)}I", *words)
    increment(body)
    if falls:
        increment(body)
    else:
        past = body.jump("goto")
        increment(body)
        body.land(past)


def call_static(body: Body) -> None:
    if body.is_one_in(2):
        body.load_int()
        body.method("invokestatic", "A", "f", "(I)I")
    else:
        body.load(A_BOX)
        body.push_int()
        body.method("invokestatic", "A", "g", "(LB;I)I")
    body.store_int()


def leave_or_throw(body: Body) -> None:
    past = body.condition()
    if body.is_one_in(4):
        body.leave()
    else:
        body.push_new(body.chance.choice(THROWN))
        body.add("athrow")
    body.land(past)


# ---- objects


def set_box(body: Body) -> None:
    body.push_box()
    body.store(A_BOX)


def set_object(body: Body) -> None:
    body.push_object()
    body.store(AN_OBJECT)


def set_first_box(body: Body) -> None:
    """Sets a box, with no null where there is a B that threads share."""
    kind = body.chance.randrange(4)
    if kind < 2:
        body.push_new("B" if kind == 0 else "C")
    else:
        body.push_static("box", "LB;")
    body.store(A_BOX)


def get_number(body: Body) -> None:
    name, descriptor = body.chance.choice(NUMBER_FIELDS)
    body.load(A_BOX)
    body.field("getfield", "B", name, descriptor)
    body.store_int()


def put_number(body: Body) -> None:
    name, descriptor = body.chance.choice(NUMBER_FIELDS)
    body.load(A_BOX)
    body.push_int()
    body.field("putfield", "B", name, descriptor)


def put_next(body: Body) -> None:
    body.load(A_BOX)
    body.push_box()
    body.field("putfield", "B", "next", "LB;")


def get_next(body: Body) -> None:
    body.load(A_BOX)
    body.field("getfield", "B", "next", "LB;")
    body.store(A_BOX)


def test_type(body: Body) -> None:
    body.push_object()
    body.of_class("instanceof", body.chance.choice(TYPES))
    body.store_int()


def cast(body: Body) -> None:
    is_box = body.is_one_in(2)
    body.load(A_BOX if is_box else AN_OBJECT)
    body.of_class("checkcast", "C" if is_box else "B")
    body.store(A_BOX)


def call_virtual(body: Body) -> None:
    body.load(A_BOX)
    kind = body.chance.randrange(3)
    if kind == 2:
        body.push_int()
        body.method("invokevirtual", "B", "put", "(I)V")
        return
    if kind == 0:
        body.method("invokevirtual", "B", "get", "()I")
    else:
        body.interface_method("I", "get", "()I")
    body.store_int()


def share(body: Body) -> None:
    """Writes a static field that other threads read."""
    kind = body.chance.randrange(3)
    if kind == 0:
        body.load(A_BOX)
        body.store_static("box", "LB;")
    elif kind == 1:
        body.load(AN_ARRAY)
        body.store_static("ints", "[I")
    else:
        body.push_object()
        body.store_static("lock", f"L{OBJECT};")


# ---- arrays


def set_array(body: Body) -> None:
    kind = body.chance.randrange(4)
    if kind == 0:
        body.add("aconst_null")
    elif kind == 1:
        body.push_static("ints", "[I")
    else:
        body.number(body.chance.randrange(-1, 7))
        body.add_with("newarray", INT_ARRAY)
    body.store(AN_ARRAY)


def push_place(body: Body) -> None:
    """Pushes the array and an index."""
    body.load(AN_ARRAY)
    body.number(body.chance.randrange(-1, 5))


def load_element(body: Body) -> None:
    push_place(body)
    body.add("iaload")
    body.store_int()


def store_element(body: Body) -> None:
    push_place(body)
    body.push_int()
    body.add("iastore")


def length(body: Body) -> None:
    body.load(AN_ARRAY)
    body.add("arraylength")
    body.store_int()


def narrow(body: Body) -> None:
    """Stores into a new array of a narrow type, and loads again."""
    kind, store, load = body.chance.choice(NARROW)
    body.number(2)
    body.add_with("newarray", kind)
    body.add("dup")
    body.number(1)
    body.push_int()
    body.add(store)
    body.number(1)
    body.add(load)
    body.store_int()


def references(body: Body) -> None:
    """Stores a reference into a new array, and loads again."""
    owner = body.chance.choice(("B", "C"))
    body.number(2)
    body.of_class("anewarray", owner)
    body.add("dup")
    body.number(body.chance.randrange(3))
    body.push_box()
    body.add("aastore")
    body.number(0)
    body.add("aaload")
    if body.is_one_in(2):
        body.store(A_BOX)
    else:
        body.add("pop")


# ---- threads


def call_object(body: Body, name: str) -> None:
    body.load(AN_OBJECT)
    body.method("invokevirtual", OBJECT, name, "()V")


def wait(body: Body) -> None:
    """A wait, mostly by a thread that owns the monitor."""
    if body.is_one_in(4):
        call_object(body, "wait")
        return
    body.load(AN_OBJECT)
    body.add("monitorenter")
    call_object(body, "wait")
    body.load(AN_OBJECT)
    body.add("monitorexit")


def enter_or_exit(body: Body) -> None:
    body.load(AN_OBJECT)
    body.add(body.chance.choice(("monitorenter", "monitorexit")))


def call_thread(body: Body, name: str) -> None:
    body.load(A_THREAD)
    body.method("invokevirtual", "T", name, "()V")


def start(body: Body) -> None:
    """Starts a new T."""
    body.push_new("T")
    body.add("dup")
    body.store(A_THREAD)
    if body.is_one_in(2):
        body.add("dup")
        body.store_static("last", "LT;")
    body.method("invokevirtual", THREAD, "start", "()V")


def start_runnable(body: Body) -> None:
    """Starts a new Thread with a Runnable."""
    body.of_class("new", THREAD)
    body.add("dup")
    body.push_new("C")
    body.method("invokespecial", THREAD, "<init>", "(Ljava/lang/Runnable;)V")
    body.method("invokevirtual", THREAD, "start", "()V")


def ask_thread(body: Body) -> None:
    name = body.chance.choice(("isInterrupted", "isAlive"))
    body.load(A_THREAD)
    body.method("invokevirtual", THREAD, name, "()Z")
    body.store_int()


def ask_interrupted(body: Body) -> None:
    body.method("invokestatic", THREAD, "interrupted", "()Z")
    body.store_int()


def current_thread(body: Body) -> None:
    body.method("invokestatic", THREAD, "currentThread", f"()L{THREAD};")
    if body.is_one_in(2):
        body.method("invokevirtual", THREAD, "interrupt", "()V")
    else:
        body.store(AN_OBJECT)


def set_thread(body: Body) -> None:
    if body.is_one_in(8):
        body.add("aconst_null")
    else:
        body.push_static("last", "LT;")
    body.store(A_THREAD)


def give_way(body: Body) -> None:
    body.method("invokestatic", THREAD, "yield", "()V")


def one_of(statements: Sequence[Statement], body: Body) -> None:
    body.chance.choice(statements)(body)


OF_OBJECTS: Sequence[Statement] = (
    *(get_number, put_number, put_next, get_next, set_object),
    *(set_box, test_type, cast, call_virtual, share),
)

OF_ARRAYS: Sequence[Statement] = (set_array, load_element, store_element, length, narrow, references)

OF_THREADS: Sequence[Statement] = (
    wait,
    *(functools.partial(call_object, name=name) for name in ("notify", "notifyAll")),
    *(start, start_runnable),
    *(functools.partial(call_thread, name=name) for name in ("start", "join", "interrupt")),
    *(ask_thread, ask_interrupted, current_thread, set_thread, enter_or_exit, give_way),
)

STATEMENTS: Sequence[Statement] = (
    *(compute, compute, change, increment, print_int, add_to_static, shuffle, switch, call_static),
    *[functools.partial(one_of, OF_OBJECTS)] * 3,
    functools.partial(one_of, OF_ARRAYS),
    leave_or_throw,
    *[functools.partial(one_of, OF_THREADS)] * 2,
)


def statement(body: Body) -> None:
    one_of(STATEMENTS, body)
