"""Class files of version 49.0 with a method made by chance, of which some are changed."""

import random
from typing import List, Sequence, Tuple

from compare.made_methods import EXCEPTIONS, INT, Instruction, Maker
from tools.class_files import METHODREF, Handler, Pool, code_attribute, member, u2
from tools.class_files import class_file as file_of

# What an instruction without operands may become.
SIMPLE = bytes.fromhex("00 01 03 57 59 5f 60 2a 2b 2c 1a 1b 4c 3c 4d be bf 32 2e b1 b0 ac c2")
NEAR = {0x1A: 0x2A, 0x2A: 0x1A, 0x3B: 0x4B, 0x4B: 0x3B}
PUT_IN = bytes.fromhex("01 03 57 59 2a 4b 2b 1b 5f")


def move_targets(code: List[Instruction], at: int, by: int) -> None:
    """Moves the jumps to what stands behind a place."""
    for other in code:
        if other.target is not None and other.target > at:
            other.target += by


def mutate(rng: random.Random, maker: Maker) -> None:
    """Changes something."""
    code = maker.code
    at = rng.randrange(len(code))
    one = code[at]
    form = rng.randrange(8)
    if form == 0:
        del code[at]
        move_targets(code, at, -1)
    elif form == 1:
        same = [i for i in code if i.length() == one.length() and (i.target is None) == (one.target is None)]
        other = rng.choice(same)
        code[at] = Instruction(other.opcode, other.operand, other.target)
    elif form == 2 and one.target is not None:
        one.target = rng.randrange(len(code))
    elif form == 3 and len(one.operand) == 1:
        one.operand = bytes([rng.randrange(12)])
    elif form == 4 and at + 1 < len(code):
        code[at], code[at + 1] = code[at + 1], code[at]
    elif form == 5 and maker.handlers:
        mutate_handler(rng, maker, at)
    elif form == 6:
        short = one.opcode - one.opcode % 4 + 2 if one.opcode in range(0x1A, 0x1E) else None
        if len(one.operand) == 0 and one.target is None:
            one.opcode = NEAR.get(one.opcode, rng.choice(SIMPLE)) if short is None else short
    else:
        code.insert(at, Instruction(rng.choice(PUT_IN)))
        move_targets(code, at, 1)


def mutate_handler(rng: random.Random, maker: Maker, at: int) -> None:
    """Changes what a handler covers, where it begins, or what it catches."""
    which = rng.randrange(len(maker.handlers))
    start, end, where, caught = maker.handlers[which]
    start = rng.randrange(end)
    end = rng.randrange(start + 1, len(maker.code))
    maker.handlers[which] = (start, end, rng.choice([where, at]), rng.choice([*EXCEPTIONS, caught]))


def assembled(maker: Maker) -> Tuple[bytes, List[Handler]]:
    """The bytes of the code, and its handlers."""
    offsets, at = [], 0
    for one in maker.code:
        offsets.append(at)
        at += one.length()
    code = b"".join(one.bytes(at, offsets) for at, one in zip(offsets, maker.code))
    table: List[Handler] = []
    for start, end, where, caught in maker.handlers:
        last = len(offsets) - 1
        start, end, where = offsets[min(start, last - 1)], offsets[min(end, last)], offsets[min(where, last)]
        if start < end:
            table.append((start, end, where, 0 if caught is None else maker.pool.class_of(caught)))
    return code, table


def descriptor_of(t: str) -> str:
    """A type as a descriptor."""
    return t if t[0] == "[" else "I" if t == INT else f"L{t};"


def class_file(rng: random.Random, number: int) -> bytes:
    """The bytes of a class file of one method made by chance, beside main and constructors."""
    name, pool = f"T{number}", Pool()
    kind = rng.choice(["static", "static", "instance", "constructor"])
    maker = Maker(rng, name, pool, kind)
    maker.method(rng.randrange(5, 45))
    for _ in range(rng.choice([0, 0, 0, 1, 1, 2])):
        mutate(rng, maker)
    code, table = assembled(maker)
    stack = max(0, maker.most + rng.choice([0, 0, 0, 0, 0, 0, 0, 1, -1]))
    parameters = maker.parameters[:4] if kind == "constructor" else maker.parameters
    result = "V" if maker.result is None else descriptor_of(maker.result)

    def method(
        head: Tuple[int, str, str], sizes: Tuple[int, int], code: bytes, table: Sequence[Handler] = ()
    ) -> bytes:
        head_indices = head[0], pool.text(head[1]), pool.text(head[2])
        return member(*head_indices, [code_attribute(pool.text("Code"), *sizes, code, table)])

    above = u2(pool.member(METHODREF, "B", "<init>", "()V"))
    described = f"({''.join(map(descriptor_of, parameters))}){result}"
    own = "<init>" if kind == "constructor" else "t"
    methods = [
        method((9, "main", "([Ljava/lang/String;)V"), (0, 1), b"\xb1"),
        method((1, "<init>", "()V"), (1, 1), b"\x2a\xb7" + above + b"\xb1"),
        method((9 if kind == "static" else 1, own, described), (stack, 12), code, table),
    ]
    fields = [("n", "I", 1), ("b", "LB;", 1), ("s", f"L{name};", 9), ("x", "I", 1)]
    members = [member(f, pool.text(n), pool.text(d)) for n, d, f in fields]
    classes = pool.class_of(name), pool.class_of("B")
    return file_of(pool.entries, 0x21, classes, members, methods)
