"""The bodies of methods that are made by chance, over the classes of tools/random_programs.py."""

import random
from typing import Callable, List

from tools.class_files import FIELDREF, INTERFACE_METHODREF, METHODREF, Pool
from tools.growing_classes import OBJECT, OPCODES, Code

# The local variables: three ints, an Object, an array of ints, a B, a T, one that handlers use, and those that count
# loops, one for each block that may be open.
INTS = (1, 2, 3)
AN_OBJECT, AN_ARRAY, A_BOX, A_THREAD, CAUGHT, COUNTERS = 4, 5, 6, 7, 8, 9

COMPARISONS = ("eq", "ne", "lt", "ge", "gt", "le")


class Body(Code):
    """The code of a method, with the constants that it names."""

    def __init__(self, pool: Pool, chance: random.Random, returns_int: bool = False) -> None:
        super().__init__()
        self.pool, self.chance, self.returns_int = pool, chance, returns_int
        # What closes each block that is open.
        self.open: List[Callable[[], None]] = []

    def is_one_in(self, number: int) -> bool:
        return self.chance.randrange(number) == 0

    def any_number(self) -> int:
        """A number of 16 bits, mostly a small one."""
        if self.is_one_in(8):
            return self.chance.randrange(-(1 << 15), 1 << 15)
        return self.chance.randrange(-3, 7)

    def load_int(self) -> None:
        self.add_with("iload", self.chance.choice(INTS))

    def store_int(self) -> None:
        self.add_with("istore", self.chance.choice(INTS))

    def push_int(self) -> None:
        """Pushes a local variable, or a number."""
        if self.is_one_in(3):
            self.number(self.any_number())
        else:
            self.load_int()

    def load(self, local: int) -> None:
        self.add_with("aload", local)

    def store(self, local: int) -> None:
        self.add_with("astore", local)

    def field(self, name: str, owner: str, field: str, descriptor: str) -> None:
        """An instruction that names a field."""
        self.op_short(OPCODES[name], self.pool.member(FIELDREF, owner, field, descriptor))

    def method(self, name: str, owner: str, method: str, descriptor: str) -> None:
        """An instruction that names a method of a class."""
        self.op_short(OPCODES[name], self.pool.member(METHODREF, owner, method, descriptor))

    def interface_method(self, owner: str, method: str, descriptor: str) -> None:
        """A call of a method of an interface without parameters."""
        index = self.pool.member(INTERFACE_METHODREF, owner, method, descriptor)
        self.op_short(OPCODES["invokeinterface"], index)
        self.ops(1, 0)

    def of_class(self, name: str, owner: str) -> None:
        """An instruction that names a class."""
        self.op_short(OPCODES[name], self.pool.class_of(owner))

    def push_new(self, owner: str) -> None:
        """Pushes a new object, by its constructor without parameters."""
        self.of_class("new", owner)
        self.add("dup")
        self.method("invokespecial", owner, "<init>", "()V")

    def push_static(self, name: str, descriptor: str) -> None:
        self.field("getstatic", "A", name, descriptor)

    def store_static(self, name: str, descriptor: str) -> None:
        self.field("putstatic", "A", name, descriptor)

    def push_box(self) -> None:
        """Pushes a B, or null."""
        kind = self.chance.randrange(6)
        if kind == 0:
            self.add("aconst_null")
        elif kind < 3:
            self.push_new("B" if kind == 1 else "C")
        elif kind == 3:
            self.load(A_BOX)
        else:
            self.push_static("box", "LB;")

    def push_object(self) -> None:
        """Pushes an Object, or null."""
        kind = self.chance.randrange(9)
        if kind == 0:
            self.push_new(OBJECT)
        elif kind < 4:
            self.load((A_BOX, A_THREAD, AN_ARRAY)[kind - 1])
        elif kind == 4:
            self.of_class("ldc_w", "A")
        elif kind == 5:
            self.op_short(OPCODES["ldc_w"], self.pool.string("text"))
        elif kind == 6:
            self.add("aconst_null")
        else:
            self.push_static("lock", f"L{OBJECT};")

    def leave(self) -> None:
        """A return from the method."""
        if self.returns_int:
            self.load_int()
        self.add("ireturn" if self.returns_int else "return")

    def condition(self) -> int:
        """A jump that is taken by chance."""
        kind = self.chance.randrange(5)
        if kind == 0:
            self.load(self.chance.choice((AN_OBJECT, A_BOX, A_THREAD)))
            return self.jump(self.chance.choice(("ifnull", "ifnonnull")))
        if kind == 1:
            self.load(AN_OBJECT)
            self.load(A_BOX)
            return self.jump(self.chance.choice(("if_acmpeq", "if_acmpne")))
        self.load_int()
        if kind == 2:
            self.push_int()
        return self.jump(("if_icmp" if kind == 2 else "if") + self.chance.choice(COMPARISONS))
