"""Classes and the code of methods, which grow, up to the bytes of their class files."""

from typing import List, Optional

from oracle.opcodes import MNEMONICS
from tools.class_files import Handler, Pool, class_file, code_attribute, member, u2

OBJECT = "java/lang/Object"

PUBLIC_CLASS, INTERFACE = 0x0021, 0x0601

OPCODES = {name: opcode for opcode, name in enumerate(MNEMONICS)}


class Code:
    """The code of a method, which grows, and its exception table."""

    def __init__(self, *opcodes: int) -> None:
        self.code = bytearray(opcodes)
        self.handlers: List[Handler] = []

    def here(self) -> int:
        """The offset of the next instruction."""
        return len(self.code)

    def ops(self, *opcodes: int) -> None:
        """Instructions without operands."""
        self.code += bytes(opcodes)

    def op_short(self, opcode: int, operand: int) -> None:
        """An instruction with an operand of two bytes."""
        self.code += bytes([opcode]) + u2(operand)

    def add(self, *names: str) -> None:
        """Instructions without operands, by their mnemonics."""
        self.ops(*[OPCODES[name] for name in names])

    def add_with(self, name: str, *operands: int) -> None:
        """An instruction with operands of a byte each, which may have a sign."""
        self.code += bytes([OPCODES[name], *[operand & 0xFF for operand in operands]])

    def number(self, number: int) -> None:
        """An instruction that pushes a number of 16 bits."""
        if -128 <= number < 128:
            self.add_with("bipush", number)
        else:
            self.add_with("sipush", number >> 8, number)

    def jump(self, name: str) -> int:
        """A jump to a target that is still to come, by its offset."""
        at = self.here()
        self.op_short(OPCODES[name], 0)
        return at

    def land(self, jump: int) -> None:
        """The jump at this offset leads here."""
        self.code[jump + 1 : jump + 3] = u2(self.here() - jump)

    def jump_back(self, name: str, target: int) -> None:
        """A jump to an offset before it."""
        self.op_short(OPCODES[name], (target - self.here()) & 0xFFFF)


class GrowingClass:
    """A class or an interface, which grows. Members stand in the order in which they are added."""

    def __init__(self, name: str, above: str = OBJECT, flags: int = PUBLIC_CLASS) -> None:
        self.pool, self.flags = Pool(), flags
        self.classes = (self.pool.class_of(name), self.pool.class_of(above))
        self.interfaces: List[int] = []
        self.fields: List[bytes] = []
        self.methods: List[bytes] = []

    def stands_on(self, *names: str) -> None:
        """Adds direct superinterfaces."""
        self.interfaces += [self.pool.class_of(name) for name in names]

    def field(self, flags: int, name: str, descriptor: str) -> None:
        self.fields.append(member(flags, self.pool.text(name), self.pool.text(descriptor)))

    def method(
        self, flags: int, name: str, descriptor: str, body: Optional[Code] = None, stack: int = 0, local_count: int = 1
    ) -> None:
        code = []
        if body:
            named = self.pool.text("Code")
            code = [code_attribute(named, stack, local_count, bytes(body.code), body.handlers)]
        self.methods.append(member(flags, self.pool.text(name), self.pool.text(descriptor), code))

    def data(self) -> bytes:
        return class_file(
            self.pool.entries, self.flags, self.classes, self.fields, self.methods, self.interfaces
        )
