"""The classes of the machine: those of class files, read without a doubt of their bytes, and the built-in ones."""

from __future__ import annotations

import copy
import functools
import struct
from typing import TYPE_CHECKING, Any, Dict, List, Optional, Sequence, Tuple

from tools.repository import built_in_file, built_in_names

if TYPE_CHECKING:
    from oracle.state import JavaThread, Object, Value

# An entry of a constant pool: its tag and what stands behind it; and one that code names: its sort and what it names.
Pool = Dict[int, Tuple[int, Any]]
Resolved = Dict[int, Tuple[str, Any]]

# Flags, name, descriptor, and the value of a ConstantValue.
Field = Tuple[int, str, str, Optional[Any]]

PUBLIC, PRIVATE, STATIC, FINAL, SYNCHRONIZED, VOLATILE = 1, 2, 8, 0x10, 0x20, 0x40
NATIVE, INTERFACE, ABSTRACT = 0x100, 0x200, 0x400


def narrowed(descriptor: str, value: int) -> int:
    """What a field or an element of this type keeps of a value."""
    if descriptor == "Z":
        return value & 1
    if descriptor == "C":
        return value & 0xFFFF
    if descriptor in "BS":
        bits = 8 if descriptor == "B" else 16
        return (value + (1 << bits - 1) & (1 << bits) - 1) - (1 << bits - 1)
    return value


def parameters(descriptor: str) -> int:
    """How many parameters a method's descriptor has."""
    at, found = 1, 0
    while descriptor[at] != ")":
        while descriptor[at] == "[":
            at += 1
        at = descriptor.index(";", at) + 1 if descriptor[at] == "L" else at + 1
        found += 1
    return found


class Method:
    """A method of a class: `code` is None where it has none."""

    def __init__(self, owner: Class, flags: int, name: str, descriptor: str) -> None:
        self.owner, self.flags, self.name, self.descriptor = owner, flags, name, descriptor
        self.code: Optional[bytes] = None
        self.handlers: List[Tuple[int, ...]] = []
        self.local_count = 0
        self.parameter_count = parameters(descriptor)

    def has(self, flag: int) -> bool:
        return self.flags & flag != 0


class Class:
    """A class: fields are (flags, name, descriptor, constant), methods lie under (name, descriptor)."""

    # Its Class object, which the machine makes.
    object: Object

    def __init__(
        self, name: str, superclass: Optional[str], interfaces: Sequence[str] = (), flags: int = PUBLIC
    ) -> None:
        self.name, self.superclass, self.interfaces, self.flags = name, superclass, list(interfaces), flags
        self.pool: Resolved = {}
        self.fields: List[Field] = []
        self.methods: Dict[Tuple[str, str], Method] = {}
        self.state = "none"
        self.by: Optional[JavaThread] = None
        self.statics: Dict[str, Value] = {}

    def add(self, name: str, descriptor: str, flags: int = PUBLIC) -> Method:
        method = self.methods[name, descriptor] = Method(self, flags, name, descriptor)
        return method


class Reader:
    """Numbers of class files, one after another."""

    def __init__(self, data: bytes) -> None:
        self.data, self.at = data, 0

    def number(self, size: int) -> int:
        self.at += size
        return int.from_bytes(self.data[self.at - size : self.at], "big")

    def take(self, size: int) -> bytes:
        self.at += size
        return self.data[self.at - size : self.at]


def read_pool(reader: Reader) -> Pool:
    """Entries as (tag, what stands behind it)."""
    pool: Pool = {}
    count, index = reader.number(2), 1
    while index < count:
        tag = reader.number(1)
        if tag == 1:
            pool[index] = tag, reader.take(reader.number(2)).decode("latin-1")
        elif tag in (3, 4):
            pool[index] = tag, struct.unpack(">i", reader.take(4))[0]
        elif tag in (5, 6):
            pool[index] = tag, reader.take(8)
            index += 1
        elif tag in (7, 8):
            pool[index] = tag, reader.number(2)
        else:
            pool[index] = tag, (reader.number(2), reader.number(2))
        index += 1
    return pool


def resolved_pool(pool: Pool) -> Resolved:
    """The entries that code names: ints, class names, texts, and members as (class, name, descriptor)."""

    def text(index: int) -> str:
        return pool[index][1]

    found = {}
    for index, (tag, value) in pool.items():
        if tag == 3:
            found[index] = "int", value
        elif tag in (7, 8):
            found[index] = "class" if tag == 7 else "string", text(value)
        elif tag in (9, 10, 11):
            name, descriptor = pool[value[1]][1]
            found[index] = "member", (text(pool[value[0]][1]), text(name), text(descriptor))
    return found


class ClassReader(Reader):
    """Reads a class file, whose constant pool comes first."""

    def __init__(self, data: bytes) -> None:
        super().__init__(data)
        self.take(8)
        self.pool = read_pool(self)

    def text(self) -> str:
        text: str = self.pool[self.number(2)][1]
        return text

    def class_name(self) -> str:
        name: str = self.pool[self.pool[self.number(2)][1]][1]
        return name

    def superclass_name(self) -> Optional[str]:
        """None where no class is named, as in Object."""
        index = self.number(2)
        return self.pool[self.pool[index][1]][1] if index else None

    def attributes(self) -> List[Tuple[str, bytes]]:
        return [(self.text(), self.take(self.number(4))) for _ in range(self.number(2))]

    def member(self) -> Tuple[int, str, str, List[Tuple[str, bytes]]]:
        """The flags, name, descriptor and attributes of a field or a method."""
        return self.number(2), self.text(), self.text(), self.attributes()


def read_code(data: bytes, method: Method) -> None:
    reader = Reader(data)
    reader.number(2)
    method.local_count = reader.number(2)
    method.code = reader.take(reader.number(4))
    method.handlers = [tuple(reader.number(2) for _ in range(4)) for _ in range(reader.number(2))]


@functools.lru_cache(maxsize=None)
def first_read(data: bytes) -> Class:
    """The class that the bytes of a class file spell, as it is before any run."""
    reader = ClassReader(data)
    flags = reader.number(2)
    name, superclass = reader.class_name(), reader.superclass_name()
    found = Class(name, superclass, [reader.class_name() for _ in range(reader.number(2))], flags)
    found.pool = resolved_pool(reader.pool)
    for _ in range(reader.number(2)):
        flags, name, descriptor, attributes = reader.member()
        constants = [int.from_bytes(told, "big") for attribute, told in attributes if attribute == "ConstantValue"]
        constant = reader.pool[constants[-1]][1] if constants and flags & STATIC else None
        found.fields.append((flags, name, descriptor, constant))
    for _ in range(reader.number(2)):
        flags, name, descriptor, attributes = reader.member()
        method = found.add(name, descriptor, flags)
        for attribute, told in attributes:
            if attribute == "Code":
                read_code(told, method)
    return found


def read_class(data: bytes) -> Class:
    """The class that the bytes of a class file spell, for one run."""
    found = copy.copy(first_read(data))
    found.statics = {}
    found.methods = {key: copy.copy(method) for key, method in found.methods.items()}
    for method in found.methods.values():
        method.owner = found
    return found


@functools.lru_cache(maxsize=None)
def built_in_files() -> List[bytes]:
    return [built_in_file(name).read_bytes() for name in built_in_names()]


def built_in_classes() -> List[Class]:
    """The classes that the machine brings along, all of them initialised, by their class files."""
    found = [read_class(data) for data in built_in_files()]
    for known in found:
        known.state = "initialised"
    return found
