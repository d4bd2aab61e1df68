"""Which classes of the library a set of class files needs."""

import pathlib
import re
import struct
from typing import Dict, Iterable, Iterator, List, Set, Tuple

from tools.repository import ROOT, built_in_names

CLASSES = ROOT / "library/classes"

# How many bytes of operands stand behind an opcode, where that isn't 0.
OPERANDS = {
    **dict.fromkeys([16, 18, 188, *range(21, 26), *range(54, 59), 169], 1),
    **dict.fromkeys([17, 19, 20, 132, *range(153, 169), *range(178, 185), 187, 189, 192, 193, 198, 199], 2),
    **dict.fromkeys([197], 3),
    **dict.fromkeys([185, 186, 200, 201], 4),
}

# Their operand names an entry of the pool, of one byte or of two.
NAMING_BY_BYTE = (18,)
NAMING = (19, *range(178, 186), 187, 189, 192, 193)

TABLESWITCH, LOOKUPSWITCH, WIDE, IINC = 170, 171, 196, 132

# How long the entries of a constant pool are behind their tags, texts aside.
ENTRIES = {3: 4, 4: 4, 5: 8, 6: 8, 7: 2, 8: 2, 9: 4, 10: 4, 11: 4, 12: 4, 15: 3, 16: 2, 17: 4, 18: 4}


def classes_of(descriptor: str) -> List[str]:
    """The classes in a descriptor, or in the name of an array class."""
    return re.findall(r"L([^;]*);", descriptor)


class Reader:
    """Bytes that are read one after another."""

    def __init__(self, data: bytes) -> None:
        self.data, self.at = data, 0

    def u1(self) -> int:
        return self.taken(1)[0]

    def u2(self) -> int:
        return int(struct.unpack(">H", self.taken(2))[0])

    def u4(self) -> int:
        return int(struct.unpack(">I", self.taken(4))[0])

    def taken(self, length: int) -> bytes:
        self.at += length
        return self.data[self.at - length : self.at]


class Needs:
    """A class file: its class, and those that linking looks up for it.

    These are its superclass and its interfaces, the classes in the descriptors of what it declares, the catch types,
    and what the operands of its instructions name, with their descriptors. What else stands in the pool counts for
    nothing.
    """

    def __init__(self, data: bytes) -> None:
        self.reader = Reader(data)
        self.found: Set[str] = set()
        self.reader.taken(8)
        self.pool = self.read_pool()
        self.reader.u2()
        self.name = self.class_at(self.reader.u2())
        self.need(self.class_at(self.reader.u2()))
        for _ in range(self.reader.u2()):
            self.need(self.class_at(self.reader.u2()))
        for _ in range(2):
            for _ in range(self.reader.u2()):
                self.member()

    def read_pool(self) -> Dict[int, Tuple[int, bytes]]:
        pool, count, at = {}, self.reader.u2(), 1
        while at < count:
            tag = self.reader.u1()
            length = self.reader.u2() if tag == 1 else ENTRIES[tag]
            pool[at] = tag, self.reader.taken(length)
            at += 2 if tag in (5, 6) else 1
        return pool

    def indices(self, at: int) -> Tuple[int, ...]:
        data = self.pool[at][1]
        return struct.unpack(f">{len(data) // 2}H", data)

    def text(self, at: int) -> str:
        return self.pool[at][1].decode("utf-8", "surrogatepass")

    def class_at(self, at: int) -> str:
        return self.text(self.indices(at)[0]) if at else ""

    def need(self, name: str) -> None:
        self.found.update(classes_of(name) if name.startswith("[") else [name])

    def operand(self, at: int) -> None:
        tag = self.pool[at][0]
        if tag == 7:
            self.need(self.class_at(at))
        if tag in (9, 10, 11):
            owner, named = self.indices(at)
            self.need(self.class_at(owner))
            self.found.update(classes_of(self.text(self.indices(named)[1])))

    def member(self) -> None:
        self.reader.taken(4)
        self.found.update(classes_of(self.text(self.reader.u2())))
        for _ in range(self.reader.u2()):
            name, length = self.text(self.reader.u2()), self.reader.u4()
            data = self.reader.taken(length)
            if name == "Code":
                self.code(Reader(data))

    def code(self, reader: Reader) -> None:
        reader.taken(4)
        code = reader.taken(reader.u4())
        for index in named_in(code):
            self.operand(index)
        for _ in range(reader.u2()):
            reader.taken(6)
            caught = reader.u2()
            if caught:
                self.need(self.class_at(caught))


def named_in(code: bytes) -> Iterator[int]:
    """The entries of the pool that the instructions of a code name."""
    at = 0
    while at < len(code):
        opcode = code[at]
        if opcode in NAMING_BY_BYTE:
            yield code[at + 1]
        elif opcode in NAMING:
            yield int.from_bytes(code[at + 1 : at + 3], "big")
        at += length_at(code, at)


def length_at(code: bytes, at: int) -> int:
    """How long the instruction at an offset is."""
    opcode = code[at]
    if opcode in (TABLESWITCH, LOOKUPSWITCH):
        operands = at + 4 - at % 4
        first, second = (int.from_bytes(code[operands + by : operands + by + 4], "big", signed=True) for by in (4, 8))
        entries = 3 + second - first + 1 if opcode == TABLESWITCH else 2 + 2 * first
        return operands - at + 4 * entries
    if opcode == WIDE:
        return 6 if code[at + 1] == IINC else 4
    return 1 + OPERANDS.get(opcode, 0)


def needed(given: Iterable[bytes], classes: pathlib.Path = CLASSES) -> List[pathlib.Path]:
    """The class files of the library that class files need which are given, by the bytes of their names."""
    all_given = [Needs(data) for data in given]
    own = {one.name for one in all_given}
    added: Dict[str, pathlib.Path] = {}
    left = [name for one in all_given for name in one.found]
    while left:
        name = left.pop()
        path = classes / (name + ".class")
        if name and name not in own and name not in added and path.is_file():
            added[name] = path
            left += Needs(path.read_bytes()).found
    return [added[name] for name in sorted(added, key=lambda one: one.encode("utf-8"))]


def unmet(classes: pathlib.Path = CLASSES) -> List[str]:
    """What is wrong with the class files of a library: other names than their files have, and needs that nobody meets."""
    found = []
    for path in sorted(classes.rglob("*.class")):
        name, needs = path.relative_to(classes).as_posix()[: -len(".class")], Needs(path.read_bytes())
        if needs.name != name:
            found.append(f"classes/{name}.class has the class {needs.name}")
        absent = {one for one in needs.found if one and not (classes / (one + ".class")).is_file()} - {*built_in_names()}
        found += [f"classes/{name}.class needs {one}, which isn't there" for one in sorted(absent)]
    return found
