"""What the class files of the library declare for programs: their public classes, constructors, methods and fields."""

import pathlib
from typing import Iterator, List, NamedTuple, Tuple

from tools.library_classes import CLASSES, ENTRIES, Reader

# Access flags (JVMS tables 4.1-A, 4.5-A and 4.6-A).
PUBLIC, BRIDGE, SYNTHETIC = 0x0001, 0x0040, 0x1000

# Public classes that no JDK has.
OWN = ("java/util/concurrent/locks/Waiter", "java/util/concurrent/locks/WaiterQueue")


class Member(NamedTuple):
    """A field or a method, by its access flags, name and descriptor."""

    is_field: bool
    flags: int
    name: str
    descriptor: str


class Declared:
    """A class file: its class with its access flags, what it is below, and its members in the order of the file."""

    def __init__(self, data: bytes) -> None:
        self.reader = Reader(data)
        self.reader.taken(8)
        self.pool = dict(self.read_pool())
        self.flags = self.reader.u2()
        self.name, self.above = self.class_name(), self.class_name()
        self.interfaces = [self.class_name() for _ in range(self.reader.u2())]
        self.members: List[Member] = []
        for is_field in (True, False):
            for _ in range(self.reader.u2()):
                self.members.append(self.member(is_field))

    def read_pool(self) -> Iterator[Tuple[int, bytes]]:
        count, at = self.reader.u2(), 1
        while at < count:
            tag = self.reader.u1()
            length = self.reader.u2() if tag == 1 else ENTRIES[tag]
            yield at, self.reader.taken(length)
            at += 2 if tag in (5, 6) else 1

    def text(self, at: int) -> str:
        return self.pool[at].decode("utf-8", "surrogatepass")

    def class_name(self) -> str:
        at = self.reader.u2()
        return self.text(int.from_bytes(self.pool[at], "big")) if at else ""

    def member(self, is_field: bool) -> Member:
        flags, name, descriptor = self.reader.u2(), self.text(self.reader.u2()), self.text(self.reader.u2())
        for _ in range(self.reader.u2()):
            self.reader.taken(2)
            self.reader.taken(self.reader.u4())
        return Member(is_field, flags, name, descriptor)

    def public_members(self) -> List[Member]:
        """Those that programs may name; a bridge stands for the method that javac made it of."""
        return [one for one in self.members if one.flags & PUBLIC and not one.flags & (BRIDGE | SYNTHETIC)]


def declared(classes: pathlib.Path = CLASSES) -> List[Declared]:
    """The public classes of the library that a JDK has, too, by their names."""
    found = [Declared(path.read_bytes()) for path in sorted(classes.rglob("*.class"))]
    return sorted((one for one in found if one.flags & PUBLIC and one.name not in OWN), key=lambda one: one.name)


def names(classes: pathlib.Path = CLASSES) -> List[str]:
    """The names of all classes of the library."""
    return [path.relative_to(classes).as_posix()[: -len(".class")] for path in classes.rglob("*.class")]
