"""The bytes of class files of version 49.0, part by part."""

import struct
from typing import Dict, Iterable, List, Sequence, Tuple

VERSION_49_0 = b"\0\0\0\x31"
MAGIC_AND_VERSION = b"\xca\xfe\xba\xbe" + VERSION_49_0

# Where the version stands.
VERSION_AT = 4

# The entries of `entries_with` end here; what is added to them has the indices behind it.
LAST_ENTRY = 19

FIELDREF, METHODREF, INTERFACE_METHODREF, NAME_AND_TYPE = 9, 10, 11, 12

# From, to, the handler, and the class that it catches or 0.
Handler = Tuple[int, int, int, int]


def u2(number: int) -> bytes:
    return struct.pack(">H", number)


def u4(number: int) -> bytes:
    return struct.pack(">I", number)


def stored_utf8(data: bytes) -> bytes:
    return b"\x01" + u2(len(data)) + data


def utf8(text: str) -> bytes:
    return stored_utf8(text.encode("ascii"))


def integer(number: int) -> bytes:
    return b"\x03" + struct.pack(">i", number)


def class_entry(name: int) -> bytes:
    return b"\x07" + u2(name)


def string_entry(text: int) -> bytes:
    return b"\x08" + u2(text)


def pair(tag: int, first: int, second: int) -> bytes:
    return bytes([tag]) + u2(first) + u2(second)


def counted(parts: Sequence[bytes]) -> bytes:
    """Parts behind their count."""
    return u2(len(parts)) + b"".join(parts)


def attribute(name: int, data: bytes) -> bytes:
    return u2(name) + u4(len(data)) + data


def member(flags: int, name: int, descriptor: int, attributes: Sequence[bytes] = ()) -> bytes:
    """A field or a method."""
    return u2(flags) + u2(name) + u2(descriptor) + counted(attributes)


def code_attribute(
    name: int,
    stack: int,
    local_count: int,
    code: bytes,
    handlers: Sequence[Handler] = (),
    attributes: Sequence[bytes] = (),
) -> bytes:
    table = counted([b"".join(map(u2, handler)) for handler in handlers])
    return attribute(name, u2(stack) + u2(local_count) + u4(len(code)) + code + table + counted(attributes))


def class_file(
    entries: Sequence[bytes],
    flags: int,
    classes: Tuple[int, int],
    fields: Sequence[bytes] = (),
    methods: Sequence[bytes] = (),
    interfaces: Sequence[int] = (),
    attributes: Sequence[bytes] = (),
) -> bytes:
    """A class file of these entries, whose classes are this class and its superclass."""
    pool = u2(len(entries) + 1) + b"".join(entries)
    head = MAGIC_AND_VERSION + pool + u2(flags) + u2(classes[0]) + u2(classes[1])
    members = counted([u2(one) for one in interfaces]) + counted(fields) + counted(methods)
    return head + members + counted(attributes)


def with_version_49(data: bytes) -> bytes:
    return data[:VERSION_AT] + VERSION_49_0 + data[VERSION_AT + len(VERSION_49_0) :]


class Pool:
    """A constant pool that has each entry once."""

    def __init__(self) -> None:
        self.entries: List[bytes] = []
        self.indices: Dict[bytes, int] = {}

    def entry(self, data: bytes) -> int:
        if data not in self.indices:
            self.entries.append(data)
            self.indices[data] = len(self.entries)
        return self.indices[data]

    def push(self, data: bytes) -> int:
        """The entry behind all others, also where an equal one is there."""
        self.entries.append(data)
        self.indices.setdefault(data, len(self.entries))
        return len(self.entries)

    def text(self, text: str) -> int:
        return self.entry(utf8(text))

    def class_of(self, name: str) -> int:
        return self.entry(class_entry(self.text(name)))

    def string(self, text: str) -> int:
        return self.entry(string_entry(self.text(text)))

    def member(self, tag: int, owner: str, name: str, descriptor: str) -> int:
        """The entry of a field or a method of a class."""
        owner_index = self.class_of(owner)
        described = self.entry(pair(NAME_AND_TYPE, self.text(name), self.text(descriptor)))
        return self.entry(pair(tag, owner_index, described))


def named_class(index: int, name: str) -> List[bytes]:
    """A Utf8 at an index, and the Class behind it that it names."""
    return [utf8(name), class_entry(index)]


def entries_with(method: str, descriptor: str) -> List[bytes]:
    """The entries 1 to 19 of a constant pool: the class A, a method's name and descriptor, System.out, println."""
    return [
        *named_class(1, "A"),
        *named_class(3, "java/lang/Object"),
        *map(utf8, (method, descriptor, "Code")),
        *named_class(8, "java/lang/System"),
        *map(utf8, ("out", "Ljava/io/PrintStream;")),
        pair(NAME_AND_TYPE, 10, 11),
        pair(FIELDREF, 9, 12),
        *named_class(14, "java/io/PrintStream"),
        *map(utf8, ("println", "(I)V")),
        pair(NAME_AND_TYPE, 16, 17),
        pair(METHODREF, 15, 18),
    ]


def class_with_main(code: bytes, stack: int = 2, local_count: int = 1, ints: Iterable[int] = ()) -> bytes:
    """The bytes of a class file whose class A has a static main of this code, and these ints in its pool."""
    entries = [*entries_with("main", "([Ljava/lang/String;)V"), *map(integer, ints)]
    main = member(0x0009, 5, 6, [code_attribute(7, stack, local_count, code)])
    return class_file(entries, 0x0020, (2, 4), methods=[main])
