"""The class files of the built-in classes: read and written as the trees that the model has, and made of javac's.

A tree is a dictionary, as `tools/definitions.py` makes it of a `FileTree` of the model.
"""

from typing import Any, Dict, Iterator, List, NamedTuple, Optional, Tuple

from tools.class_files import MAGIC_AND_VERSION, attribute, class_entry, class_file, code_attribute, member
from tools.class_files import stored_utf8, u2, u4
from tools.library_classes import NAMING, NAMING_BY_BYTE, Reader, length_at

Tree = Dict[str, Any]
Entry = Tuple[Any, ...]

PRIVATE, NATIVE = 0x0002, 0x0100

# Of a member that Java says this of, what it is: public, private or protected.
ACCESS = 0x0007

# The entries of a constant pool that are read: their tags, by their names in the model.
TAGS = {"Utf8": 1, "Integer": 3, "Class": 7, "String": 8, "Field": 9, "Method": 10, "InterfaceMethod": 11}
TAGS["NameAndType"] = 12
NAMES = {tag: name for name, tag in TAGS.items()}

ACONST_NULL, ALOAD_0, RETURN, PUTSTATIC, INVOKESPECIAL = 0x01, 0x2A, 0xB1, 0xB3, 0xB7

# An operand of code that names an entry of the pool: where it stands, and of how many bytes it is.
Operand = Tuple[int, int]


class BuiltInFault(Exception):
    """A class file that is none of a built-in class, and why."""


# ---- class files as trees


def read_entry(reader: Reader) -> Entry:
    tag = reader.u1()
    if tag not in NAMES:
        raise BuiltInFault(f"an entry of the constant pool has the tag {tag}")
    name = NAMES[tag]
    if tag == 1:
        return name, reader.taken(reader.u2())
    if tag == 3:
        return name, reader.u4()
    return (name, reader.u2()) if tag in (7, 8) else (name, reader.u2(), reader.u2())


def read_skipped(reader: Reader) -> Tree:
    name = reader.u2()
    return {"name": name, "bytes": reader.taken(reader.u4())}


def read_skips(reader: Reader) -> List[Tree]:
    return [read_skipped(reader) for _ in range(reader.u2())]


def read_code(data: bytes) -> Tree:
    reader = Reader(data)
    found: Tree = {"max_stack": reader.u2(), "max_locals": reader.u2()}
    found["code"] = list(reader.taken(reader.u4()))
    names = ("start", "end", "handler", "catch_type")
    found["exceptions"] = [{name: reader.u2() for name in names} for _ in range(reader.u2())]
    found["attributes"] = read_skips(reader)
    return found


def read_part(reader: Reader, pool: List[Entry]) -> Entry:
    """An attribute of a field or a method."""
    skipped = read_skipped(reader)
    kind, data = pool[skipped["name"] - 1][1], skipped["bytes"]
    if kind == b"Code":
        return "CodeOf", skipped["name"], read_code(data)
    if kind == b"ConstantValue":
        return "ConstantOf", skipped["name"], int.from_bytes(data, "big")
    return "Skipped", skipped


def read_members(reader: Reader, pool: List[Entry]) -> List[Tree]:
    found = []
    for _ in range(reader.u2()):
        one: Tree = {name: reader.u2() for name in ("flags", "name", "descriptor")}
        one["parts"] = [read_part(reader, pool) for _ in range(reader.u2())]
        found.append(one)
    return found


def read_tree(data: bytes) -> Tree:
    """The tree that the bytes of a class file of version 49.0 spell."""
    reader = Reader(data)
    if reader.taken(len(MAGIC_AND_VERSION)) != MAGIC_AND_VERSION:
        raise BuiltInFault("it is no class file of version 49.0")
    pool = [read_entry(reader) for _ in range(reader.u2() - 1)]
    tree: Tree = {"pool": pool, "flags": reader.u2(), "this_class": reader.u2(), "super_class": reader.u2()}
    tree["interfaces"] = [reader.u2() for _ in range(reader.u2())]
    tree["fields"] = read_members(reader, pool)
    tree["methods"] = read_members(reader, pool)
    tree["attributes"] = read_skips(reader)
    return tree


def spelled_entry(entry: Entry) -> bytes:
    tag = TAGS[entry[0]]
    if tag == 1:
        return stored_utf8(entry[1])
    if tag == 3:
        return bytes([tag]) + u4(entry[1])
    if tag == 7:
        return class_entry(entry[1])
    return bytes([tag]) + b"".join(map(u2, entry[1:]))


def spelled_part(part: Entry) -> bytes:
    """A Code without handlers and attributes, or a ConstantValue."""
    if part[0] == "ConstantOf":
        return attribute(part[1], u2(part[2]))
    code = part[2]
    return code_attribute(part[1], code["max_stack"], code["max_locals"], bytes(code["code"]))


def spelled_member(one: Tree) -> bytes:
    return member(one["flags"], one["name"], one["descriptor"], [spelled_part(part) for part in one["parts"]])


def spelled(tree: Tree) -> bytes:
    """The bytes of a class file of version 49.0."""

    entries = [spelled_entry(entry) for entry in tree["pool"]]
    classes = tree["this_class"], tree["super_class"]
    fields, methods = ([spelled_member(one) for one in tree[kind]] for kind in ("fields", "methods"))
    return class_file(entries, tree["flags"], classes, fields, methods, tree["interfaces"])


# ---- what a class file says


class Declared(NamedTuple):
    """A field or a method."""

    flags: int
    name: bytes
    descriptor: bytes
    parts: List[Entry]

    @property
    def code(self) -> Optional[Tree]:
        return next((part[2] for part in self.parts if part[0] == "CodeOf"), None)


class Told:
    """What a tree says, without its constant pool's order."""

    def __init__(self, tree: Tree) -> None:
        self.tree, self.pool, self.flags = tree, tree["pool"], tree["flags"]
        self.name = self.class_at(tree["this_class"])
        self.superclass = self.class_at(tree["super_class"]) if tree["super_class"] else None
        self.interfaces = [self.class_at(index) for index in tree["interfaces"]]
        self.fields = [self.declared(one) for one in tree["fields"]]
        self.methods = [self.declared(one) for one in tree["methods"]]

    def text(self, index: int) -> bytes:
        return bytes(self.pool[index - 1][1])

    def class_at(self, index: int) -> bytes:
        return self.text(self.pool[index - 1][1])

    def declared(self, one: Tree) -> Declared:
        return Declared(one["flags"], self.text(one["name"]), self.text(one["descriptor"]), one["parts"])

    def lines(self) -> Iterator[str]:
        """The class, its interfaces and its members, a line each, with their flags."""
        yield f"class {self.flags:04x} {self.name.decode()} {self.superclass.decode() if self.superclass else '-'}"
        yield from (f"interface 0000 {name.decode()}" for name in self.interfaces)
        for word, members in (("field", self.fields), ("method", self.methods)):
            yield from (f"{word} {one.flags:04x} {one.name.decode()} {one.descriptor.decode()}" for one in members)


# ---- class files of javac, made those of built-in classes


def is_empty(method: Declared) -> bool:
    """Whether it is a constructor with an empty body."""
    code = bytes(method.code["code"]) if method.code else b""
    calls = code[:2] == bytes([ALOAD_0, INVOKESPECIAL]) and code[4:] == bytes([RETURN])
    return method.name == b"<init>" and (calls or code == bytes([RETURN]))


def puts_nulls(method: Declared) -> bool:
    """Whether it is an initialiser that sets fields to null and does nothing else."""
    code = bytes(method.code["code"]) if method.code else b""
    puts = [code[at : at + 4] for at in range(0, len(code) - 1, 4)]
    return code[-1:] == bytes([RETURN]) and all(put[:2] == bytes([ACONST_NULL, PUTSTATIC]) for put in puts)


def kept(methods: List[Declared]) -> List[Declared]:
    """The methods of a built-in class.

    A constructor with an empty body has no code; a private one isn't there. A method that other built-in classes call
    alone is private."""
    found = []
    for one in methods:
        if one.name == b"<clinit>":
            if not puts_nulls(one):
                raise BuiltInFault("an initialiser does more than to set fields to null")
        elif not is_empty(one):
            found.append(one if one.flags & ACCESS else one._replace(flags=one.flags | PRIVATE))
        elif not one.flags & PRIVATE:
            found.append(Declared(one.flags | NATIVE, one.name, one.descriptor, []))
    return found


def operands_of(code: bytes) -> Iterator[Operand]:
    """The operands of a code that name entries of the pool."""
    at = 0
    while at < len(code):
        if code[at] in NAMING_BY_BYTE:
            yield at + 1, 1
        elif code[at] in NAMING:
            yield at + 1, 2
        at += length_at(code, at)


class Layout:
    """The constant pool of a built-in class, as it is laid out.

    First come the class, its superclass and its interfaces. Then come what code names, in the order in which it is
    named, what is loaded by `ldc` before all else; the texts of fields and of methods with code; and the text `Code`.
    All of these stand there once. Last come two texts for each method without code.
    """

    def __init__(self, told: Told) -> None:
        self.told = told
        self.pool: List[Entry] = []

    def once(self, entry: Entry) -> int:
        if entry not in self.pool:
            self.pool.append(entry)
        return self.pool.index(entry) + 1

    def text(self, text: bytes) -> int:
        return self.once(("Utf8", text))

    def added(self, text: bytes) -> int:
        self.pool.append(("Utf8", text))
        return len(self.pool)

    def class_of(self, name: bytes) -> int:
        return self.once(("Class", self.text(name)))

    def operand(self, index: int) -> int:
        """The index of what an index of the old pool names."""
        kind, *parts = self.told.pool[index - 1]
        if kind in ("Utf8", "Integer"):
            return self.once((kind, *parts))
        if kind in ("Class", "String"):
            return self.once((kind, self.text(self.told.text(parts[0]))))
        if kind == "NameAndType":
            return self.once((kind, self.text(self.told.text(parts[0])), self.text(self.told.text(parts[1]))))
        return self.once((kind, self.operand(parts[0]), self.operand(parts[1])))

    def constants(self, code: bytes) -> None:
        """Lays out what `ldc` loads."""
        for at, width in operands_of(code):
            if width == 1:
                self.operand(code[at])

    def with_operands(self, code: bytes) -> List[int]:
        """Code, with its operands in the new pool."""
        found = bytearray(code)
        for at, width in operands_of(code):
            new = self.operand(int.from_bytes(code[at : at + width], "big"))
            if width == 1 and new > 255:
                raise BuiltInFault("what `ldc` names stands behind the entry 255")
            found[at : at + width] = new.to_bytes(width, "big")
        return list(found)


def laid_code(layout: Layout, method: Declared, code: Tree) -> Tree:
    if code["exceptions"]:
        raise BuiltInFault(f"{method.name.decode()} has a handler")
    return {**code, "code": layout.with_operands(bytes(code["code"])), "attributes": []}


def laid_field(layout: Layout, field: Declared) -> Tree:
    if any(part[0] == "ConstantOf" for part in field.parts):
        raise BuiltInFault(f"{field.name.decode()} has a constant value")
    found: Tree = {"flags": field.flags, "name": layout.text(field.name), "descriptor": layout.text(field.descriptor)}
    return {**found, "parts": []}


def laid_coded(layout: Layout, methods: List[Declared], codes: List[Tree]) -> List[Tree]:
    """Methods with code, behind whose texts the text `Code` stands."""
    found: List[Tree] = []
    for one in methods:
        found.append({"flags": one.flags, "name": layout.text(one.name), "descriptor": layout.text(one.descriptor)})
    at = layout.added(b"Code") if methods else 0
    return [{**tree, "parts": [("CodeOf", at, code)]} for tree, code in zip(found, codes)]


def laid_native(layout: Layout, method: Declared) -> Tree:
    found: Tree = {"flags": method.flags, "name": layout.added(method.name)}
    return {**found, "descriptor": layout.added(method.descriptor), "parts": []}


def laid_out(data: bytes) -> Tree:
    """The tree of a built-in class, of a class file of javac's."""
    told = Told(read_tree(data))
    layout, methods = Layout(told), kept(told.methods)
    tree: Tree = {"pool": layout.pool, "flags": told.flags, "this_class": layout.class_of(told.name)}
    tree["super_class"] = layout.class_of(told.superclass) if told.superclass else 0
    tree["interfaces"] = [layout.class_of(name) for name in told.interfaces]
    coded = [(one, one.code) for one in methods if one.code is not None]
    for _, code in coded:
        layout.constants(bytes(code["code"]))
    codes = [laid_code(layout, one, code) for one, code in coded]
    tree["fields"] = [laid_field(layout, one) for one in told.fields]
    tree["methods"] = laid_coded(layout, [one for one, _ in coded], codes)
    tree["methods"] += [laid_native(layout, one) for one in methods if one.code is None]
    tree["attributes"] = []
    return tree
