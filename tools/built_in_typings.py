"""The typings of the built-in methods with code, as definitions of the crate `run_laws`.

A typing has a frame type for each offset that a run comes to (JVMS 4.10.2). It is found by a search of its own, over
the class files of builtin/; that it is a typing in each program is proved in `run_laws`."""

import pathlib
import re
from typing import Dict, Iterable, Iterator, List, NamedTuple, Optional, Tuple

from oracle.opcodes import ARRAY_TYPES, MNEMONICS, PRIMITIVES
from tools.built_in_files import Declared, Told, Tree
from tools.built_in_tables import MADE, WIDTH, Form, codes, defined, form_of, signed
from tools.library_classes import length_at
from tools.repository import ROOT

EXAMPLES = ROOT / "crates/run_laws/specs/examples"

# How much of a line a list of frame types may take, and how many typings a module has that isn't of one class.
ROOM, MANY = WIDTH - 11, 8

OBJECT = "java/lang/Object"

# Classes that have names in the definitions.
SIMPLE_NAMES = ("Object", "String", "Class", "System", "Thread", "Throwable", "Error")
NAMES = {f"java/lang/{name}": f"java_lang_{name.lower()}" for name in SIMPLE_NAMES}
NAMES["java/io/PrintStream"], NAMES["java/lang/StringBuilder"] = "java_io_print_stream", "java_lang_string_builder"

# Types by the names that the definitions have for them.
NAMED = {OBJECT: "object", "java/lang/String": "string", "java/lang/Class": "class"}
NAMED.update({"java/lang/Thread": "thread", "java/io/PrintStream": "stream", "java/lang/StringBuilder": "builder"})
NAMED["java/lang/Throwable"] = "throwable"

# A type: its constructor in the definitions, and what that has; `OfType` has the name of a class.
Type = Tuple[str, str, int]

UNUSABLE, INT, NULL = ("Unusable", "", 0), ("IntType", "", 0), ("NullType", "", 0)

# The types of which there are arrays, by their constructors in the definitions.
PRIMITIVE_TYPES = {letter: name.capitalize() for letter, name in PRIMITIVES.items()}

# What stores an element, and behind what no instruction comes.
STORES = {"iastore", "bastore", "castore", "sastore", "aastore"}
ENDS = {"return", "ireturn", "areturn", "athrow"}


class Frame(NamedTuple):
    """A frame type: local variables, operands with the top first, and whether `this` is constructed."""

    locals: Tuple[Type, ...]
    stack: Tuple[Type, ...]
    constructed: bool


class Fault(Exception):
    """A code that has no typing that is found here."""


def of(name: str) -> Type:
    return "OfType", name, 0


def described(name: str) -> str:
    """The descriptor of what a Class of a constant pool names."""
    return name if name[0] == "[" else f"L{name};"


def split(descriptor: str) -> Tuple[List[str], str]:
    """The parameters and the result of a descriptor."""
    at, found = 1, []
    while descriptor[at] != ")":
        begin = at
        while descriptor[at] == "[":
            at += 1
        at = descriptor.index(";", at) + 1 if descriptor[at] == "L" else at + 1
        found.append(descriptor[begin:at])
    return found, descriptor[at + 1 :]


class Search:
    """The frame types of a method, found from its first offset on."""

    def __init__(self, classes: Dict[str, Told], owner: Told, method: Declared) -> None:
        self.classes, self.owner, self.method = classes, owner, method
        assert method.code is not None
        self.code = bytes(method.code["code"])
        self.found: Dict[int, Frame] = {}
        waiting = [(0, self.entry())]
        while waiting:
            offset, frame = waiting.pop()
            there = self.found.get(offset)
            joined = frame if there is None else self.join(there, frame)
            if joined != there:
                self.found[offset] = joined
                waiting += self.leads(offset, joined)

    # ---- types

    def of_descriptor(self, descriptor: str) -> Type:
        """A value's type: an interface counts as Object, and as an array's component, too."""
        if descriptor in ("Z", "B", "S", "C", "I"):
            return INT
        component = descriptor.lstrip("[")
        if component[0] != "L":
            return of(descriptor)
        name = component[1:-1]
        counted = OBJECT if self.classes[name].flags & 0x0200 else name
        dimensions = descriptor[: -len(component)]
        return of(f"{dimensions}L{counted};" if dimensions else counted)

    def supers(self, name: Optional[str]) -> Iterator[str]:
        """A class and those above it. An array is below Object alone."""
        while name is not None:
            yield name
            above = b"java/lang/Object" if name[0] == "[" else self.classes[name].superclass
            name = None if above is None else above.decode()

    def join_types(self, one: Type, other: Type) -> Type:
        if one == other:
            return one
        if {one[0], other[0]} == {"OfType"}:
            above = list(self.supers(other[1]))
            return of(next(name for name in self.supers(one[1]) if name in above))
        references = [kind for kind in (one, other) if kind != NULL]
        return references[0] if len(references) == 1 and references[0][0] == "OfType" else UNUSABLE

    def join(self, one: Frame, other: Frame) -> Frame:
        stack = tuple(map(self.join_types, one.stack, other.stack))
        if len(one.stack) != len(other.stack) or UNUSABLE in stack:
            raise Fault(f"operands of {self.method.name.decode()} don't join")
        both = tuple(map(self.join_types, one.locals, other.locals))
        return Frame(both, stack, one.constructed and other.constructed)

    # ---- frame types

    def entry(self) -> Frame:
        name, is_static = self.owner.name.decode(), self.method.flags & 0x0008
        is_constructor = self.method.name == b"<init>"
        this: Type = ("UninitialisedThis", name, 0) if is_constructor else of(name)
        given = [] if is_static else [this]
        given += map(self.of_descriptor, split(self.method.descriptor.decode())[0])
        assert self.method.code is not None
        free = self.method.code["max_locals"] - len(given)
        return Frame((*given, *[UNUSABLE] * free), (), not is_constructor)

    def member(self, index: int) -> Tuple[str, str, str]:
        """The class, the name and the descriptor of a member that is named."""
        _, owner, pair = self.owner.pool[index - 1]
        _, name, descriptor = self.owner.pool[pair - 1]
        return self.owner.class_at(owner).decode(), self.owner.text(name).decode(), self.owner.text(descriptor).decode()

    def leads(self, offset: int, frame: Frame) -> List[Tuple[int, Frame]]:
        """Where the instruction at an offset leads, with the frame types there."""
        name = MNEMONICS[self.code[offset]]
        operands = self.code[offset + 1 : offset + length_at(self.code, offset)]
        behind = offset + 1 + len(operands)
        if name in ENDS:
            return []
        after = self.after(name, operands, frame, offset)
        if name == "goto":
            return [(offset + signed(operands), after)]
        if name.startswith("if"):
            return [(behind, after), (offset + signed(operands), after)]
        return [(behind, after)]

    def after(self, name: str, operands: bytes, frame: Frame, offset: int) -> Frame:
        """The frame type behind an instruction."""
        stack = frame.stack
        if name[1:] == "aload":
            array = stack[1]
            is_of_ints = name != "aaload"
            return frame._replace(stack=(INT if is_of_ints else self.of_descriptor(array[1][1:]), *stack[2:]))
        if name[1:].startswith(("load", "store")):
            place = operands[0] if operands else int(name[-1])
            if "load" in name:
                return frame._replace(stack=(frame.locals[place], *stack))
            kept = frame.locals[:place] + (stack[0],) + frame.locals[place + 1 :]
            return frame._replace(locals=kept, stack=stack[1:])
        if name in ("getfield", "putfield", "getstatic") or name.startswith("invoke"):
            return self.with_member(name, self.member(int.from_bytes(operands[:2], "big")), frame)
        if name == "new":
            made = "Uninitialised", self.owner.class_at(int.from_bytes(operands, "big")).decode(), offset
            return frame._replace(stack=(made, *stack))
        if name == "checkcast":
            cast = self.owner.class_at(int.from_bytes(operands, "big")).decode()
            return frame._replace(stack=(self.of_descriptor(described(cast)), *stack[1:]))
        if name == "anewarray":
            component = self.owner.class_at(int.from_bytes(operands, "big")).decode()
            return frame._replace(stack=(self.of_descriptor(f"[{described(component)}"), *stack[1:]))
        return frame._replace(stack=self.moved(name, operands, stack))

    def moved(self, name: str, operands: bytes, stack: Tuple[Type, ...]) -> Tuple[Type, ...]:
        """The operands behind an instruction that touches these alone."""
        if name == "ldc":
            is_int = self.owner.pool[operands[0] - 1][0] == "Integer"
            return (INT if is_int else of("java/lang/String"), *stack)
        if name.startswith("iconst") or name in ("bipush", "sipush"):
            return (INT, *stack)
        if name == "aconst_null":
            return (NULL, *stack)
        if name in ("arraylength", "instanceof", "i2c"):
            return (INT, *stack[1:])
        if name == "newarray":
            return (of(f"[{ARRAY_TYPES[operands[0]]}"), *stack[1:])
        if name in STORES:
            return stack[3:]
        if name in ("goto", "iinc"):
            return stack
        if name == "dup":
            return (stack[0], *stack)
        if name in ("iadd", "isub"):
            return (INT, *stack[2:])
        if name == "pop" or name.startswith("if"):
            return stack[2 if "cmp" in name else 1 :]
        raise Fault(f"{self.method.name.decode()} has {name}, which is not known here")

    def with_member(self, name: str, member: Tuple[str, str, str], frame: Frame) -> Frame:
        """The frame type behind an instruction that names a member."""
        descriptor = member[2]
        if name == "getstatic":
            return frame._replace(stack=(self.of_descriptor(descriptor), *frame.stack))
        if name == "getfield":
            return frame._replace(stack=(self.of_descriptor(descriptor), *frame.stack[1:]))
        if name == "putfield":
            return frame._replace(stack=frame.stack[2:])
        parameters, result = split(descriptor)
        count = len(parameters) + (name != "invokestatic")
        if member[1] == "<init>":
            frame = self.constructed(frame.stack[count - 1], frame)
        results = [] if result == "V" else [self.of_descriptor(result)]
        return frame._replace(stack=(*results, *frame.stack[count:]))

    @staticmethod
    def constructed(receiver: Type, frame: Frame) -> Frame:
        """A frame type in which all copies of a receiver are initialised."""
        kind, name, _ = receiver

        def changed(types: Iterable[Type]) -> Tuple[Type, ...]:
            return tuple(of(name) if one == receiver else one for one in types)

        is_this = kind == "UninitialisedThis"
        return Frame(changed(frame.locals), changed(frame.stack), frame.constructed or is_this)


# ---- definitions


def name_text(name: str) -> str:
    """The name of a class."""
    return NAMES.get(name) or codes(name.encode())


def reference_text(name: str) -> str:
    """A reference type, which isn't a class that has a name in the definitions."""
    if name[0] != "[":
        return f"ClassType {name_text(name)}"
    if name[1] in PRIMITIVE_TYPES:
        return f"PrimitiveArray {PRIMITIVE_TYPES[name[1]]}"
    return f"ReferenceArray ({reference_text(name[1:] if name[1] == '[' else name[2:-1])})"


def type_text(one: Type) -> str:
    kind, name, at = one
    if kind == "OfType" and name[0] == "[":
        return f"OfType ({reference_text(name)})"
    if kind == "OfType":
        return NAMED.get(name, f"of {codes(name.encode())}")
    if kind == "Uninitialised":
        return f"Uninitialised {at} {codes(name.encode())}"
    return f"{kind} {codes(name.encode())}" if name else kind


def list_text(items: Iterable[str]) -> str:
    return " ∷ ".join([*items, "[]"])


def closed(text: str) -> str:
    return text if text == "[]" else f"({text})"


def part_lines(frames: List[Tuple[int, Frame]]) -> List[str]:
    """Neighbouring offsets at which the local variables have the same types: as many on a line as have room there."""
    first = frames[0][1]
    name = "with_locals" if first.constructed else "before_this"
    lines = [f"{name} {closed(list_text(map(type_text, first.locals)))} ("]
    for offset, frame in frames:
        mark = "" if lines[-1].endswith("(") else " ∷ "
        row = f"{mark}({offset}, {list_text(map(type_text, frame.stack))})"
        if len(row) > ROOM:
            # It takes a line for each of its types, as `rt fmt` leaves it.
            top, *others = [*map(type_text, frame.stack), "[]"]
            lines += [f"{mark.lstrip()}(", f"  {offset},", f"  {top}", *(f"      ∷ {one}" for one in others)]
            lines[-1] += ","
            lines.append(")")
        elif len(lines[-1]) + len(row) > ROOM:
            lines.append(row.lstrip())
        else:
            lines[-1] += row
    lines[-1] += " ∷ [])"
    return lines


def typing_text(found: Dict[int, Frame]) -> str:
    parts: List[List[Tuple[int, Frame]]] = []
    for offset, frame in sorted(found.items()):
        if not parts or parts[-1][0][1]._replace(stack=()) != frame._replace(stack=()):
            parts.append([])
        parts[-1].append((offset, frame))
    lines: List[str] = []
    for place, part in enumerate(map(part_lines, parts)):
        mark = "" if place == 0 else "++ " if place == len(parts) - 1 else "++ ("
        lines += [mark + part[0], *part[1:]]
    lines[-1] += ")" * (len(parts) - 2)
    return "".join(f"\n    {line}" for line in lines)


def definitions_of(classes: Dict[str, Told], form: Form) -> List[str]:
    """The typings of the methods of a class, and the list of them."""
    found, rows = [], ""
    for name, _, one in form.coded:
        full = f"{form.snake}_{name}_types"
        about = f"-- {form.pascal}.{one.name.decode()}{one.descriptor.decode()}"
        found.append(defined(full, "List (ℕ × FrameType)", typing_text(Search(classes, form.told, one).found), about))
        member = f"member {name_text(form.name)} {codes(one.name)} {codes(one.descriptor)}"
        rows += f"\n    {'∷ ' * bool(rows)}({member}, {full})"
    if rows:
        found.append(defined(f"{form.snake}_typings", TABLE, f"{rows}\n    ∷ []"))
    return found


TABLE = "List (Member × List (ℕ × FrameType))"

# Where the definitions come from that made ones use.
IMPORTS = {
    "Rattle.std.specs.Prelude": ["◌≡◌", "ℕ", "List", "[]", "◌∷◌", "◌++◌", "Some", "IsTrue", "map", "is_some", "codes"],
    "Rattle.model.specs.Names": ["Name", "Member", *NAMES.values()],
    "Rattle.model.specs.Classes": ["Program", "Body", "class_of", "body_of"],
    "Rattle.model.specs.ReferenceTypes": ["ClassType", "PrimitiveArray", "ReferenceArray", *PRIMITIVE_TYPES.values()],
    "Rattle.model.specs.Types": ["VerificationType", "Unusable", "IntType", "NullType", "OfType", "Uninitialised"],
    "Rattle.model.specs.TypeOrder": ["FrameType"],
    "Rattle.model.specs.Typing": ["HasTyping"],
    "Rattle.run_laws.specs.examples.Typings": ["frame", "object", "stream", "thread"],
    "Rattle.run_laws.specs.examples.FrameTypes": ["string", "class", "builder", "throwable", "of", "with_locals"],
}
IMPORTS["Rattle.model.specs.Types"] += ["UninitialisedThis"]
IMPORTS["Rattle.run_laws.specs.examples.FrameTypes"] += ["before_this", "member"]

HEAD = """\
-- Typings of the methods with code of {}, each by its list of frame types.
-- {}
"""


def module(about: str, text: str, taken: str = "") -> str:
    """A module that has definitions, with what these use."""
    used = {*re.findall(r"[^\W\d]\w*|\[\]", re.sub(r'"[^"]*"|--.*', "", text))}
    used |= {f"◌{mark}◌" for mark in ("∷", "++", "≡") if f" {mark} " in text}
    lines = []
    for place, names in IMPORTS.items():
        found = [name for name in names if name in used]
        if found:
            lines.append(f"use {place}.{{{', '.join(found)}}}\n")
    return HEAD.format(about, MADE) + "".join(lines) + taken + "\n" + text


LAST = """\
-- a method with code of a class that is built in has a typing, whatever the files of the program are
pub record BuiltInTyped : Type 0 where
  pub typed : (files : Program) (method : Member) (body : Body) → IsTrue (is_some (class_of [] method.class))
      → body_of files method ≡ Some body → HasTyping files method body
"""

def made(trees: List[Tree]) -> Dict[pathlib.Path, str]:
    """The modules of the typings of built-in classes. A class with many methods has a module of its own."""
    forms = [form_of(tree) for tree in trees]
    classes = {form.name: form.told for form in forms}
    found: Dict[pathlib.Path, str] = {}
    own, taken, names = [], "", []
    for form in forms:
        texts = definitions_of(classes, form)
        if len(texts) > MANY:
            found[EXAMPLES / f"{form.pascal}Typings.antt"] = module(form.name, "\n".join(texts))
            taken += f"use Rattle.run_laws.specs.examples.{form.pascal}Typings.{{{form.snake}_typings}}\n"
        else:
            own += texts
        names += [f"{form.snake}_typings"] * bool(texts)
    whole = "\n    ++ (".join(names[:-1]) + f"\n    ++ {names[-1]}" + ")" * (len(names) - 2)
    about = "-- each method with code, with its frame types"
    text = "\n".join([*own, defined("built_in_types", TABLE, f"\n    {whole}", about), LAST])
    found[EXAMPLES / "BuiltInTypings.antt"] = module("the built-in classes", text, taken)
    return found


def write(trees: List[Tree]) -> None:
    for path, text in made(trees).items():
        path.write_text(text, encoding="utf-8")


def differences(trees: List[Tree]) -> List[str]:
    """Where the typings that are there aren't those of the class files."""
    texts = made(trees)
    kept = {path: path.read_text(encoding="utf-8") for path in texts if path.exists()}
    names = sorted(path for path, text in texts.items() if kept.get(path) != text)
    return [f"{path.relative_to(ROOT)} isn't what the class files make" for path in names]
