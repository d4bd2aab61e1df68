"""The built-in classes as definitions of the model, and as tables of the crate `class_tree`.

The class files of builtin/ are written as records `BuiltInClass` of `crates/model/specs/BuiltInForm.antt`, and as
values `BuiltInClass` of `crates/class_tree/src/builtin/form.rt`. A class that has code is a module of its own in both,
and its code another one where both together would be long."""

import pathlib
import re
import textwrap
from typing import Any, Dict, Iterable, Iterator, List, NamedTuple, Tuple

from oracle.opcodes import ARRAY_TYPES, MNEMONICS, PRIMITIVES
from tools.built_in_files import BuiltInFault, Declared, Told, Tree, operands_of
from tools.library_classes import length_at
from tools.repository import ROOT

SPECS, TABLES = ROOT / "crates/model/specs", ROOT / "crates/class_tree/src/builtin/tables"

# How long a line may be, and how many of them a module may have.
WIDTH, LINES = 120, 450

# How many classes a part of the tables has at most, and how many bytes of code a class has that doesn't begin one.
CLASSES_OF_A_PART, LITTLE_CODE = 8, 80

# Flags by their names in `BuiltInForm`, and the name of a member that stands often.
CLASS_FLAGS = {0x0021: "public_class", 0x0031: "final_class", 0x0421: "abstract_class", 0x0601: "public_interface"}
METHOD_FLAGS = {0x0101: "native_method", 0x0111: "final_native_method", 0x0109: "static_native_method"}
METHOD_FLAGS[0x0401], METHOD_FLAGS[0x010A] = "abstract_method", "hidden_native_method"
CONSTRUCTORS = {
    (0x0101, b"<init>", b"()V"): "constructor",
    (0x0101, b"<init>", b"(Ljava/lang/String;)V"): "with_message",
    (0x0101, b"<init>", b"(Ljava/lang/String;Ljava/lang/Throwable;)V"): "with_cause",
}

MADE = "Made by `tools/build-built-in` of the class files of builtin/classes. Not to be edited."

MODEL_HEAD = f"""\
-- The built-in classes (own): part of each program, and initialised from the start. Their members are those that stand here
-- and no others. A method without code is native: what it does is a rule of the machine.
-- {MADE}
"""


class Form(NamedTuple):
    """A class file in the form of the tables."""

    name: str
    told: Told

    @property
    def snake(self) -> str:
        """The class's simple name in lower case, as in `print_stream`."""
        return re.sub(r"(?<=[a-z0-9])(?=[A-Z])", "_", self.name.rpartition("/")[2].replace("$", "_")).lower()

    @property
    def pascal(self) -> str:
        """The simple name, as in `PrintStream`."""
        return self.name.rpartition("/")[2].replace("$", "")

    @property
    def is_plain(self) -> bool:
        """Whether it has a superclass, methods without code, and nothing else."""
        return bool(self.told.superclass) and not (self.told.interfaces or self.operands)

    @property
    def coded(self) -> List[Tuple[str, Tree, Declared]]:
        """The methods with code, each with a name of its own, as indices and by its texts."""
        found: List[Tuple[str, Tree, Declared]] = []
        counts: Dict[str, int] = {}
        for tree, one in zip(self.told.tree["methods"], self.told.methods):
            if one.code is None:
                continue
            name = re.sub(r"(?<=[a-z0-9])(?=[A-Z])", "_", one.name.decode().strip("<>").replace("$", "_")).lower()
            counts[name] = counts.get(name, 0) + 1
            found.append((name if counts[name] == 1 else f"{name}_{counts[name]}", tree, one))
        return found

    @property
    def natives(self) -> List[Declared]:
        return [one for one in self.told.methods if one.code is None]

    @property
    def operands(self) -> List[Tuple[Any, ...]]:
        """What stands in the constant pool between the names of classes and the texts of methods without code."""
        above = 2 + 2 * (self.told.superclass is not None) + 2 * len(self.told.interfaces)
        return self.told.pool[above : len(self.told.pool) - 2 * len(self.natives)]


def form_of(tree: Tree) -> Form:
    """A class file in the form of the tables. A fault where it has none."""
    told = Told(tree)
    form = Form(told.name.decode(), told)
    if any(one["parts"] for one in tree["fields"]):
        raise BuiltInFault("a field has a constant value")
    codes = [one.code for one in told.methods]
    if None in codes and any(code is not None for code in codes[codes.index(None) :]):
        raise BuiltInFault("a method with code stands behind one without")
    end = len(tree["pool"]) - 2 * len(form.natives)
    for one in tree["methods"]:
        for part in one["parts"]:
            if part[0] != "CodeOf" or part[1] != end or part[2]["exceptions"] or part[2]["attributes"]:
                raise BuiltInFault("the attributes of a method aren't a Code alone, the text of whose name stands last")
    return form


# ---- code, as people read it


def named(form: Form, index: int) -> str:
    """What an entry of the pool names, without its descriptor and, where it is of the class itself, the class."""
    kind, *parts = form.told.pool[index - 1]
    if kind in ("Field", "Method", "InterfaceMethod"):
        owner = form.told.class_at(parts[0])
        member = form.told.text(form.told.pool[parts[1] - 1][1]).decode()
        return member if owner == form.told.name else f"{simple(owner)}.{member}"
    if kind == "Class":
        return simple(form.told.class_at(index))
    if kind == "Integer":
        return str(parts[0] - (parts[0] >> 31 << 32))
    return f"#{index}"


def simple(name: bytes) -> str:
    return name.decode().rpartition("/")[2]


def signed(data: bytes) -> int:
    return int.from_bytes(data, "big", signed=True)


def instruction(form: Form, code: bytes, at: int) -> str:
    """The instruction at an offset."""
    name, operands = MNEMONICS[code[at]], code[at + 1 : at + length_at(code, at)]
    if any(place == at + 1 for place, _ in operands_of(code)):
        return f"{name} {named(form, int.from_bytes(operands[: 1 if name == 'ldc' else 2], 'big'))}"
    if name.startswith("if") or name == "goto":
        return f"{name} {at + signed(operands)}"
    if name == "newarray":
        return f"{name} {PRIMITIVES[ARRAY_TYPES[operands[0]]]}"
    if name == "iinc":
        return f"{name} {operands[0]} {signed(operands[1:])}"
    if name in ("bipush", "sipush"):
        return f"{name} {signed(operands)}"
    if name in ("iload", "aload", "istore", "astore"):
        return f"{name} {operands[0]}"
    return name


def instructions(form: Form, code: bytes) -> str:
    """The instructions of a code, each behind its offset."""
    at, found = 0, []
    while at < len(code):
        found.append(f"{at} {instruction(form, code, at)}")
        at += length_at(code, at)
    return ", ".join(found)


def numbers_of(code: bytes) -> List[str]:
    """The bytes of a code: opcodes in hexadecimal, operands in decimal."""
    at, found = 0, []
    while at < len(code):
        end = at + length_at(code, at)
        found += [f"0x{code[at]:02x}", *map(str, code[at + 1 : end])]
        at = end
    return found


def comment(mark: str, text: str) -> str:
    return textwrap.fill(text, WIDTH, initial_indent=mark, subsequent_indent=mark, break_long_words=False)


# ---- definitions


def codes(text: bytes) -> str:
    """A text, or its bytes where it has some that a text of a definition can't spell."""
    if any(byte != 10 and not 32 <= byte < 127 for byte in text):
        return f"({' ∷ '.join([*(f'0x{byte:02x}' for byte in text), '[]'])})"
    return f'(codes "{"".join(map(escaped, text))}")'


def listed(items: Iterable[str], by_line: bool) -> str:
    """A list, an element a line, or as many on a line as have room there."""
    lines: List[str] = []
    for item in [*items, "[]"]:
        if lines and not by_line and len(lines[-1]) + len(item) + 3 <= WIDTH - 4:
            lines[-1] += f" ∷ {item}"
        else:
            lines.append(f"∷ {item}" if lines else item)
    return "".join(f"\n    {line}" for line in lines)


def defined(name: str, kind: str, value: str, about: str = "") -> str:
    """A definition, with the comment before it."""
    shown = value if value.startswith("\n") else f" {value}"
    return f"{about}{chr(10) * bool(about)}abbrev pub {name} : {kind}\n{name} ={shown}\n"


def entry_text(entry: Tuple[Any, ...]) -> str:
    kind, *parts = entry
    return f"{kind} {codes(parts[0])}" if kind == "Utf8" else " ".join(map(str, entry))


def native_text(one: Declared) -> str:
    if (one.flags, one.name, one.descriptor) in CONSTRUCTORS:
        return CONSTRUCTORS[one.flags, one.name, one.descriptor]
    return f"declared {METHOD_FLAGS.get(one.flags, f'0x{one.flags:04x}')} {codes(one.name)} {codes(one.descriptor)}"


def natives_text(form: Form) -> Tuple[str, str]:
    """The definition of the methods without code, where it is one of its own, and how the class names them."""
    texts = [native_text(one) for one in form.natives]
    if set(texts) <= {*CONSTRUCTORS.values()}:
        return "", " ∷ ".join([*texts, "[]"])
    return defined(f"{form.snake}_methods", "List Declared", listed(texts, True)), f"{form.snake}_methods"


def plain_text(form: Form) -> str:
    """A class that has a superclass and methods without code."""
    told, natives = form.told, natives_text(form)[1]
    flags = CLASS_FLAGS.get(told.flags, f"0x{told.flags:04x}")
    return f"built_in {flags} {codes(told.name)} {codes(told.superclass or b'')} {closed(natives)}"


def class_text(form: Form) -> str:
    """A class as the list of all has it."""
    return plain_text(form) if form.is_plain and not natives_text(form)[0] else f"{form.snake}_class"


def model_codes(form: Form) -> Iterator[str]:
    """The definitions of the methods with code, before each the instructions that it spells."""
    for name, _, one in form.coded:
        about = f"{form.pascal}.{one.name.decode()}{one.descriptor.decode()}"
        code = bytes(one.code["code"]) if one.code else b""
        about = comment("-- ", f"{about}: {instructions(form, code)}")
        yield defined(f"{form.snake}_{name}_code", "List ℕ", listed(numbers_of(code), False), about)
    if form.coded:
        rows = (coded_text(form, *one) for one in form.coded)
        yield defined(f"{form.snake}_coded", "List Coded", listed(rows, True))


def model_parts(form: Form) -> Iterator[str]:
    """The definitions of a class without its code, the class itself last."""
    told = form.told
    natives, named_natives = natives_text(form)
    if natives:
        yield natives
    if form.is_plain:
        if natives:
            yield defined(f"{form.snake}_class", "FileTree", plain_text(form))
        return
    if form.operands:
        operands = (entry_text(entry) for entry in form.operands)
        yield defined(f"{form.snake}_operands", "List Entry", listed(operands, False))
    fields = [f"field 0x{one['flags']:04x} {one['name']} {one['descriptor']}" for one in told.tree["fields"]]
    parts = {
        "flags": CLASS_FLAGS.get(told.flags, f"0x{told.flags:04x}"),
        "name": codes(told.name)[1:-1],
        "superclass": f"Some {codes(told.superclass)}" if told.superclass else "None",
        "interfaces": " ∷ ".join([*(codes(name)[1:-1] for name in told.interfaces), "[]"]),
        "operands": f"{form.snake}_operands" if form.operands else "[]",
        "fields": " ∷ ".join([*fields, "[]"]),
        "coded": f"{form.snake}_coded" if form.coded else "[]",
        "natives": named_natives,
    }
    lines = "".join(f"\n      {name} = {value};" for name, value in parts.items())
    yield defined(f"{form.snake}_class", "FileTree", f"\n    tree_of (record {{{lines}\n    }})")


def closed(text: str) -> str:
    return f"({text})" if " " in text else text


def coded_text(form: Form, name: str, tree: Tree, one: Declared) -> str:
    code = one.code or {}
    numbers = f"{tree['name']} {tree['descriptor']} {code['max_stack']} {code['max_locals']}"
    return f"coded 0x{tree['flags']:04x} {numbers} {form.snake}_{name}_code"


# Where the definitions come from that made ones use.
IMPORTS = {
    "Rattle.std.specs.Prelude": ["ℕ", "List", "[]", "◌∷◌", "Some", "None", "codes"],
    "Rattle.model.specs.Tree": ["Entry", "Utf8", "Integer", "Class", "String", "Field", "Method", "InterfaceMethod"],
    "Rattle.model.specs.BuiltInForm": ["Declared", "declared", "field", "Coded", "coded", "tree_of"],
}
IMPORTS["Rattle.model.specs.Tree"] += ["NameAndType", "FileTree"]
IMPORTS["Rattle.model.specs.BuiltInForm"] += [*CLASS_FLAGS.values(), *METHOD_FLAGS.values()]
IMPORTS["Rattle.model.specs.BuiltInForm"] += [*CONSTRUCTORS.values(), "built_in"]


def used(text: str) -> str:
    """The lines that take in what a text uses."""
    words = {*re.findall(r"[^\W\d]\w*|\[\]", re.sub(r'"[^"]*"|--.*|\w+ = ', "", text))} | ({"◌∷◌"} if "∷" in text else set())
    lines = []
    for module, names in IMPORTS.items():
        found = [name for name in names if name in words]
        if found:
            lines.append(f"use {module}.{{{', '.join(found)}}}\n")
    return "".join(lines)


def is_long(*texts: str) -> bool:
    return sum(text.count("\n") for text in texts) > LINES


def model_modules(form: Form) -> Iterator[Tuple[str, str]]:
    """The names and texts of the modules of a class that has code."""
    code, text = "\n".join(model_codes(form)), "\n".join(model_parts(form))
    about, taken = f"-- The class {form.name} (own).\n-- {MADE}\n", ""
    if is_long(code, text):
        yield f"{form.pascal}Code", f"-- Code of {form.name} (own).\n-- {MADE}\n{used(code)}\n{code}"
        taken = f"use Rattle.model.specs.built_in.{form.pascal}Code.{{{form.snake}_coded}}\n"
    else:
        text = f"{code}\n{text}"
    yield form.pascal, f"{about}{used(text)}{taken}\n{text}"


def definitions(forms: List[Form]) -> Dict[str, str]:
    """The definitions of the model, by the names of their files in its folder of definitions."""
    found: Dict[str, str] = {}
    modules: Dict[str, str] = {}
    own: List[str] = []
    for form in forms:
        if form.coded:
            modules.update(model_modules(form))
        else:
            own += model_parts(form)
    taken = "".join(
        f"use Rattle.model.specs.built_in.{form.pascal}.{{{form.snake}_class}}\n" for form in forms if form.coded
    )
    names = listed(map(class_text, forms), True)
    own.append(f"unfoldable pub built_in_classes : List FileTree\nbuilt_in_classes ={names}\n")
    text = "\n".join(own)
    found["BuiltIn.antt"] = f"{MODEL_HEAD}{used(text)}{taken}\n{text}"
    found["built_in.antt"] = "".join(f"pub mod {name}\n" for name in modules)
    return {**found, **{f"built_in/{name}.antt": text for name, text in modules.items()}}


# ---- tables


def escaped(byte: int) -> str:
    written = {ord('"'): '\\"', ord("\\"): "\\\\", 10: "\\n"}
    return written.get(byte, chr(byte) if 32 <= byte < 127 else f"\\x{byte:02x}")


def literal(text: bytes) -> str:
    return f'b"{"".join(map(escaped, text))}"'


def array(items: Iterable[str], indent: int) -> str:
    """An array, in the layout of `rt fmt`: on a line where it is short, packed where it is of numbers."""
    rows = list(items)
    one = ", ".join(rows)
    if len(one) <= 60 or len(rows) == 1:
        return f"[{one}]"
    within = "\n" + " " * (indent + 4)
    if all(re.fullmatch(r"0x..|\d+", row) for row in rows):
        lines = textwrap.wrap(one + ",", 99 - indent - 4)
        return f"[{within}{within.join(lines)}\n{' ' * indent}]"
    return f"[{''.join(f'{within}{row},' for row in rows)}\n{' ' * indent}]"


def applied(name: str, arguments: Iterable[Any], indent: int) -> str:
    """A value of a tuple's type, on a line where its parts are short."""
    parts = [str(one) for one in arguments]
    one = ", ".join(parts)
    within = "\n" + " " * (indent + 4)
    if len(one) <= 60 or len(parts) == 1:
        return f"{name}({one})"
    return f"{name}({within}{f',{within}'.join(parts)},\n{' ' * indent})"


def operand_value(entry: Tuple[Any, ...], indent: int) -> str:
    kind, *parts = entry
    return applied(f"Operand::{kind}", [literal(parts[0])] if kind == "Utf8" else parts, indent)


def native_value(one: Declared, indent: int) -> str:
    return applied("Declared", [f"0x{one.flags:04x}", literal(one.name), literal(one.descriptor)], indent)


def coded_array(form: Form, indent: int) -> str:
    rows = []
    for name, tree, one in form.coded:
        code = one.code or {}
        numbers = [tree["name"], tree["descriptor"], code["max_stack"], code["max_locals"]]
        rows.append(applied("Coded", [f"0x{tree['flags']:04x}", *numbers, f"&{name.upper()}"], indent + 4))
    return array(rows, indent)


def class_value(form: Form, indent: int, coded: str = "") -> str:
    """A class as a value, where the array of methods with code may have a name."""
    told = form.told
    fields = (f"Stored(0x{one['flags']:04x}, {one['name']}, {one['descriptor']})" for one in told.tree["fields"])
    within = "\n" + " " * (indent + 4)
    parts = {
        "flags": f"0x{told.flags:04x}",
        "name": literal(told.name),
        "superclass": f"Some({literal(told.superclass)})" if told.superclass else "None",
        "interfaces": "&" + array(map(literal, told.interfaces), indent + 4),
        "operands": "&" + array((operand_value(one, indent + 8) for one in form.operands), indent + 4),
        "fields": "&" + array(fields, indent + 4),
        "coded": "&" + (coded or coded_array(form, indent + 4)),
        "natives": "&" + array((native_value(one, indent + 8) for one in form.natives), indent + 4),
    }
    lines = "".join(f"{within}{name}: {value}," for name, value in parts.items())
    return f"BuiltInClass {{{lines}\n{' ' * indent}}}"


def imported(text: str) -> str:
    """The line that takes in what a text uses of the form."""
    all_names = ("BuiltInClass", "Coded", "Declared", "Operand", "Stored")
    names = [name for name in all_names if re.search(rf"\b{name}\b", text)]
    return f"use crate::builtin::form::{names[0] if len(names) == 1 else '{' + ', '.join(names) + '}'};\n"


def code_text(form: Form) -> str:
    """The code of the methods of a class."""
    text = ""
    for name, _, one in form.coded:
        code = bytes(one.code["code"]) if one.code else b""
        text += f"/// The code of `{one.name.decode()}{one.descriptor.decode()}`.\n"
        text += f"const {name.upper()}: [u8; {len(code)}] = {array(numbers_of(code), 0)};\n\n"
    return text


def table_modules(form: Form) -> Iterator[Tuple[str, str]]:
    """The names and texts of the modules of a class that has code."""
    begin, taken = f"pub(crate) const {form.snake.upper()}: BuiltInClass = ", ""
    text, code = f"{begin}{class_value(form, 0)};\n", code_text(form)
    if is_long(code, text):
        about = f"//! Code of {form.name}.\n//!\n//! {MADE}\n"
        row = f"pub(crate) const CODED: [Coded; {len(form.coded)}] = {coded_array(form, 0)};\n"
        yield f"{form.snake}_code", f"{about}\n{imported(row)}\n{code}{row}"
        text = f"{begin}{class_value(form, 0, 'CODED')};\n"
        taken = f"use crate::builtin::tables::{form.snake}_code::CODED;\n"
    else:
        text = f"{code}{text}"
    yield form.snake, f"//! The class {form.name}.\n//!\n//! {MADE}\n\n{imported(text)}{taken}\n{text}"


def parts(forms: List[Form]) -> List[List[Form]]:
    """The classes in some parts, each of which is proved by itself: a class with much code begins one."""
    found: List[List[Form]] = []
    for form in forms:
        code = sum(len(one.code["code"]) for _, _, one in form.coded if one.code)
        if not found or code > LITTLE_CODE or len(found[-1]) == CLASSES_OF_A_PART:
            found.append([])
        found[-1].append(form)
    return found


def part_text(forms: List[Form], at: int) -> str:
    """Classes from a number on."""
    name, last = f"FROM_{forms[0].snake.upper()}", at + len(forms) - 1
    numbers = f"{at}" if at == last else f"{at} to {last}"
    about = f"/// The built-in classes by their numbers: {numbers}.\n"
    rows = (form.snake.upper() if form.coded else class_value(form, 4) for form in forms)
    return f"{about}pub(crate) static {name}: [BuiltInClass; {len(forms)}] = {array(rows, 0)};\n"


def tables(forms: List[Form]) -> Dict[str, str]:
    """The tables of `class_tree`, by the names of their files in the folder of its module `builtin::tables`."""
    own = {form.snake: table_modules(form) for form in forms if form.coded}
    found = dict(module for modules in own.values() for module in modules)
    texts, at = [], 0
    for part in parts(forms):
        texts.append(part_text(part, at))
        at += len(part)
    text = "\n".join(texts)
    modules = "".join(f"mod {name};\n" for name in sorted(found))
    taken = "".join(f"use crate::builtin::tables::{name}::{name.upper()};\n" for name in sorted(own))
    about = f"//! The built-in classes as tables, in the order of the definitions.\n//!\n//! {MADE}\n"
    head = f"{about}\n{modules}\n{imported(text)}{taken}\n{text}"
    return {"mod.rt": head, **{f"{name}.rt": text for name, text in found.items()}}


# ---- what is made, and what is there


def made(trees: List[Tree]) -> Dict[pathlib.Path, str]:
    """The definitions and tables of class files, in their order."""
    forms = [form_of(tree) for tree in trees]
    found = {SPECS / name: text for name, text in definitions(forms).items()}
    return {**found, **{TABLES / name: text for name, text in tables(forms).items()}}


def definition_paths() -> List[pathlib.Path]:
    """The definitions that are there."""
    return [SPECS / "BuiltIn.antt", *sorted((SPECS / "built_in").glob("*.antt"))]


def kept_paths() -> List[pathlib.Path]:
    return [*definition_paths(), SPECS / "built_in.antt", *TABLES.glob("*.rt")]


def write(trees: List[Tree]) -> None:
    """Makes the definitions and tables."""
    texts = made(trees)
    for path in {*kept_paths()} - {*texts}:
        path.unlink()
    for path, text in texts.items():
        path.parent.mkdir(parents=True, exist_ok=True)
        path.write_text(text, encoding="utf-8")


def differences(trees: List[Tree]) -> List[str]:
    """Where definitions and tables aren't those of the class files."""
    try:
        texts = made(trees)
    except BuiltInFault as fault:
        return [f"the class files have no tables: {fault}"]
    kept = {path: path.read_text(encoding="utf-8") for path in kept_paths() if path.exists()}
    names = sorted(path for path in {*kept, *texts} if kept.get(path) != texts.get(path))
    return [f"{path.relative_to(ROOT)} isn't what the class files make" for path in names]


def numbers(trees: List[Tree]) -> Tuple[Dict[str, int], Dict[str, int]]:
    """Places among classes and methods, by the names of definitions and of constants that may stand for them."""
    forms = [form_of(tree) for tree in trees]
    defined, constants, methods = {"built_in_count": len(forms)}, {"BUILT_IN_CLASSES": len(forms)}, 0
    for place, form in enumerate(forms):
        defined[form.snake] = defined[f"{form.snake}_number"] = constants[form.snake.upper()] = place
        for at, one in enumerate(form.told.methods):
            if one.name == b"run":
                defined[f"{form.snake}_run_number"] = constants[f"{form.snake.upper()}_RUN"] = methods + at
        methods += len(form.told.methods)
    return defined, constants
