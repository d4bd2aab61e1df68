"""The class files of the built-in classes, and what is read of the definitions."""

import pathlib
import tempfile
import unittest

from tools import built_in_tables, built_in_typings
from tools.built_in_files import BuiltInFault, Told, laid_out, read_tree, spelled
from tools.class_files import METHODREF, Pool, class_file, code_attribute, member
from tools.definitions import Definitions
from tools.repository import built_in_file, built_in_names

CLAUSES = """\
-- what is said of it
abbrev pub three : ℕ
three = 0x0003

abbrev pub pairs : ℕ → List ℕ → List Entry
pairs at [] = []
pairs at (m ∷ others) =
    -- two of them
    Class at ∷ Pair m three ∷ pairs (at + 2) others

abbrev pub above : Option Name → List Name → List Name
above None names = names
above (Some name) names = name ∷ names

abbrev pub count_of : List Name → ℕ
count_of names = 2 * length names + 1

abbrev pub all_of_them : Tree
all_of_them = record { name = codes "a/B"; parts = pairs three (7 ∷ 8 ∷ []) ++ Last ∷ []; }

abbrev pub escaped : Name
escaped = codes "a\\"\\\\\\n"

pub record Named : Type 0 where
  pub name : ℕ

abbrev pub name_of : Tree → Name
name_of tree = tree.name
"""


class Read(unittest.TestCase):
    def definitions(self) -> Definitions:
        with tempfile.TemporaryDirectory() as folder:
            path = pathlib.Path(folder) / "Some.antt"
            path.write_text(CLAUSES, encoding="utf-8")
            return Definitions([path])

    def test_clauses(self) -> None:
        definitions = self.definitions()
        found = definitions.value("all_of_them")
        parts = [("Class", 3), ("Pair", 7, 3), ("Class", 5), ("Pair", 8, 3), ("Last",)]
        self.assertEqual(found, {"name": b"a/B", "parts": parts})
        self.assertEqual(definitions.applied("name_of", [found]), b"a/B")
        self.assertEqual(definitions.applied("pairs", [1, []]), [])

    def test_constructors_and_texts(self) -> None:
        definitions = self.definitions()
        self.assertEqual(definitions.applied("above", [("None",), [b"b"]]), [b"b"])
        self.assertEqual(definitions.applied("above", [("Some", b"a"), [b"b"]]), [b"a", b"b"])
        self.assertEqual(definitions.applied("count_of", [[b"a", b"b"]]), 5)
        self.assertEqual(definitions.value("escaped"), b'a"\\\n')

    def test_what_no_clause_takes(self) -> None:
        with self.assertRaises(ValueError):
            self.definitions().applied("pairs", [1])


def of_javac(methods: str) -> bytes:
    """A class A whose methods are named: `made` a constructor with code, and others whose bodies are empty."""
    pool = Pool()
    classes = pool.class_of("A"), pool.class_of("java/lang/Object")
    above = pool.member(METHODREF, "java/lang/Object", "<init>", "()V")
    empty = b"\x2a\xb7" + above.to_bytes(2, "big") + b"\xb1"
    codes = {"made": b"\x2a" + empty, "public": empty, "private": empty}
    codes.update(sets=b"\x01\xb3\0\1\xb1", does=b"\x03\x57\xb1")
    flags = {"private": 2, "sets": 8, "does": 8}
    found = []
    for method in methods.split():
        name = "<clinit>" if method in ("sets", "does") else "<init>"
        code = code_attribute(pool.text("Code"), 2, 1, codes[method])
        found.append(member(flags.get(method, 1), pool.text(name), pool.text("()V"), [code]))
    return class_file(pool.entries, 0x21, classes, methods=found)


class LaidOut(unittest.TestCase):
    def flags(self, methods: str) -> str:
        told = Told(laid_out(of_javac(methods)))
        lengths = [len(one.code["code"]) if one.code else "native" for one in told.methods]
        return " ".join(f"{one.flags:x} {length}" for one, length in zip(told.methods, lengths))

    def test_constructors(self) -> None:
        found = [self.flags(methods) for methods in ("public", "private", "made", "public made", "sets")]
        self.assertEqual(found, ["101 native", "", "1 6", "1 6 101 native", ""])

    def test_an_initialiser_that_does_something(self) -> None:
        with self.assertRaises(BuiltInFault):
            laid_out(of_javac("does"))

    def test_the_order_of_the_pool(self) -> None:
        tree = laid_out(of_javac("public made"))
        texts = [entry[1] for entry in tree["pool"] if entry[0] == "Utf8"]
        self.assertEqual(texts, [b"A", b"java/lang/Object", b"<init>", b"()V", b"Code", b"<init>", b"()V"])
        self.assertEqual(spelled(laid_out(spelled(tree))), spelled(tree))

    def test_another_version(self) -> None:
        data = of_javac("public")
        with self.assertRaises(BuiltInFault):
            read_tree(data[:7] + b"\x34" + data[8:])


class InTypings(unittest.TestCase):
    def test_a_constructor(self) -> None:
        told = Told(laid_out(of_javac("made")))
        found = built_in_typings.Search({"A": told}, told, told.methods[0]).found
        this, made = ("UninitialisedThis", "A", 0), ("OfType", "A", 0)
        frames = {at: (frame.locals, frame.stack, frame.constructed) for at, frame in found.items()}
        before = {at: ((this,), (this,) * at, False) for at in range(3)}
        self.assertEqual(frames, {**before, 5: ((made,), (made,), True)})

    def test_an_instruction_that_is_not_known(self) -> None:
        told = Told(laid_out(of_javac("made")))
        method = told.methods[0]
        assert method.code is not None
        method.code["code"] = list(b"\x2a\x61\xac")
        with self.assertRaises(built_in_typings.Fault):
            built_in_typings.Search({"A": told}, told, method)


class InTables(unittest.TestCase):
    def test_methods_with_code_stand_first(self) -> None:
        tree = laid_out(of_javac("public made"))
        form = built_in_tables.form_of(tree)
        self.assertEqual([name for name, _, _ in form.coded], ["init"])
        self.assertEqual(form.operands[-1], ("Utf8", b"Code"))
        tree["methods"].reverse()
        with self.assertRaises(BuiltInFault):
            built_in_tables.form_of(tree)

    def test_texts(self) -> None:
        self.assertEqual(built_in_tables.codes(b'a"\n'), '(codes "a\\"\\n")')
        self.assertEqual(built_in_tables.codes(b"\xc0\x80"), "(0xc0 ∷ 0x80 ∷ [])")
        self.assertEqual(built_in_tables.literal(b"a\\\x80"), 'b"a\\\\\\x80"')

    def test_a_class_in_the_list_of_all(self) -> None:
        names = ("java/lang/ArithmeticException", "java/lang/Cloneable", "java/lang/String", "java/lang/Throwable")
        forms = [built_in_tables.form_of(read_tree(built_in_file(name).read_bytes())) for name in names]
        constructors = [built_in_tables.class_text(form).rpartition(" (")[2] for form in forms]
        self.assertEqual(constructors[0], "constructor ∷ with_message ∷ [])")
        self.assertTrue(built_in_tables.class_text(forms[1]).endswith(" []"))
        self.assertEqual(constructors[2:], ["string_class", "throwable_class"])

    def test_a_long_class_has_its_code_apart(self) -> None:
        forms = [built_in_tables.form_of(laid_out(of_javac(methods))) for methods in ("public", "made " * 200)]
        names = [*built_in_tables.definitions(forms), *built_in_tables.tables(forms)]
        defined = ["BuiltIn.antt", "built_in.antt", "built_in/ACode.antt", "built_in/A.antt"]
        self.assertEqual(names, [*defined, "mod.rt", "a_code.rt", "a.rt"])


class Kept(unittest.TestCase):
    def test_each_class_is_what_its_file_spells(self) -> None:
        for name in built_in_names():
            data = built_in_file(name).read_bytes()
            self.assertEqual(spelled(read_tree(data)), data)
            self.assertEqual(Told(read_tree(data)).name.decode(), name)

    def test_superclasses_come_first(self) -> None:
        names = built_in_names()
        for name in names[1:]:
            above = Told(read_tree(built_in_file(name).read_bytes())).superclass
            assert above is not None
            self.assertLess(names.index(above.decode()), names.index(name))
