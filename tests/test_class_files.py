"""Class files: their bytes, and what the oracle reads of them."""

import unittest

from oracle.classes import STATIC, narrowed, parameters, read_class
from oracle.listing import Lines, instruction
from oracle.traces import lined
from tools.class_files import METHODREF, Pool, class_file, class_with_main, member, utf8, with_version_49
from tools.repository import ROOT

PRINTS_SEVEN = bytes.fromhex("b2000d 1007 b60013 b1")


class Bytes(unittest.TestCase):
    def test_a_pool_has_each_entry_once(self) -> None:
        pool = Pool()
        first = pool.member(METHODREF, "A", "m", "()V")
        count = len(pool.entries)
        self.assertEqual(pool.member(METHODREF, "A", "m", "()V"), first)
        self.assertEqual(len(pool.entries), count)
        self.assertEqual(pool.entries[pool.text("m") - 1], utf8("m"))

    def test_the_version_is_set(self) -> None:
        data = bytes.fromhex("cafebabe 0003 0034 0001")
        self.assertEqual(with_version_49(data), bytes.fromhex("cafebabe 0000 0031 0001"))

    def test_the_class_file_that_prints_seven(self) -> None:
        self.assertEqual(class_with_main(PRINTS_SEVEN), (ROOT / "crates/jvm/data/A.class").read_bytes())


class Read(unittest.TestCase):
    def test_main(self) -> None:
        found = read_class(class_with_main(PRINTS_SEVEN, stack=2, local_count=3, ints=[-5]))
        self.assertEqual((found.name, found.superclass, found.interfaces), ("A", "java/lang/Object", []))
        main = found.methods["main", "([Ljava/lang/String;)V"]
        self.assertTrue(main.has(STATIC))
        self.assertEqual((main.code, main.local_count, main.parameter_count), (PRINTS_SEVEN, 3, 1))
        self.assertEqual(found.pool[13], ("member", ("java/lang/System", "out", "Ljava/io/PrintStream;")))
        self.assertEqual(found.pool[20], ("int", -5))

    def test_fields(self) -> None:
        pool = Pool()
        classes = pool.class_of("A"), pool.class_of("B")
        field = member(STATIC, pool.text("f"), pool.text("I"))
        found = read_class(class_file(pool.entries, 1, classes, [field], interfaces=[pool.class_of("B")]))
        self.assertEqual(found.fields, [(STATIC, "f", "I", None)])
        self.assertEqual(found.interfaces, ["B"])

    def test_handlers_and_lines(self) -> None:
        found, lines = read_class(lined()), Lines(lined())
        main = found.methods["main", "([Ljava/lang/String;)V"]
        self.assertEqual(main.handlers, [(0, 5, 6, 9)])
        self.assertEqual([lines.at(main, at) for at in (0, 5, 7)], ["A.java:3", "A.java:6", "A.java:4"])
        self.assertEqual([instruction(main, at) for at in (0, 1, 4)], ["iconst_0", "invokestatic A.half:(I)I", "pop"])

    def test_parameters(self) -> None:
        self.assertEqual([parameters(text) for text in ("()V", "(I[[JLa/B;[Lc;)I", "(BZ)V")], [0, 4, 2])

    def test_narrowing(self) -> None:
        found = [narrowed(kind, 0x1_81FF) for kind in "ZBCSI"]
        self.assertEqual(found, [1, -1, 0x81FF, -0x7E01, 0x1_81FF])


if __name__ == "__main__":
    unittest.main()
