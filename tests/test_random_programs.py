"""Sets of class files that are made by chance, as the oracle reads them."""

import random
import unittest
from typing import List

from oracle.classes import Class, Method, read_class
from oracle.opcodes import MNEMONICS, SUPPORTED
from tools.library_classes import length_at
from tools.random_programs import CLASSES, LOCAL_COUNT, random_set
from tools.random_statements import CHANGES, MOVES, OPERATIONS

SEEDS = range(40)


def classes(seed: int) -> List[Class]:
    return [read_class(data) for data in random_set(random.Random(seed)).values()]


def methods() -> List[Method]:
    return [method for seed in SEEDS for one in classes(seed) for method in one.methods.values()]


def offsets(code: bytes) -> List[int]:
    """Those of its instructions, and its end."""
    found = [0]
    while found[-1] < len(code):
        found.append(found[-1] + length_at(code, found[-1]))
    return found


class Sets(unittest.TestCase):
    def test_a_seed_says_all(self) -> None:
        self.assertEqual(random_set(random.Random(7)), random_set(random.Random(7)))
        self.assertNotEqual(random_set(random.Random(7)), random_set(random.Random(8)))

    def test_classes(self) -> None:
        for seed in SEEDS:
            found = {one.name: one for one in classes(seed)}
            self.assertEqual(list(found), list(CLASSES))
            self.assertEqual((found["C"].superclass, found["T"].superclass), ("B", "java/lang/Thread"))
            self.assertEqual((found["B"].interfaces, found["C"].interfaces), (["I"], ["java/lang/Runnable"]))
            self.assertIn(("main", "([Ljava/lang/String;)V"), found["A"].methods)
            self.assertIsNone(found["I"].methods["get", "()I"].code)

    def test_handlers_stand_at_instructions(self) -> None:
        for method in methods():
            places = offsets(method.code or b"")
            self.assertEqual(places[-1], len(method.code or b""))
            self.assertLessEqual(method.local_count, LOCAL_COUNT)
            for begin, end, handler, _ in method.handlers:
                self.assertTrue({begin, end, handler} <= {*places} and begin < end <= handler)

    def test_kinds_of_instructions(self) -> None:
        codes = [method.code for method in methods() if method.code]
        found = {MNEMONICS[code[at]] for code in codes for at in offsets(code)[:-1]}
        drawn = {*OPERATIONS, *CHANGES, *(name for names in MOVES for name in names)}
        drawn |= {"invokeinterface", "monitorenter", "monitorexit", "athrow", "tableswitch", "lookupswitch", "aastore"}
        self.assertEqual((drawn - found, found - SUPPORTED), (set(), set()))


if __name__ == "__main__":
    unittest.main()
