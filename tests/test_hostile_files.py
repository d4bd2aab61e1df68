"""The class files that are hard to link or to verify, and those that are too large."""

import pathlib
import struct
import subprocess
import tempfile
import unittest
from typing import Dict, List

from bench.hostile_files import MAIN, OBJECT, SHAPES, Class, idle_main
from oracle.classes import read_class
from tools.repository import JVM

# An instance field and a static one.
INSTANCE, STATIC = 0x0001, 0x0009


def wide(name: str, above: str, count: int, static_count: int = 0) -> bytes:
    """A class with so many fields, at most 65,536, of which the first so many are static."""
    one = Class(name, above)
    for number in range(count):
        of_type = "[" * (number % 256) + "I"
        one.field(STATIC if number < static_count else INSTANCE, f"f{number // 256}", of_type)
    return one.data()


class Shapes(unittest.TestCase):
    def test_the_first_file_has_the_main(self) -> None:
        for name, shape in SHAPES.items():
            for number in (1, 8):
                with self.subTest(shape=name, number=number):
                    classes = [read_class(data) for data in shape(number)]
                    self.assertEqual(len({one.name for one in classes}), len(classes))
                    self.assertEqual(classes[0].name, MAIN)
                    self.assertIn(("main", "([Ljava/lang/String;)V"), classes[0].methods)

    def test_superclasses_are_there(self) -> None:
        for name, shape in SHAPES.items():
            with self.subTest(shape=name):
                classes = [read_class(data) for data in shape(8)]
                names = {one.name for one in classes}
                for one in classes:
                    above = [one.superclass, *one.interfaces]
                    self.assertEqual([other for other in above if other not in names and "java/" not in str(other)], [])

    def test_too_many(self) -> None:
        with self.assertRaises(struct.error):
            SHAPES["read-fields"](65_536)


@unittest.skipUnless(JVM.is_file(), f"{JVM} isn't built")
class Limits(unittest.TestCase):
    """What linking says at its limits (docs/REFERENCE.md, `TooLarge`)."""

    def said(self, files: Dict[str, bytes], words: List[str]) -> str:
        """What `jvm verify` says first of files."""
        with tempfile.TemporaryDirectory() as folder:
            for name, data in files.items():
                pathlib.Path(folder, name).write_bytes(data)
            command = [str(JVM), "verify", "--quiet", *words]
            ran = subprocess.run(command, cwd=folder, capture_output=True, text=True, timeout=300, check=False)
            return (ran.stdout + ran.stderr).partition("\n")[0]

    def test_instance_fields(self) -> None:
        # V and T stand below W, U below a class that is not there; a Throwable has hidden fields, which don't count
        files = {
            "A": idle_main().data(),
            "W": wide("W", OBJECT, 65_535, 1),
            "V": wide("V", "W", 1),
            "T": wide("T", "W", 2),
            "U": wide("U", "X", 0),
            "E": wide("E", "java/lang/Throwable", 65_535),
        }
        for words, want in (
            ("AWV", "verified 3 classes"),
            ("TW", "refused 8 TooLarge file 0"),
            ("TWU", "refused 4 Unresolved file 2"),
            ("AE", "verified 2 classes"),
        ):
            with self.subTest(files=words):
                self.assertEqual(self.said(files, list(words)), want)

    def test_files(self) -> None:
        files = {"A": idle_main().data(), "B": Class("B").data(), "C": b""}
        for first, count, want in (
            ("A", 64_999, "refused 3 DuplicateClass file 2"),
            ("A", 65_000, "refused 8 TooLarge"),
            ("C", 65_000, "refused 1 Malformed file 0 offset 0 Truncated"),
        ):
            with self.subTest(first=first, count=count):
                self.assertEqual(self.said(files, [first, *["B"] * count]), want)


if __name__ == "__main__":
    unittest.main()
