"""Twins of the library: each is a diff of a class, and names a program that is there."""

import pathlib
import re
import shutil
import tempfile
import unittest

from tools.library_twins import LIBRARY, TWINS, make_mistake, test_of


class Twins(unittest.TestCase):
    def test_each_names_a_searched_program(self) -> None:
        found = {diff.stem: test_of(diff) for diff in TWINS.glob("*.diff")}
        self.assertTrue(found)
        self.assertEqual([name for name, test in found.items() if test is None or not test.is_file()], [])

    @unittest.skipUnless(shutil.which("patch"), "there is no patch")
    def test_each_changes_one_class(self) -> None:
        for diff in sorted(TWINS.glob("*.diff")):
            named = re.findall(r"(?m)^--- a/(.*)$", diff.read_text(encoding="utf-8"))
            self.assertEqual(len(named), 1, diff.name)
            source = LIBRARY / "sources" / named[0]
            with tempfile.TemporaryDirectory() as folder:
                copy = pathlib.Path(folder) / named[0]
                copy.parent.mkdir(parents=True)
                shutil.copy(source, copy)
                make_mistake(diff, pathlib.Path(folder))
                self.assertNotEqual(copy.read_bytes(), source.read_bytes(), diff.name)


if __name__ == "__main__":
    unittest.main()
