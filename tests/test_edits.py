"""Wrong bodies: their files, the functions that they change, and what a check says of them."""

import pathlib
import tempfile
import unittest

from tools.body_edits import Edit, Unfit, edited, function_at, in_batches, read_edit
from tools.check_lines import is_judged, judged, those_refused

SOURCE = """
pub fn first(n: u32) -> u32 {
    n + 1
}

impl From<Fault> for Stop {
    fn from(fault: Fault) -> Stop {
        Stop::Fault
    }
}
"""


class Edits(unittest.TestCase):
    def setUp(self) -> None:
        temporary = tempfile.TemporaryDirectory()
        self.addCleanup(temporary.cleanup)
        self.folder = pathlib.Path(temporary.name)
        (self.folder / "src").mkdir()
        (self.folder / "src/lib.rt").write_text(SOURCE)

    def read(self, text: str, name: str = "a.edit") -> Edit:
        (self.folder / name).write_text(text)
        return read_edit(self.folder / name)

    def test_an_edit_is_read(self) -> None:
        found = self.read("file: src/lib.rt\nold: n + 1\nnew: n + 2\n")
        self.assertEqual(found, Edit("a.edit", [("src/lib.rt", "n + 1", "n + 2")]))
        for wrong in ("", "new: x\n", "file: a\nnew: x\n"):
            with self.assertRaises(Unfit):
                self.read(wrong)

    def test_an_old_text_stands_once(self) -> None:
        texts, places = edited(self.read("file: src/lib.rt\nold: n + 1\nnew: n + 2\n"), self.folder, {})
        self.assertIn("n + 2", texts["src/lib.rt"])
        self.assertEqual(function_at("c", places[0], {"c::first"}), "c::first")
        with self.assertRaises(Unfit):
            edited(self.read("file: src/lib.rt\nold: Fault\nnew: x\n"), self.folder, {})

    def test_edits_of_different_functions_are_tried_together(self) -> None:
        one = self.read("file: src/lib.rt\nold: n + 1\nnew: n + 2\n")
        same = self.read("file: src/lib.rt\nold: n +\nnew: n -\n", "b.edit")
        other = self.read("file: src/lib.rt\nold: Stop::Fault\nnew: Stop::None\n", "c.edit")
        functions = {"c::first", "c::StopFromFault::from"}
        batches = in_batches("c", self.folder, [one, same, other], functions)
        self.assertEqual([[edit.name for edit, _ in batch] for batch in batches], [["a.edit", "c.edit"], ["b.edit"]])


class Said(unittest.TestCase):
    def test_a_failed_goal_of_a_function(self) -> None:
        said = "note: src/lib.rt:3:5: the goal ends_well\nfn c::first: not proved\nfn c::other: proved\n"
        self.assertEqual(those_refused("c", said), {"c::first"})

    def test_verdicts(self) -> None:
        refused = "src/lib.rt:3:5: error: `x`: a goal fails\nlogic=not-proved\n"
        self.assertEqual(judged(1, refused, {}), ("refused", ""))
        self.assertEqual(judged(0, "logic=proved\n", {}), ("proves", ""))
        self.assertEqual(judged(1, "src/lib.rt:3:5: error: expected the end\n", {})[0], "failed")

    def test_a_check_that_came_to_its_end(self) -> None:
        self.assertTrue(is_judged("only=2 proved=1\n", {}))
        self.assertFalse(is_judged("stopped\n", {}))


if __name__ == "__main__":
    unittest.main()
