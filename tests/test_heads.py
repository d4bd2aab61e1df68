"""What is read of the heads of sources, and the page of clauses that is made of them."""

import unittest

from tools import clauses, heads
from tools.clauses import Row
from tools.heads import Item

HEAD = """\
//! What is in it, in
//! two lines.
//!
//! More of it.
//!
//! # Proved
//!
//! Of all of them:
//!
//! - `first` (`found`): one thing;
//!   and more of it
//!   - below it
//!     goes on
//!   - another
//! - a second
//!
//! # Not proved
//!
//! - the rest
use x;
//! no head
"""


class Heads(unittest.TestCase):
    def test_first_paragraph(self) -> None:
        self.assertEqual(heads.first_paragraph(HEAD), "What is in it, in two lines.")
        self.assertEqual(heads.first_paragraph("//! One.\nfn f()\n"), "One.")
        self.assertEqual(heads.first_paragraph("fn f()\n"), "")

    def test_sections(self) -> None:
        found = heads.sections(HEAD)
        self.assertEqual(list(found), ["Proved", "Not proved"])
        self.assertEqual(found["Proved"].paragraphs, ["Of all of them:"])
        below = [Item("below it goes on", []), Item("another", [])]
        first = Item("`first` (`found`): one thing; and more of it", below)
        self.assertEqual(found["Proved"].items, [first, Item("a second", [])])
        self.assertEqual(found["Not proved"].items, [Item("the rest", [])])
        self.assertEqual(heads.sections("//! One.\n"), {})

    def test_modules_are_there(self) -> None:
        for _, crates in heads.groups():
            for crate in crates:
                for module in heads.modules(crate):
                    self.assertTrue(heads.first_paragraph(module.source()), module.path)


class Clauses(unittest.TestCase):
    def test_parts(self) -> None:
        text = "`a; b` is one (as this; or. That); two `c.` three. Four and x.y; five"
        found = ["`a; b` is one (as this; or. That);", "two `c.` three.", "Four and x.y;", "five"]
        self.assertEqual(clauses.parts(text), found)
        self.assertEqual(clauses.parts("One."), ["One."])

    def test_names(self) -> None:
        text = "`Type::run` and `stop` (`kept`, the definition `IsKept`), `run`, `word`"
        functions = clauses.named(text, {"run", "stop"})
        self.assertEqual(functions, ["Type::run", "stop", "run"])
        self.assertEqual(clauses.clauses_of(text, functions), ["kept", "IsKept"])

    def test_rows(self) -> None:
        items = [Item("`run` does it (`done`); so it is; nothing else (`kept`)", [Item("of `stop`", [])]), Item("all", [])]
        found = list(clauses.rows(items, {"run", "stop"}, []))
        self.assertEqual(
            found,
            [
                Row(["run"], ["done"], "`run` does it (`done`); so it is;", True),
                Row(["run"], ["kept"], "nothing else (`kept`)", True),
                Row(["stop"], [], "of `stop`", True),
                Row([], [], "all", True),
            ],
        )
        self.assertEqual(found[0].line(), "| `run` | `done` | `run` does it (`done`); so it is; |  |")
        [not_proved] = clauses.rows_of_what_is_not([Item("a | b", [])], set())
        self.assertEqual(not_proved.line(), "|  |  |  | a \\| b |")

    def test_wrong_bodies(self) -> None:
        found = clauses.WRONG_BODY.fullmatch("`a-b`, `c`: all is refused; refused by `x` of `y`: z.")
        self.assertEqual(found and found.groups(), ("`a-b`, `c`", "all is refused", "`x` of `y`: z"))
        text = "Planted by `rt plant`: 5 functions, 1 untried; 11 bodies judged, 1 not judged, 0 not run; none proves."
        planted = clauses.PLANTED.fullmatch(text)
        self.assertEqual(planted and planted.groups(), (None, "5", "1", "11", "1", "0", "none proves"))

    def test_edits(self) -> None:
        self.assertTrue(clauses.edit_of("heap", "monitor-wakes-another").is_file())
        self.assertFalse(clauses.edit_of("heap", "monitor-never").is_file())


if __name__ == "__main__":
    unittest.main()
