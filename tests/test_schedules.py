"""Schedules: texts, files, and events."""

import unittest

from oracle.schedules import Entry, entries_of_events, entries_of_file, entries_of_text, file_of_entries, front
from oracle.schedules import text_of_events
from tools.repository import ROOT


class Schedules(unittest.TestCase):
    ENTRIES = [Entry(0, 0, 3), Entry(2, 1, 1), Entry(65_535, 0, 4_294_967_295)]

    def test_text(self) -> None:
        text = "0*3 # three events\n2.1\n65535*4294967295"
        self.assertEqual(entries_of_text(text), self.ENTRIES)
        self.assertEqual(entries_of_text("1"), [Entry(1, 0, 1)])
        for wrong in ("x", "1**2", "1.2*3", "-1"):
            with self.assertRaises(ValueError):
                entries_of_text(wrong)

    def test_file(self) -> None:
        self.assertEqual(entries_of_file(file_of_entries(self.ENTRIES)), self.ENTRIES)
        stored = (ROOT / "crates/jvm/data/prints-seven.schedule").read_bytes()
        self.assertEqual(file_of_entries(entries_of_file(stored)), stored)
        for wrong in (stored[:-1], b"JSCH\2" + stored[5:], stored + b"\0" * 8):
            with self.assertRaises(ValueError):
                entries_of_file(wrong)

    def test_events(self) -> None:
        events = [(0, 0), (0, 0), (1, 2), (1, 0), (1, 0)]
        self.assertEqual(entries_of_events(events), [Entry(0, 0, 2), Entry(1, 2, 1), Entry(1, 0, 2)])
        self.assertEqual(text_of_events(events), "0*2 1.2 1*2")
        self.assertEqual(text_of_events([]), "")

    def test_front(self) -> None:
        self.assertEqual(front(self.ENTRIES, 2), [Entry(0, 0, 2)])
        self.assertEqual(front(self.ENTRIES, 5), [Entry(0, 0, 3), Entry(2, 1, 1), Entry(65_535, 0, 1)])
        self.assertEqual(front(self.ENTRIES, 0), [])


if __name__ == "__main__":
    unittest.main()
