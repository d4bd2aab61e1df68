"""The order in which crates are proved side by side."""

import unittest
from typing import Dict, List

from tools.build_plan import Begun, all_below, by_the_clock, chains, next_ones, ready, time_left
from tools.build_report import minutes

CRATES: Dict[str, List[str]] = {
    "model": [],
    "heap": ["model"],
    "linker": ["model"],
    "machine": ["heap"],
    "jvm": ["machine", "linker"],
}
SECONDS = {"model": 10.0, "heap": 20.0, "linker": 60.0, "machine": 5.0, "jvm": 1.0}


class Plans(unittest.TestCase):
    def test_all_below_are_found_once(self) -> None:
        self.assertEqual(all_below(CRATES, "jvm"), {"model", "heap", "linker", "machine"})
        self.assertEqual(all_below(CRATES, "model"), set())

    def test_a_chain_ends_above(self) -> None:
        self.assertEqual(chains(CRATES, SECONDS)["model"], 71)
        self.assertEqual(chains(CRATES, SECONDS)["heap"], 26)

    def test_the_longest_chain_begins_first(self) -> None:
        self.assertEqual(ready(CRATES, SECONDS, set(), set()), ["model"])
        self.assertEqual(ready(CRATES, SECONDS, {"model"}, set()), ["linker", "heap"])
        self.assertEqual(ready(CRATES, SECONDS, {"model", "heap"}, {"linker"}), ["machine"])
        self.assertEqual(ready(CRATES, SECONDS, set(CRATES), set()), [])

    def test_processes_are_shared_by_those_that_begin(self) -> None:
        self.assertEqual(next_ones(CRATES, SECONDS, set(), {}, 4), {"model": 4})
        self.assertEqual(next_ones(CRATES, SECONDS, {"model"}, {}, 3), {"linker": 2, "heap": 1})
        self.assertEqual(next_ones(CRATES, SECONDS, {"model"}, {}, 1), {"linker": 1})
        self.assertEqual(next_ones(CRATES, SECONDS, {"model"}, {"linker": Begun(3)}, 4), {"heap": 1})
        self.assertEqual(next_ones(CRATES, SECONDS, {"model"}, {"linker": Begun(3)}, 2), {})

    def test_the_time_that_is_left(self) -> None:
        self.assertEqual(time_left(CRATES, SECONDS, set(), {}, 1), 96)
        running = {"linker": Begun(1, 15.0)}
        self.assertAlmostEqual(time_left(CRATES, SECONDS, {"model", "heap"}, running, 2), 45 + by_the_clock(1, 2))
        self.assertEqual(time_left(CRATES, SECONDS, {"model"}, {"linker": Begun(1, 100.0)}, 1), 26)
        self.assertAlmostEqual(time_left(CRATES, SECONDS, {"model", "heap", "linker"}, {}, 4), by_the_clock(6, 4))

    def test_minutes(self) -> None:
        self.assertEqual(minutes(29), "less than a minute")
        self.assertEqual(minutes(31), "about a minute")
        self.assertEqual(minutes(2400), "about 40 minutes")


if __name__ == "__main__":
    unittest.main()
