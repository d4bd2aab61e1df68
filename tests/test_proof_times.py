"""The parts of a check, by when their files were written."""

import unittest

from tools.proof_parts import DEFINITIONS, Part, between, by_kind, dearest

ENDED = [
    (10.0, "Rattle-heap-specs.Words"),
    (12.0, "Rattle-heap-specs.Locks"),
    (15.0, "Rattle-heap-proofs.objects.Heap.add.Lts"),
    (16.0, "Rattle-heap-proofs.objects.lemma"),
    (20.0, "Rattle-heap-proofs.objects.Heap.add.Proof"),
]


class Parts(unittest.TestCase):
    def test_a_part_takes_the_time_since_the_one_before(self) -> None:
        parts = between(reversed(ENDED))
        self.assertEqual([part.seconds for part in parts], [2, 3, 1, 4])
        self.assertEqual(parts[0], Part(2, "Rattle-heap-specs.Locks"))

    def test_kinds(self) -> None:
        kinds = by_kind(between(ENDED))
        self.assertEqual(kinds, {DEFINITIONS: 2, "Lts": 3, "Proof": 4, "lemmas and others": 1})

    def test_the_dearest(self) -> None:
        found = dearest(between(ENDED), 2)
        self.assertEqual(found[0], ("objects.Heap.add", {"Lts": 3, "Proof": 4}))
        self.assertEqual(found[1], ("Rattle-heap-specs.Locks", {DEFINITIONS: 2}))


if __name__ == "__main__":
    unittest.main()
