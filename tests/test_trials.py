"""Trials: other forms of files, events behind fronts, and sets that are changed."""

import collections
import pathlib
import random
import tempfile
import unittest
from typing import List, Optional

from tools.event_trials import Report, fate_of, may_be, report_of
from tools import set_trials
from tools.form_trials import Form, Subject, changes_of_a_byte, fronts, fronts_by_rules, tried
from tools.outcomes import Outcome
from tools.set_trials import changed, limits, run_options

REFUSED = "refused 1 Malformed file 0 offset 1 Truncated"

SUBJECT = Subject("s", ["--budget", "9"], ["A", "B"], {"s": b"12", "A": b"123", "B": b"4"})


def script(folder: str, says: str) -> pathlib.Path:
    """A program in the place of `jvm` that is a shell script."""
    program = pathlib.Path(folder) / "jvm"
    program.write_text(f"#!/bin/sh\n{says}\n")
    program.chmod(0o755)
    return program


class Forms(unittest.TestCase):
    def test_fronts(self) -> None:
        self.assertEqual([form.data for form in fronts(b"abc")], [b"", b"a", b"ab"])
        self.assertEqual(sum(fronts_by_rules(SUBJECT).values()), 2 + 3 * 4)

    def test_changes_of_a_byte(self) -> None:
        data = b"\0\1\2"
        forms = {form.data for form in changes_of_a_byte(data, 1)}
        self.assertEqual(len(forms), 3 * 255)
        self.assertTrue(all(sum(one != other for one, other in zip(form, data)) == 1 for form in forms))
        self.assertEqual(len(list(changes_of_a_byte(data, 97))), 3 * 255 // 97)

    def wrong(self, name: str, says: str) -> Optional[str]:
        """What is wrong with a form."""
        with tempfile.TemporaryDirectory() as folder:
            return tried(script(folder, says), SUBJECT, name, Form("first 1 bytes", b"1")).wrong

    def test_what_is_wrong(self) -> None:
        refuses = f"echo '{REFUSED}' >&2; exit 2"
        self.assertIsNone(self.wrong("A", refuses))
        self.assertIsNone(self.wrong("s", "echo 7"))
        self.assertEqual(self.wrong("A", f"[ $1 = disasm ] && exit; {refuses}"), "listed otherwise than verified")
        self.assertIsNone(self.wrong("A", f"[ $1 = disasm ] && exit; {refuses.replace('Truncated', 'Code')}"))
        self.assertEqual(self.wrong("A", f"[ $1 = verify ] || {{ {refuses}; }}"), "listed otherwise than verified")
        self.assertEqual(self.wrong("A", f"[ $1 = replay ] || exit 0; {refuses}"), "verified otherwise than replayed")
        self.assertEqual(self.wrong("s", "date +%N"), "replayed otherwise")


class Events(unittest.TestCase):
    BEFORE = Report("thread 0 runnable\n", 3, "schedule")

    def test_reports(self) -> None:
        found = report_of(Outcome(5, b"thread 0 runnable\nevents 3\nend schedule\n", b""))
        self.assertEqual(found, self.BEFORE)
        self.assertIsNone(report_of(Outcome(2, b"", b"schedule refused Magic\n")))

    def test_fates(self) -> None:
        for after, fate in (
            (Report("", 4, "quiet"), "done"),
            (Report("", 4, "budget"), None),
            (self.BEFORE._replace(end="not enabled 3"), "not enabled"),
            (self.BEFORE._replace(end="refused 3 memory"), "refused"),
            (self.BEFORE._replace(end="not enabled 3", states=""), None),
            (None, None),
        ):
            self.assertEqual(fate_of(self.BEFORE, after), fate)

    def test_what_may_be(self) -> None:
        self.assertTrue(may_be("done", 0, True) and may_be("done", 1, True) and may_be("not enabled", 1, True))
        self.assertFalse(may_be("done", 0, False) or may_be("done", 65_535, True) or may_be("not enabled", 0, True))


class Sets(unittest.TestCase):
    def test_changes(self) -> None:
        data = bytes(range(100))
        found = [changed(data, random.Random(seed)) for seed in range(300)]
        self.assertEqual(found, [changed(data, random.Random(seed)) for seed in range(300)])
        lengths = collections.Counter(len(one) - len(data) for one in found)
        self.assertTrue(lengths[0] > 100 and lengths[1] > 0 and lengths[-1] > 0 and min(lengths) < -1)
        self.assertEqual(changed(b"", random.Random(1)), b"")

    def test_words(self) -> None:
        for seed in range(100):
            words = limits(random.Random(seed))
            self.assertEqual(words[::2], ["--objects", "--cells", "--monitors", "--threads", "--frames"])
            self.assertTrue(int(words[7]) > 0 and int(words[9]) > 0)
        policies = {tuple(run_options(random.Random(seed))[2::2]) for seed in range(100)}
        self.assertEqual(policies, {("--quantum",), ("--seed",), ("--policy", "--seed")})

    def told(self, says: str) -> List[str]:
        """What is said of the set of the seed 7."""
        with tempfile.TemporaryDirectory() as folder:
            return set_trials.tried(script(folder, says), 7)

    def test_what_is_wrong(self) -> None:
        accepts = ": > S; [ $1 = verify ] || [ $1 = disasm ] || printf 'events 0\\nend quiet\\n'"
        self.assertEqual(self.told(accepts)[0], "1 sets of class files, 0 wrong")
        otherwise = accepts.replace("events 0", "events '$(date +%N)'")
        for says, wrong in (("exit 2", "not verified"), ("exit 0", "not run"), (otherwise, "replayed otherwise")):
            told = self.told(says)
            self.assertEqual((told[0], "1 sets of class files, 1 wrong" in told), (f"# seed 7: {wrong}", True))


if __name__ == "__main__":
    unittest.main()
