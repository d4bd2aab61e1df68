"""Cases: their text, what they print, and how they are run."""

import pathlib
import tempfile
import unittest
from typing import List

from tools.case_runs import TextRun
from tools.cases import CaseFolder, CaseReader, TextFault, answers, blocks_of, changed, file_lines, read_text, topics
from tools.outcomes import Outcome, in_words, is_replay

TEXT = """# A comment.
file a.class
  cafebabe 00
  31
file b.class from a.class
  at 1 ff00
  add 0102
file c.class from b.class
  cut 2
text s.schedule
  0*2   1
  2
case first
  replay --schedule s.schedule --objects 7 a.class b.class
case second
  replay --schedule missing.schedule a.class
case third
  verify a.class
told
input c.class
shown made
"""


class Texts(unittest.TestCase):
    def setUp(self) -> None:
        self.text = CaseReader("topic").read(TEXT)
        self.cases = CaseFolder([])
        self.cases.take(self.text)

    def fault(self, line: int, what: str, text: str) -> None:
        with self.assertRaises(TextFault) as raised:
            CaseReader("topic").read(text)
        self.assertEqual(str(raised.exception), f"topic.cases line {line}: {what}")

    def test_files(self) -> None:
        files = self.cases.files("first")
        self.assertEqual(files["a.class"], bytes.fromhex("cafebabe0031"))
        self.assertEqual(files["b.class"], bytes.fromhex("caff00be00310102"))
        self.assertEqual(files["c.class"], bytes.fromhex("caff"))
        self.assertEqual(files["s.schedule"], b"0*2 1\n2\n")

    def test_words(self) -> None:
        third = self.cases.cases["third"]
        self.assertEqual(third.words, ["verify", "a.class"])
        self.assertEqual((third.is_told, third.input, third.shown), (True, "c.class", "made"))
        found = self.cases.parts("first")
        self.assertEqual(found, ("s.schedule", ["--objects", "7"], ["a.class", "b.class"]))
        self.assertEqual(self.cases.parts("third"), (None, [], ["a.class"]))
        with self.assertRaises(ValueError):
            self.cases.replayed("third")

    def test_replays_have_all_their_files(self) -> None:
        self.assertEqual(list(self.cases.replays()), ["first"])

    def test_changes(self) -> None:
        self.assertEqual(changed(b"\1\2\3", ["cut", "1"]), b"\1")
        self.assertEqual(changed(b"\1\2\3", ["at", "1", "09"]), b"\1\x09\3")
        self.assertEqual(changed(b"\1", ["add", "0203"]), b"\1\2\3")

    def test_a_file_is_read_as_it_is_written(self) -> None:
        data = bytes(range(256))
        again = CaseReader("topic").read("\n".join(file_lines("x", data)))
        self.assertEqual(again.files, {"x": data})

    def test_faults(self) -> None:
        self.fault(1, "an indented line of no section", "  01")
        self.fault(1, "none of the sections of a text of cases", "file a b")
        self.fault(3, "no pairs of hexadecimal digits", "\nfile a\n  012")
        self.fault(2, "the file was given before", "file a\ntext a")
        self.fault(1, "the file that is to be changed isn't given above", "file a from b")
        self.fault(3, "a change past the end of the file", "file a\nfile b from a\n  at 1 00")
        self.fault(3, "neither `at OFFSET HEX` nor `cut LENGTH` nor `add HEX`", "file a\nfile b from a\n  cut")
        self.fault(3, "a second command line of a case", "case a\n  run\n  verify")
        self.fault(2, "it belongs to no case", "recorded a\ntold")
        self.fault(2, "no number of times", "runs\n  --seed 1")
        self.fault(1, "the text whose files are wanted isn't there", "files nothing.cases")

    def test_files_of_another_text(self) -> None:
        with tempfile.TemporaryDirectory() as folder:
            (pathlib.Path(folder) / "other.cases").write_text("text a\n  1\n")
            read = CaseReader("topic", pathlib.Path(folder)).read("files other.cases\nfile b from a\n  add 00\n")
        self.assertEqual(read.files, {"a": b"1\n", "b": b"1\n\0"})


# A program in the place of `jvm`, which says its words and its input, writes a file, and explains.
STAND_IN = """#!/bin/sh
echo "$@"
cat
echo 7 > made
echo refused >&2
echo "  since it is so" >&2
exit 2
"""

ANSWER = "case a\nverify x\n1\nrefused\nstatus 2\nrecorded made\n  370a\n"


class Runs(unittest.TestCase):
    def differing(self, notes: str, answer: str) -> int:
        """How many cases of a text differ from their answer."""
        text = CaseReader("topic").read(f"text x\n  1\ncase a\n  verify x\ninput x\n{notes}")
        with tempfile.TemporaryDirectory() as scratch, tempfile.TemporaryDirectory() as folder:
            program = pathlib.Path(scratch) / "jvm"
            program.write_text(STAND_IN)
            program.chmod(0o755)
            run = TextRun(program, text, pathlib.Path(folder))
            return len(list(run.differences({"a": answer})))

    def test_all_is_compared(self) -> None:
        self.assertEqual(self.differing("shown made", ANSWER), 0)
        for wrong in ("case a", "verify x", "1\n", "refused\n", "status 2", "recorded made", "370a"):
            self.assertEqual(self.differing("shown made", ANSWER.replace(wrong, "else\n", 1)), 1, wrong)
        self.assertEqual(self.differing("shown made", ""), 1)
        self.assertEqual(self.differing("shown x", ANSWER.split("recorded")[0] + "recorded x is missing\n"), 0)

    def test_what_is_told_a_person_is_compared_where_the_case_says_so(self) -> None:
        whole = ANSWER.replace("refused\n", "refused\n  since it is so\n")
        self.assertEqual(self.differing("shown made\ntold", whole), 0)
        self.assertEqual(self.differing("shown made\ntold", ANSWER), 1)
        self.assertEqual(self.differing("shown made", whole), 0)
        self.assertEqual(self.differing("shown made", whole.replace("so", "not so")), 1)
        self.assertEqual(self.differing("advised", "case a\n"), 0)


class Outcomes(unittest.TestCase):
    def test_replays(self) -> None:
        ran = Outcome(5, b"7\nevents 3\nend budget\n", b"")
        self.assertTrue(is_replay(ran, Outcome(5, b"7\nevents 3\nend schedule\n", b"")))
        for other in (b"8\nevents 3\nend schedule\n", b"7\nevents 3\nend budget\n", b""):
            self.assertFalse(is_replay(ran, Outcome(5, other, b"")))
        quiet = Outcome(0, b"7\nevents 3\nend quiet\n", b"")
        self.assertTrue(is_replay(quiet, quiet))
        self.assertFalse(is_replay(quiet, quiet._replace(status=1)))
        refused = Outcome(2, b"", b"refused\n")
        self.assertFalse(is_replay(refused, refused))

    def test_words(self) -> None:
        self.assertEqual(in_words("verify", Outcome(0, b"", b"")), "verify accepted")
        report = b"events 3\nend refused 3 memory\n"
        self.assertEqual(in_words("run", Outcome(3, report, b"")), "run end refused memory")
        said = b"refused 1 Malformed file 0 offset 117 Truncated\n"
        self.assertEqual(in_words("disasm", Outcome(2, b"", said)), "disasm refused Malformed Truncated")
        said = b"refused 4 NoTyping file 0 method 1 offset 3\n"
        self.assertEqual(in_words("verify", Outcome(2, b"", said)), "verify refused NoTyping")


class Answers(unittest.TestCase):
    def test_each_case_has_its_answer(self) -> None:
        names: List[str] = []
        for topic in topics():
            own = [case.name for case in read_text(topic).cases]
            self.assertEqual([line[5:] for line in answers(topic).split("\n") if line.startswith("case ")], own, topic)
            names += own
        self.assertEqual(len(set(names)), len(names))

    def test_blocks(self) -> None:
        blocks = blocks_of("case a\n7\nstatus 0\ncase b\nstatus 2\n")
        self.assertEqual(blocks, {"a": "case a\n7\nstatus 0\n", "b": "case b\nstatus 2\n"})


if __name__ == "__main__":
    unittest.main()
