"""Sweeps in parts: tables that are merged, parts that are refused, and faults before anything is written.

Each part is done in this process, by what stands in for `jvm`; no engine has to be there.
"""

import json
import os
import pathlib
import re
import shutil
import unittest
from unittest import mock
from typing import Dict, List

from cluster.folders import Folder
from cluster.given import check_names, given_files
from cluster.faults import Fault
from cluster.parts import part_text, read_part
from cluster.tables import merged, read_table
from oracle.lessons import LESSONS, class_files
from oracle.sweeps import Sweep, words_of
from tests.cluster_scratch import LOCK_ORDER, LOST_UPDATE, Scratch, Told
from tools.cases import answers
from tools.class_files import class_file, named_class

REPEATED = " A.class"


def swept(path: str, options: str) -> str:
    return Sweep([pathlib.Path(path).read_bytes()], words_of([*options.split(), path])).text(REPEATED)


class Tables(unittest.TestCase):
    def test_the_tables_of_all_cases_are_read_and_written(self) -> None:
        told = r"^case sweep-\S+\n((?:outcome|outcomes) .*?^sweep .*?)(?:status|device)"
        texts = re.findall(told, answers("sweeps"), re.M | re.S)
        self.assertGreater(len(texts), 15)
        for text in texts:
            repeated = re.search(r"jvm run --seed \d+(.*)", text)
            self.assertEqual(read_table(text).text(repeated[1] if repeated else ""), text)

    def test_merged_parts_are_the_whole(self) -> None:
        for path, options in ((LOST_UPDATE, ""), (LOST_UPDATE, "--budget 33"), (LOCK_ORDER, "--for deadlock")):
            whole = swept(path, f"--seeds 2..11 {options}")
            for step in (1, 4, 9, 10):
                parts = [f"{first}..{min(first + step - 1, 11)}" for first in range(2, 12, step)]
                tables = (read_table(swept(path, f"--seeds {seeds} {options}")) for seeds in parts)
                self.assertEqual(merged(tables).text(REPEATED), whole)

    def test_numbers_that_do_not_agree_are_refused(self) -> None:
        text = swept(LOST_UPDATE, "--seeds 1..9")
        for line in text.splitlines():
            for number in re.finditer(r"\d+", line):
                changed = line[: number.start()] + str(int(number[0]) + 1) + line[number.end() :]
                # What is printed, the threads and the events are told once alone; first seeds may be others.
                if changed not in text and re.match(r"outcome|runs|once|unseen", line) and "first" not in line:
                    with self.assertRaises(ValueError, msg=changed):
                        read_table(text.replace(line, changed))
        for end in range(len(text)):
            with self.assertRaises(ValueError):
                read_table(text[:end])


class Merges(Scratch):
    def test_parts_of_a_folder_tell_what_the_whole_tells(self) -> None:
        for options in (["--policy", "random", "--budget", "33"], ["--for", "output=1"]):
            numbers = self.planned("sweep", "--seeds", "1..20", *options, LOST_UPDATE)
            self.assertEqual(numbers, ["1", "2", "3"])
            self.do_parts(numbers)
            whole = self.whole("--seeds", "1..20", *options, LOST_UPDATE)
            self.assertEqual(self.told("merge", self.folder()), whole)
            shutil.rmtree(self.folder())

    def test_the_first_schedule_of_each_outcome(self) -> None:
        for name in ("records", "wanted"):
            os.mkdir(self.folder(name))
        words = ["--seeds", "1..20", "--as-version", "2"]
        self.do_parts(self.planned("sweep", *words, "--record", self.folder("records"), LOST_UPDATE))
        self.assertEqual(os.listdir(self.folder("records")), [])
        self.assertEqual(self.told("merge", "--record", self.folder("records"), self.folder()).status, 0)
        self.whole(*words, "--record", self.folder("wanted"), LOST_UPDATE)
        kept = [
            {path.name: path.read_bytes() for path in pathlib.Path(self.folder(name)).iterdir()}
            for name in ("records", "wanted")
        ]
        self.assertEqual(kept[0], kept[1])
        self.assertEqual(sorted(kept[0]), ["outcome-1.schedule", "outcome-2.schedule"])

    def test_a_text_that_output_differs_from(self) -> None:
        text = self.path / "two"
        text.write_text("2\n", encoding="ascii")
        words = ["--seeds", "1..20", "--for", f"differs={text}", LOST_UPDATE]
        self.do_parts(self.planned("sweep", *words)[:1])
        text.write_text("1\n", encoding="ascii")
        self.assertEqual(self.told("merge", self.folder()).output.splitlines()[-2], b"sweep found")

    def test_nothing_is_done_behind_what_is_found(self) -> None:
        numbers = self.planned("sweep", "--seeds", "1..40", "--for", "output=1", LOST_UPDATE)
        self.do_parts(numbers)
        self.assertEqual(os.listdir(pathlib.Path(self.folder()) / "parts"), ["1.found.json"])
        self.assertEqual(Folder(pathlib.Path(self.folder())).wanted(), [])


class Refusals(Scratch):
    """Parts that are no parts of the plan."""

    # The files of a folder with three parts, by their paths in it.
    made: Dict[str, bytes] = {}

    def setUp(self) -> None:
        super().setUp()
        folder = pathlib.Path(self.folder())
        if not self.made:
            self.do_parts(self.planned("sweep", "--seeds", "1..21", LOST_UPDATE))
            files = [path for path in folder.rglob("*") if path.is_file()]
            self.made.update({str(path.relative_to(folder)): path.read_bytes() for path in files})
        for name, data in self.made.items():
            (folder / name).parent.mkdir(parents=True, exist_ok=True)
            (folder / name).write_bytes(data)
        self.parts = folder / "parts"
        self.second = self.parts / "2.json"

    def refused(self, name: str, path: pathlib.Path) -> None:
        told = self.told("merge", self.folder())
        self.assertEqual((told.status, told.output), (2, b""))
        self.assertEqual(told.error.splitlines()[0], f"part refused {name} {path}")
        self.assertGreater(len(told.error.splitlines()), 1)

    def change(self, **fields: object) -> None:
        """Makes the second part another one, with a checksum that is right."""
        part = read_part(self.second)
        self.second.write_text(part_text(part._replace(**fields)), encoding="ascii")  # type: ignore[arg-type]

    def test_a_part_is_left_out(self) -> None:
        self.second.unlink()
        self.refused("Missing", self.second)

    def test_a_part_is_given_twice(self) -> None:
        for name in ("4.json", "0.json", "2-again.json", "2.found.json"):
            copy = self.parts / name
            shutil.copy(self.second, copy)
            self.refused("Twice", self.second if name == "2.found.json" else copy)
            copy.unlink()

    def test_a_part_has_the_name_of_another(self) -> None:
        self.second.rename(self.parts / "02.json")
        self.refused("Misnamed", self.parts / "02.json")

    def test_a_part_is_cut_or_changed(self) -> None:
        whole = self.second.read_bytes()
        damaged = [whole[:end] for end in range(0, len(whole) - 1, 7)] + [whole + b" "]
        damaged += [whole[:at] + bytes([whole[at] ^ 1 << at % 8]) + whole[at + 1 :] for at in range(0, len(whole), 5)]
        for data in damaged:
            self.second.write_bytes(data)
            with self.assertRaises(Fault) as raised:
                read_part(self.second)
            self.assertEqual(raised.exception.line, f"part refused Damaged {self.second}")
        self.refused("Damaged", self.second)

    def test_a_part_is_of_something_else(self) -> None:
        whole = self.second.read_bytes()
        changes: Dict[str, Dict[str, object]] = {
            "Range": {"seeds": "8..15"},
            "Task": {"options": ["--policy", "random"]},
            "Files": {"files": {"1/LostUpdate.class": "0" * 64}},
            "Version": {"version": "stand-in 2"},
            "Program": {"program": "0" * 64},
            "Table": {"result": json.loads(whole)["part"]["result"], "is_found": False},
        }
        text = changes["Table"]["result"]["text"]  # type: ignore[index]
        changes["Table"] = {"result": {"text": text.replace("seeds 8..14", "seeds 7..13"), "schedules": []}}
        for name, fields in changes.items():
            self.change(**fields)
            self.refused(name, self.second)
            self.second.write_bytes(whole)

    def test_a_part_of_other_class_files_is_made_by_a_worker_that_has_them(self) -> None:
        self.second.unlink()
        kept = pathlib.Path(self.folder()) / "files/1/LostUpdate.class"
        kept.write_bytes(pathlib.Path(LOCK_ORDER).read_bytes())
        told = self.told("part", "--program", self.program, self.folder(), "2")
        self.assertEqual((told.status, told.error.splitlines()[0]), (2, f"file refused Changed {kept}"))

    def test_a_part_of_another_program_is_made_by_a_worker_that_has_it(self) -> None:
        self.second.unlink()
        other = self.script("other", "# Another program.\n" + pathlib.Path(self.program).read_text("utf-8"))
        self.assertEqual(self.told("part", "--program", other, self.folder(), "2").status, 0)
        self.refused("Program", self.second)

    def test_a_part_of_another_step(self) -> None:
        shutil.rmtree(self.folder())
        self.planned("sweep", "--seeds", "1..21", LOST_UPDATE, step=6)
        for name in ("1.json", "2.json", "3.json"):
            (self.parts / name).write_bytes(self.made[f"parts/{name}"])
        self.refused("Range", self.parts / "1.json")


class Faults(Scratch):
    """What is wrong with the words is told before anything is written."""

    def fault(self, first: str, *words: str, status: int = 6) -> Told:
        told = self.told(*words)
        self.assertEqual((told.status, told.output), (status, b""), told.error)
        self.assertEqual(told.error.splitlines()[0], first)
        self.assertFalse(os.path.exists(self.folder()))
        return told

    def sweep(self, *words: str) -> List[str]:
        return ["sweep", "--folder", self.folder(), "--program", self.program, "--only-plan", *words]

    def test_words(self) -> None:
        self.program = self.script("willing", "exit 0\n")
        for seeds in ("9..3", "1..", "x", "0..18446744073709551616"):
            told = f"error: invalid value for --seeds: {seeds!r} is no range of seeds, as 1..200"
            self.fault(told, *self.sweep("--seeds", seeds, LOST_UPDATE))
        told = "error: unrecognized arguments: --seconds"
        self.fault(told, *self.sweep("--seeds", "1..2", "--seconds", LOST_UPDATE))
        told = "error: argument --jobs: '0' is no number from 1 to 4294967295"
        self.fault(told, *self.sweep("--seeds", "1..2", "--jobs", "0", LOST_UPDATE))
        told = "error: invalid value for --seeds-of-a-part"
        self.fault(told, *self.sweep("--seeds", "1..1000001", "--seeds-of-a-part", "1", LOST_UPDATE))
        told = "error: the option --seeds is given twice"
        self.fault(told, *self.sweep("--seeds", "1..2", "--seeds=3..4", LOST_UPDATE))
        self.fault("error: unrecognized arguments: --seed", *self.sweep("--seeds", "1..2", "--seed", LOST_UPDATE))
        self.fault("error: a command has to be there: sweep, fuzz, part, merge", "search", LOST_UPDATE)
        fuzz = ["fuzz", "--folder", self.folder(), "--seeds", "1..2"]
        self.fault("error: class files, or --sets without any, have to be there", *fuzz)
        self.fault("error: class files, or --sets without any, have to be there", *fuzz, "--sets", LOST_UPDATE)

    def test_files(self) -> None:
        self.program = self.script("willing", "exit 0\n")
        missing = self.folder("missing.class")
        self.fault(f"file refused Missing {missing}", *self.sweep("--seeds", "1..2", missing))
        os.mkfifo(self.folder("pipe"))
        told = f"file refused Kind {self.folder('pipe')}"
        self.fault(told, *self.sweep("--seeds", "1..2", self.folder("pipe")))
        told = f"record refused Missing {self.folder('records')}"
        self.fault(told, *self.sweep("--seeds", "1..2", "--record", self.folder("records"), LOST_UPDATE))

    def test_what_the_program_says_is_handed_on(self) -> None:
        self.program = self.script("refuses", "echo 'refused 7 NoMain' >&2; exit 2\n")
        self.fault("refused 7 NoMain", *self.sweep("--seeds", "1..2", LOST_UPDATE), status=2)
        self.program = self.folder("no-program")
        told = self.fault("device", *self.sweep("--seeds", "1..2", LOST_UPDATE))
        self.assertIn("no-program", told.error)

    def test_an_engine_that_is_not_there(self) -> None:
        self.program = self.script("willing", "exit 0\n")
        words = [word for word in self.sweep("--seeds", "1..2", LOST_UPDATE) if word != "--only-plan"]
        with mock.patch.dict(os.environ, PATH=self.folder("bin")):
            self.fault("engine refused Missing parallel", *words)
        self.fault("error: --scheduler is of the engine dask", *words, "--scheduler", "tcp://127.0.0.1:1")
        self.fault("error: --machines is of the engine parallel", *words, "--engine", "dask", "--machines", "x")

    def test_another_plan_in_the_folder(self) -> None:
        self.planned("sweep", "--seeds", "1..21", LOST_UPDATE)
        before = (pathlib.Path(self.folder()) / "plan.json").read_bytes()
        told = self.told(*self.sweep("--seeds", "1..22", "--seeds-of-a-part", "7", LOST_UPDATE))
        self.assertEqual(told.status, 2)
        path = f"{self.folder()}/plan.json"
        self.assertEqual(
            told.error, f"plan refused Differs {path}\n  seeds: '1..21' there, '1..22' asked for\n"
        )
        self.assertEqual(pathlib.Path(path).read_bytes(), before)
        pathlib.Path(path).write_bytes(before[:-5])
        told = self.told("merge", self.folder())
        self.assertEqual((told.status, told.error.splitlines()[0]), (2, f"plan refused Damaged {path}"))


class GivenFiles(Scratch):
    def test_a_folder_has_the_files_that_no_word_before_it_stands_for(self) -> None:
        below = self.path / "classes/below"
        below.mkdir(parents=True)
        for name in ("classes/B.class", "classes/A.class", "classes/below/C.class", "classes/text"):
            (self.path / name).write_bytes(name.encode())
        here = str(self.path)
        found = given_files([f"{here}/classes//A.class", f"{here}/./classes"])
        self.assertEqual(found.words, ["1/A.class", "2"])
        self.assertEqual(list(found.files), ["1/A.class", "2/B.class", "2/below/C.class"])
        self.assertEqual(given_files([f"{here}/classes", f"{here}/classes"]).words, ["1"])

    def test_a_name_with_a_line_feed_is_refused(self) -> None:
        check_names(class_files(LESSONS / "lost-update"))
        entries = [*named_class(1, "A\nruns 1 of 1, first seed 1"), *named_class(3, "java/lang/Object")]
        with self.assertRaises(Fault):
            check_names({"1/A.class": class_file(entries, 0x20, (2, 4))})


if __name__ == "__main__":
    unittest.main()
