"""Builds of a small repository, by a command that stands in for `rt`."""

import fcntl
import os
import pathlib
import shutil
import signal
import subprocess
import sys
import tempfile
import time
import unittest
from typing import Dict, List, Tuple

from tools.repository import ROOT

CRATES = "low:\nleft: low\nright: low\njvm: left right\nbeside: low\n"

# As `rt` it works alone in the folders of a crate and of those below it, and takes over what was proved elsewhere.
STAND_IN = f"""#!{sys.executable}
import fcntl, os, pathlib, sys, time
if sys.argv[1] == "version":
    sys.exit(print("stand-in"))
folder = pathlib.Path.cwd()
with open(os.environ["CALLS"], "a") as calls:
    print(sys.argv[1], folder.name, file=calls)
crates = dict(line.split(":") for line in (folder / "../../crates.txt").read_text().splitlines())
shared = pathlib.Path(os.environ["SHARED"])

def below(name):
    return {{one for it in crates[name].split() for one in {{it, *below(it)}}}}

held = [os.open(folder.parent / name, os.O_RDONLY) for name in sorted({{folder.name, *below(folder.name)}})]
for one in held:
    fcntl.flock(one, fcntl.LOCK_EX)
for name in [*sorted(below(folder.name), key=list(crates).index), folder.name]:
    (folder.parent / name / "out").mkdir(exist_ok=True)
    if not (shared / name).exists():
        begun = time.time()
        (shared / (name + ".at-work")).write_text(str(os.getpid()))
        text = (folder.parent / name / "src/lib.rt").read_text()
        time.sleep(60 if text == "slow" else 0.3)
        if text == "wrong":
            sys.exit(f"{{name}}::one: a goal is open in {{folder}}")
        print("logic=proved functions=1")
        (shared / name).write_text(f"{{folder.parent.parent}} {{begun}} {{time.time()}}")
if sys.argv[1] == "run":
    (folder / "out" / folder.name).write_text("built")
    print("jvm 1")
"""


class Builds(unittest.TestCase):
    def setUp(self) -> None:
        scratch = tempfile.TemporaryDirectory()
        self.addCleanup(scratch.cleanup)
        self.scratch = pathlib.Path(scratch.name).resolve()
        self.root = self.scratch / "repository"
        (self.root / "tools").mkdir(parents=True)
        for path in [ROOT / "tools/build", *(ROOT / "tools").glob("*.py")]:
            shutil.copy(path, self.root / "tools")
        (self.root / "crates.txt").write_text(CRATES)
        (self.root / "HANDLES").write_text("Handles allowed: none.\n")
        for name in ("low", "left", "right", "jvm", "beside"):
            self.write(name, "right")
        (self.scratch / "shared").mkdir()
        (self.scratch / "bin").mkdir()
        (self.scratch / "bin/rt").write_text(STAND_IN)
        (self.scratch / "bin/rt").chmod(0o755)
        self.environment = {
            **os.environ,
            "PATH": f"{self.scratch}/bin:{os.environ['PATH']}",
            "SHARED": f"{self.scratch}/shared",
            "CALLS": f"{self.scratch}/calls",
            "XDG_CACHE_HOME": f"{self.scratch}/cache",
        }

    def write(self, name: str, text: str) -> None:
        (self.root / "crates" / name / "src").mkdir(parents=True, exist_ok=True)
        (self.root / "crates" / name / "src/lib.rt").write_text(text)

    def command(self, *words: str) -> List[str]:
        return [sys.executable, "-B", str(self.root / "tools/build"), *words]

    def build(self, *words: str) -> "subprocess.CompletedProcess[str]":
        return subprocess.run(self.command(*words), env=self.environment, capture_output=True, text=True)

    def proved(self) -> Dict[str, Tuple[str, float, float]]:
        """Where and when each crate was proved."""
        found = {}
        for path in (self.scratch / "shared").iterdir():
            if path.suffix != ".at-work":
                folder, begun, ended = path.read_text().split()
                found[path.name] = (folder, float(begun), float(ended))
        return found

    def test_crates_are_proved_side_by_side(self) -> None:
        ran = self.build("--jobs", "2")
        self.assertEqual((ran.returncode, ran.stderr), (0, ""))
        lines = ran.stdout.splitlines()
        self.assertTrue(lines[0].startswith("low: 1 of 4 crates are proved, "), lines)
        self.assertTrue(lines[0].split("; now ")[1].startswith("left 0 s, right 0 s"), lines)
        self.assertEqual(lines[-1], "crates/jvm/out/jvm")
        self.assertEqual(len(lines), 5)
        proved = self.proved()
        self.assertEqual(set(proved), {"low", "left", "right", "jvm"})
        (first, left_begun, left_ended), (second, right_begun, right_ended) = proved["left"], proved["right"]
        self.assertNotEqual(first, second)
        self.assertLess(max(left_begun, right_begun), min(left_ended, right_ended))
        self.assertEqual(proved["jvm"][0], str(self.root))
        self.assertEqual((self.root / "crates/jvm/out/jvm").read_text(), "built")
        self.assertEqual({path.name for path in (self.root / "out/verdicts").iterdir()}, {*proved, ".toolchain"})
        self.assertEqual(list((self.scratch / "cache/jvm-build").iterdir()), [])

    def test_what_is_proved_is_not_asked_for_again(self) -> None:
        calls = self.scratch / "calls"
        self.assertEqual(self.build("--jobs", "2").returncode, 0)
        self.assertEqual(calls.read_text().splitlines()[0], "lib low")
        calls.unlink()
        self.assertEqual(self.build("--jobs", "2").stdout.splitlines()[-1], "crates/jvm/out/jvm")
        self.assertEqual(calls.read_text(), "run jvm\n")
        calls.unlink()
        self.write("left", "changed")
        self.assertEqual(self.build("--jobs", "2").returncode, 0)
        self.assertEqual(calls.read_text(), "lib left\nrun jvm\n")
        shutil.rmtree(self.root / "out")
        calls.unlink()
        self.assertEqual(self.build("--jobs", "2").returncode, 0)
        self.assertEqual(len(calls.read_text().splitlines()), 4)

    def test_one_at_once_needs_no_copy(self) -> None:
        self.assertEqual(self.build("--jobs", "1").returncode, 0)
        self.assertEqual({folder for folder, _, _ in self.proved().values()}, {str(self.root)})
        self.assertFalse((self.scratch / "cache").exists())

    def test_what_is_not_proved_ends_a_build(self) -> None:
        self.write("left", "wrong")
        self.write("right", "slow")
        ran = self.build("--jobs", "2")
        self.assertEqual(ran.returncode, 1)
        self.assertIn(f"left::one: a goal is open in {self.root}/crates/left", ran.stdout)
        self.assertEqual(ran.stderr, "tools/build: left isn't proved\n")

    def test_an_interrupted_build_goes_on(self) -> None:
        self.write("right", "slow")
        unread, read = subprocess.DEVNULL, subprocess.PIPE
        with subprocess.Popen(self.command("--jobs", "2"), env=self.environment, stdout=unread, stderr=read) as begun:
            at_work = self.scratch / "shared/right.at-work"
            while not ((self.scratch / "shared/left").exists() and at_work.exists() and at_work.read_text()):
                self.assertIsNone(begun.poll())
                time.sleep(0.1)
            time.sleep(1)
            begun.send_signal(signal.SIGINT)
            assert begun.stderr
            said = begun.stderr.read().decode()
        self.assertEqual(begun.returncode, 130)
        self.assertEqual(said, "tools/build: ended, 2 of 4 crates are proved\n")
        with self.assertRaises(ProcessLookupError):
            os.kill(int(at_work.read_text()), 0)
        before = self.proved()
        self.write("right", "right")
        self.assertEqual(self.build("--jobs", "2").returncode, 0)
        after = self.proved()
        self.assertEqual({name: after[name] for name in before}, before)

    def test_one_build_works_in_a_repository(self) -> None:
        with (self.root / "tools/build").open() as held:
            fcntl.flock(held, fcntl.LOCK_EX)
            ran = self.build()
        self.assertEqual((ran.returncode, ran.stderr), (1, "tools/build: another build is at work here\n"))

    def test_seconds_are_kept(self) -> None:
        (self.root / "tools/build-seconds").write_text("left 0.1\nother 7\n")
        self.assertEqual(self.build("--keep-seconds").returncode, 0)
        kept = dict(line.split() for line in (self.root / "tools/build-seconds").read_text().splitlines())
        self.assertIn("left", kept)
        self.assertNotIn("other", kept)


if __name__ == "__main__":
    unittest.main()
