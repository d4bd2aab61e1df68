"""The engines of sweeps in parts, with a worker that is killed; fuzzing in parts; and both over the built `jvm`.

What wants GNU parallel, Dask or the built `jvm` is left out where that isn't there.
"""

import importlib.util
import os
import pathlib
import shutil
import subprocess
import unittest
from typing import List
from unittest import mock

from cluster import fuzzing
from tests.cluster_scratch import LOST_UPDATE, STAND_IN, Scratch
from tools.repository import JVM

SWEEP = ["--seeds", "1..21", "--seeds-of-a-part", "7"]

# Ends the worker that does the second part, the first time that it is done, and writes down what is run.
KILLS = """case "$*" in
*"--seeds 8..14 "*) mkdir '{folder}/killed' 2> /dev/null && kill -9 $PPID ;;
esac
[ "$1" = run ] && echo "$*" >> '{folder}/log'
"""


def is_gnu_parallel() -> bool:
    found = shutil.which("parallel")
    return bool(found) and b"GNU parallel" in subprocess.run([str(found), "--version"], capture_output=True).stdout


HAS_PARALLEL = unittest.skipUnless(is_gnu_parallel(), "GNU parallel isn't there (Debian's package parallel)")
HAS_DASK = unittest.skipUnless(
    importlib.util.find_spec("distributed"), "Dask isn't there (Debian's package python3-distributed)"
)
HAS_JVM = unittest.skipUnless(JVM.is_file(), f"{JVM} isn't built")


class Engines(Scratch):
    def log(self) -> List[str]:
        return (self.path / "log").read_text("utf-8").splitlines()

    def sweeps(self, *engine: str) -> None:
        """A worker is killed in the middle, a part is taken away and done again, and nothing else is."""
        wanted = self.whole("--seeds", "1..21", LOST_UPDATE)
        self.program = self.script("kills", KILLS.format(folder=self.path) + STAND_IN)
        words = ["sweep", "--folder", self.folder(), "--program", self.program, *engine, *SWEEP, LOST_UPDATE]
        told = self.ran(*words)
        self.assertEqual((told.status, told.output), (wanted.status, wanted.output), told.error)
        self.assertTrue((self.path / "killed").is_dir())
        (pathlib.Path(self.folder()) / "parts/3.json").unlink()
        before = len(self.log())
        self.assertEqual(self.ran(*words), wanted)
        self.assertEqual([line.split()[2:4] for line in self.log()[before + 1 :]], [["--seeds", "15..21"]])

    @HAS_PARALLEL
    def test_gnu_parallel(self) -> None:
        self.sweeps("--engine", "parallel", "--jobs", "2")

    @HAS_PARALLEL
    def test_a_part_that_always_fails_on_machines_of_a_file(self) -> None:
        machines = self.path / "machines"
        machines.write_text("2/:\n", encoding="ascii")
        fails = 'case "$*" in *"--seeds 8..14 "*) echo "run refused Memory" >&2; exit 3 ;; esac\n'
        self.program = self.script("fails", fails + STAND_IN)
        words = ["--machines", str(machines), "--tries", "2", *SWEEP, LOST_UPDATE]
        told = self.ran("sweep", "--folder", self.folder(), "--program", self.program, *words)
        self.assertEqual((told.status, told.output), (3, b""))
        lines = told.error.splitlines()
        self.assertEqual(lines[-2:], ["part failed 2 seeds 8..14", "  parts 2 of 3 failed 2 times"])
        self.assertEqual(lines.count("  status 3: run refused Memory"), 2)
        self.assertEqual(sorted(os.listdir(f"{self.folder()}/parts")), ["1.json", "3.json"])

    @HAS_DASK
    def test_dask(self) -> None:
        self.sweeps("--engine", "dask", "--jobs", "1")

    @HAS_DASK
    def test_a_scheduler_that_is_not_there(self) -> None:
        scheduler = ["--engine", "dask", "--scheduler", "nothing://"]
        told = self.ran("sweep", "--folder", self.folder(), "--program", self.program, *scheduler, *SWEEP, LOST_UPDATE)
        self.assertEqual((told.status, told.error.splitlines()[0]), (6, "engine refused Scheduler nothing://"))
        self.assertFalse(os.path.exists(self.folder()))


class Fuzzing(Scratch):
    def test_runs_that_do_not_differ(self) -> None:
        self.do_parts(self.planned("fuzz", "--seeds", "1..4", LOST_UPDATE, step=2))
        told = self.told("merge", self.folder())
        self.assertEqual((told.status, told.output), (0, b"runs 4, seeds 1..4\nevents 168\nfuzz done\n"))

    def test_the_first_difference_is_kept(self) -> None:
        self.program = self.script("differs", 'case "$*" in *"--seed 4 "*) echo 9; exit 1 ;; esac\n' + STAND_IN)
        self.do_parts(self.planned("fuzz", "--seeds", "1..9", LOST_UPDATE, step=3))
        self.assertEqual(sorted(os.listdir(f"{self.folder()}/parts")), ["1.json", "2.found.json"])
        told = self.told("merge", self.folder())
        into = pathlib.Path(self.folder()) / "difference"
        self.assertEqual((told.status, told.output.decode().splitlines()[2:]), (1, ["fuzz found", "seed 4", str(into)]))
        self.assertEqual((into / "jvm.txt").read_text("ascii"), "9\nstatus 1\n")
        self.assertEqual((into / "oracle.txt").read_text("ascii").splitlines()[-2:], ["end quiet", "status 0"])
        self.assertEqual((into / "files/1/LostUpdate.class").read_bytes(), pathlib.Path(LOST_UPDATE).read_bytes())
        self.assertEqual((into / "oracle.schedule").read_bytes()[:5], b"JSCH\1")

    def test_sets(self) -> None:
        said = "# seed 7: it differs\\nfile A\\n  cafe\\n5 sets of class files, 1 wrong\\n"
        wrong = f"[ $6 = 6 ] && printf '{said}' && exit 1\n"
        text = "echo \"$7 sets of class files, 0 wrong\"; echo '  2 run accepted'\n"
        fuzz = mock.patch.object(fuzzing, "FUZZ", self.script("fuzz", text))
        fuzz.start()
        self.addCleanup(fuzz.stop)
        numbers = self.planned("fuzz", "--seeds", "1..9", "--sets", step=5)
        self.do_parts(numbers)
        told = self.told("merge", self.folder())
        whole = b"9 sets of class files, 0 wrong\n  4 run accepted\nfuzz done\n"
        self.assertEqual((told.status, told.output), (0, whole))
        shutil.rmtree(self.folder())
        self.script("fuzz", wrong + text)
        self.do_parts(self.planned("fuzz", "--seeds", "1..10", "--sets", step=5))
        told = self.told("merge", self.folder())
        self.assertEqual((told.status, told.output.splitlines()[0]), (1, b"10 sets of class files, 1 wrong"))
        kept = pathlib.Path(self.folder()) / "difference/set.cases"
        self.assertEqual(kept.read_bytes(), b"# seed 7: it differs\nfile A\n  cafe\n")


@HAS_JVM
class Programs(Scratch):
    """The built `jvm` itself."""

    def setUp(self) -> None:
        super().setUp()
        self.program = str(JVM)

    def test_a_sweep_is_that_of_the_whole(self) -> None:
        for name in ("records", "wanted"):
            os.mkdir(self.folder(name))
        options = ["--seeds", "1..200", "--policy", "random", "--frames", "100", LOST_UPDATE]
        self.do_parts(self.planned("sweep", "--record", self.folder("records"), *options, step=60))
        wanted = self.whole("--record", self.folder("wanted"), *options)
        self.assertEqual(self.told("merge", "--record", self.folder("records"), self.folder()), wanted)
        records, schedules = (
            {path.name: path.read_bytes() for path in pathlib.Path(self.folder(name)).iterdir()}
            for name in ("records", "wanted")
        )
        self.assertEqual(records, schedules)
        self.assertEqual(len(schedules), 2)

    def test_a_sweep_that_finds(self) -> None:
        options = ["--seeds", "8..200", "--for", "output=1", "--budget", "1000", "--cells", "07", LOST_UPDATE]
        self.do_parts(self.planned("sweep", *options, step=2))
        self.assertEqual(self.told("merge", self.folder()), self.whole(*options))

    def test_runs_that_do_not_differ(self) -> None:
        self.do_parts(self.planned("fuzz", "--seeds", "1..20", LOST_UPDATE, step=10))
        told = self.told("merge", self.folder())
        self.assertEqual((told.status, told.output), (0, b"runs 20, seeds 1..20\nevents 840\nfuzz done\n"))

    def test_its_faults_are_handed_on(self) -> None:
        words = ["--folder", self.folder(), "--program", self.program, "--seeds", "1..20"]
        told = self.told("sweep", *words, "--for", "nothing", LOST_UPDATE)
        self.assertEqual(told.status, 6)
        self.assertIn("nothing", told.error)
        told = self.told("sweep", *words, "--main", "Missing", LOST_UPDATE)
        self.assertEqual(told.status, 6)
        self.assertFalse(os.path.exists(self.folder()))


if __name__ == "__main__":
    unittest.main()
