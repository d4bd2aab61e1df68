"""What is installed and released, with a command that stands in for `jvm` where that isn't built."""

import pathlib
import shutil
import subprocess
import sys
import tempfile
import unittest
from unittest import mock

from tools.bare_root import NO_ENVIRONMENT, add_libraries, may_change_root, run_in
from tools.installation import SCRIPTS, install
from tools.release_folder import lay_out, packed, try_alone
from tools.repository import JVM

STAND_IN = """#!/bin/sh
case "$*" in
--version) echo 'jvm 7';;
help) printf 'Runs\\n\\nUsage: jvm <COMMAND>\\n\\nCommands:\\n  run   Runs class files\\n  help  Prints this\\n';;
'help run') printf 'Runs class files\\n\\nUsage: jvm run <FILE>...\\n\\nOptions:\\n      --quiet  Says little\\n';;
*) exit 6;;
esac
"""
VERDICTS = "model 0f logic=proved functions=2\n"

MAY_CHANGE_ROOT = unittest.skipUnless(may_change_root(), "no folder may be made the root here")


class Scratch(unittest.TestCase):
    def setUp(self) -> None:
        scratch = tempfile.TemporaryDirectory()
        self.addCleanup(scratch.cleanup)
        self.scratch = pathlib.Path(scratch.name).resolve()

    def stand_in(self) -> None:
        """Has what is installed be the stand-in."""
        program = self.scratch / "jvm"
        program.write_text(STAND_IN)
        program.chmod(0o755)
        patched = mock.patch("tools.installation.JVM", program)
        patched.start()
        self.addCleanup(patched.stop)


class Installations(Scratch):
    def test_what_is_installed(self) -> None:
        self.stand_in()
        prefix = self.scratch / "prefix"
        self.assertEqual(install(str(prefix)), prefix / "bin/jvm")
        share = prefix / "share"
        pages = ["man/man1/jvm.1", "man/man1/jvm-run.1"]
        for name in [*pages, "bash-completion/completions/jvm", "doc/jvm/docs/THEOREM.md"]:
            self.assertTrue((share / name).is_file(), name)
        self.assertTrue((share / "doc/jvm/tools/jvm-cluster").is_file())
        self.assertFalse(list(prefix.rglob("*.new")))

    def test_scripts_stand_alone(self) -> None:
        self.stand_in()
        prefix = self.scratch / "prefix"
        install(str(prefix))
        for name in SCRIPTS:
            command = [sys.executable, "-B", str(prefix / "bin" / name), "--help"]
            ran = subprocess.run(command, cwd="/", env=NO_ENVIRONMENT, capture_output=True, text=True)
            self.assertEqual((ran.returncode, ran.stderr), (0, ""), name)

    def test_a_cluster_takes_the_installed_program(self) -> None:
        self.stand_in()
        prefix = self.scratch / "prefix"
        install(str(prefix))
        (prefix / "bin/jvm").unlink()
        (self.scratch / "A.class").write_bytes(b"")
        words = ["sweep", "--only-plan", "--seeds", "1..2", "--folder", "parts", "A.class"]
        command = [sys.executable, "-B", str(prefix / "bin/jvm-cluster"), *words]
        ran = subprocess.run(command, cwd=self.scratch, capture_output=True, text=True)
        self.assertIn(str(prefix / "bin/jvm"), ran.stderr)


class Releases(Scratch):
    def test_a_release_of_the_same_tree_has_the_same_bytes(self) -> None:
        self.stand_in()
        found = []
        for name in ("first", "second"):
            (self.scratch / name).mkdir()
            folder = lay_out(self.scratch / name, VERDICTS)
            ran = subprocess.run(["sha256sum", "--check", "--quiet", "SHA256SUMS"], cwd=folder, capture_output=True)
            self.assertEqual((ran.returncode, ran.stdout), (0, b""))
            self.assertEqual((folder / "VERDICTS").read_text(), VERDICTS)
            self.assertTrue((folder / "README").read_text().startswith("jvm 7: "))
            found.append(packed(folder).read_bytes())
        self.assertEqual(found[0], found[1])

    @MAY_CHANGE_ROOT
    def test_a_program_runs_where_nothing_else_stands(self) -> None:
        root = self.scratch / "root"
        (root / "bin").mkdir(parents=True)
        shutil.copy(shutil.which("cat") or "/bin/cat", root / "bin/cat")
        add_libraries(root, "/bin/cat")
        (root / "text").write_text("alone")
        self.assertEqual(run_in(root, ["/bin/cat", "text"]).stdout, b"alone")

    @MAY_CHANGE_ROOT
    @unittest.skipUnless(JVM.is_file(), f"{JVM} isn't built")
    def test_the_built_program_runs_alone(self) -> None:
        self.assertTrue(try_alone(packed(lay_out(self.scratch, VERDICTS)), self.scratch))


if __name__ == "__main__":
    unittest.main()
