"""Archives and checksums of folders, and verdicts that are kept."""

import os
import pathlib
import subprocess
import tarfile
import tempfile
import unittest
from unittest import mock

from tools import verdicts
from tools.archives import checksum_lines, write_archive


def made_folder(scratch: str) -> pathlib.Path:
    folder = pathlib.Path(scratch) / "made"
    (folder / "bin").mkdir(parents=True)
    (folder / "bin/program").write_bytes(b"runs")
    (folder / "bin/program").chmod(0o700)
    (folder / "a text").write_bytes(b"")
    os.symlink("program", folder / "bin/link")
    return folder


class Archives(unittest.TestCase):
    def test_one_folder_gives_the_same_bytes(self) -> None:
        with tempfile.TemporaryDirectory() as scratch:
            folder = made_folder(scratch)
            first, second = pathlib.Path(scratch) / "first", pathlib.Path(scratch) / "second"
            write_archive(folder, first)
            os.utime(folder / "a text", (1, 1))
            write_archive(folder, second)
            self.assertEqual(first.read_bytes(), second.read_bytes())

    def test_what_an_archive_holds(self) -> None:
        with tempfile.TemporaryDirectory() as scratch:
            path = pathlib.Path(scratch) / "archive"
            write_archive(made_folder(scratch), path)
            with tarfile.open(path) as archive:
                found = [(entry.name, oct(entry.mode), entry.uid) for entry in archive]
        self.assertEqual(
            found,
            [
                ("made", "0o755", 0),
                ("made/a text", "0o644", 0),
                ("made/bin", "0o755", 0),
                ("made/bin/link", "0o755", 0),
                ("made/bin/program", "0o755", 0),
            ],
        )

    def test_sha256sum_reads_the_checksums(self) -> None:
        with tempfile.TemporaryDirectory() as scratch:
            folder = made_folder(scratch)
            lines = checksum_lines(folder)
            self.assertEqual([line.split("  ", 1)[1] for line in lines.splitlines()], ["a text", "bin/program"])
            ran = subprocess.run(["sha256sum", "--check", "--quiet"], cwd=folder, input=lines.encode())
            self.assertEqual(ran.returncode, 0)


class Verdicts(unittest.TestCase):
    LINE = b"logic=proved functions=2 sum=0"

    def test_a_verdict_is_kept_while_the_text_is_the_same(self) -> None:
        with tempfile.TemporaryDirectory() as scratch:
            root = pathlib.Path(scratch)
            source = root / "crates/low/src/lib.rt"
            source.parent.mkdir(parents=True)
            source.write_text("a", encoding="ascii")
            with mock.patch.multiple(verdicts, ROOT=root, FOLDER=root / "out/verdicts"):
                self.assertEqual(verdicts.without(["low"]), ["low"])
                verdicts.keep("low", b"compiles\n" + self.LINE + b"\n")
                verdicts.keep("low", b"")
                kept = verdicts.kept("low")
                self.assertTrue(kept and str(kept).endswith(self.LINE.decode()))
                source.write_text("b", encoding="ascii")
                self.assertEqual(verdicts.without(["low"]), ["low"])


if __name__ == "__main__":
    unittest.main()
