"""A scratch folder for tests of `jvm-cluster`, with programs that stand in for `jvm`."""

import contextlib
import io
import os
import pathlib
import subprocess
import sys
import tempfile
import unittest
from typing import List, NamedTuple

from cluster.command import main
from oracle.lessons import LESSONS
from tools.repository import ROOT

STAND_IN = f"""[ "$1" = --version ] && echo 'stand-in 1' && exit
exec "{sys.executable}" -B -S "{ROOT}/tests/stand_in.py" "$@"
"""
COMMAND = str(ROOT / "tools/jvm-cluster")
LOST_UPDATE = str(LESSONS / "lost-update/LostUpdate.class")
LOCK_ORDER = str(LESSONS / "lock-order/LockOrder.class")


class Told(NamedTuple):
    """What a command tells."""

    status: int
    output: bytes
    error: str


class Written(io.TextIOWrapper):
    """A text that is written to memory."""

    def __init__(self) -> None:
        super().__init__(io.BytesIO(), encoding="utf-8", write_through=True)

    def bytes(self) -> bytes:
        self.seek(0)
        return self.buffer.read()


class Scratch(unittest.TestCase):
    """A folder that each test has for itself."""

    def setUp(self) -> None:
        made = tempfile.TemporaryDirectory()
        self.addCleanup(made.cleanup)
        self.path = pathlib.Path(made.name)
        self.program = self.script("jvm", STAND_IN)

    def script(self, name: str, text: str) -> str:
        """A program of a shell, by its path."""
        path = self.path / name
        path.write_text(f"#!/bin/sh\n{text}", encoding="utf-8")
        path.chmod(0o755)
        return str(path)

    def folder(self, name: str = "folder") -> str:
        return str(self.path / name)

    def told(self, *words: str) -> Told:
        """What the command tells, in this process."""
        output, error = Written(), Written()
        with contextlib.redirect_stdout(output), contextlib.redirect_stderr(error):
            status = main(list(words), "")
        return Told(status, output.bytes(), error.bytes().decode())

    def ran(self, *words: str) -> Told:
        """What the command tells as a process of its own."""
        environment = {**os.environ, "TMPDIR": str(self.path)}
        ran = subprocess.run([sys.executable, "-B", COMMAND, *words], capture_output=True, env=environment)
        return Told(ran.returncode, ran.stdout, ran.stderr.decode())

    def planned(self, *words: str, step: int = 7) -> List[str]:
        """Lays a plan out, whose parts are then done one by one; answers their numbers."""
        options = ["--folder", self.folder(), "--seeds-of-a-part", str(step), "--program", self.program, "--only-plan"]
        told = self.told(words[0], *options, *words[1:])
        self.assertEqual((told.status, told.error), (0, ""))
        return [str(number) for number in range(1, int(told.output.split()[1]) + 1)]

    def do_parts(self, numbers: List[str]) -> None:
        for number in numbers:
            told = self.told("part", "--program", self.program, self.folder(), number)
            self.assertEqual(told, Told(0, b"", ""))

    def whole(self, *words: str) -> Told:
        """What the program itself tells of all seeds."""
        ran = subprocess.run([self.program, "run", *words], capture_output=True)
        return Told(ran.returncode, ran.stdout, ran.stderr.decode())
