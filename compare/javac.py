#!/usr/bin/env python3
"""Compares what a program says of class files of javac with what their sources say.

    compare/javac.py FOLDER [PROGRAM WORD..]

Each Java source of FOLDER is compiled by itself, by `tools/java-classes`. PROGRAM [default: `crates/jvm/out/jvm
verify`] is run with the WORDs and the class files, the class of the source's name first and the others by their names.
What it says is compared with the first line of the source, which is `// accepted` or the refusal behind `// `. One
line is printed for each source; the status is 1 where something else is said.
"""

import argparse
import os
import pathlib
import subprocess
import sys
import tempfile
from typing import List, Sequence

sys.dont_write_bytecode = True
sys.path.insert(0, str(pathlib.Path(__file__).resolve().parent.parent))

from tools.repository import JVM, compiled


def wanted(source: pathlib.Path) -> str:
    with open(source, encoding="utf-8") as file:
        return file.readline().strip().removeprefix("// ")


def said(command: Sequence[str], paths: List[pathlib.Path]) -> str:
    """What the program says of class files."""
    names = [path.name for path in paths]
    ran = subprocess.run([*command, *names], cwd=paths[0].parent, capture_output=True, text=True)
    return "accepted" if ran.returncode == 0 else (ran.stdout + ran.stderr).strip()


def main() -> None:
    parser = argparse.ArgumentParser(description=__doc__, formatter_class=argparse.RawDescriptionHelpFormatter)
    parser.add_argument("folder", type=pathlib.Path, metavar="FOLDER")
    parser.add_argument("command", nargs=argparse.REMAINDER, metavar="PROGRAM WORD..")
    options = parser.parse_args()
    sources = sorted(options.folder.glob("*.java"))
    command = options.command or [str(JVM), "verify"]
    command = [os.path.abspath(command[0]), *command[1:]]
    differing = 0
    for source in sources:
        with tempfile.TemporaryDirectory() as folder:
            answer = said(command, compiled([source], folder))
        is_wanted = answer == wanted(source)
        differing += not is_wanted
        print(f"{source.name}: {answer}" + ("" if is_wanted else f", wanted: {wanted(source)}"))
    print(f"{len(sources)} sources, {differing} differences")
    sys.exit(1 if differing else 0)


if __name__ == "__main__":
    main()
