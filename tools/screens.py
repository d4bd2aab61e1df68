#!/usr/bin/env python3
"""Runs the commands of documents, and compares what they print with the screens that the documents show.

    tools/screens.py PROGRAM [DOCUMENT..]

PROGRAM is the built program `jvm`; without a document these are docs/TUTORIAL.md, docs/ERRORS.md and
docs/FOR-TEACHERS.md. A document is run by one bash, from its first line to its last, at the top of a copy of tools/,
lessons/, programs/ and library/. In its blocks `text` a line that begins with `$ ` is a command, and the lines up to
the next one are its screen, standard error included. Its blocks `sh` are run as they stand, but one that begins with
`#!`, which becomes the file test.sh. There has to be a javac.

Each screen that differs is shown. The status is 0 where none does.
"""

import difflib
import os
import pathlib
import shutil
import subprocess
import sys
import tempfile
from typing import Dict, Iterator, List, Optional, Tuple

sys.dont_write_bytecode = True
sys.path.insert(0, str(pathlib.Path(__file__).resolve().parent.parent))

from tools.repository import ROOT

DOCUMENTS = ["docs/TUTORIAL.md", "docs/ERRORS.md", "docs/FOR-TEACHERS.md"]
MARK = "== the next screen =="

# A command, and the lines of its screen.
Screen = Tuple[str, List[str]]


def blocks(text: str) -> Iterator[Tuple[str, List[str]]]:
    """The blocks of a document, each by its kind and its lines, without what they are indented by."""
    kind: Optional[str] = None
    lines: List[str] = []
    indent = ""
    for line in text.split("\n"):
        if line.strip().startswith("```"):
            if kind is None:
                kind, lines = line.strip()[3:], []
                indent = line[: len(line) - len(line.lstrip())]
            else:
                yield kind, lines
                kind = None
        elif kind is not None:
            lines.append(line.removeprefix(indent))


def script_and_screens(text: str) -> Tuple[str, List[Screen]]:
    """What bash is to run, with a mark before each screen, and the screens that are to come, behind their commands."""
    script = ["exec 2>&1"]
    screens: List[Screen] = []
    for kind, lines in blocks(text):
        if kind == "sh" and lines[0].startswith("#!"):
            script += ["cat > test.sh <<'END OF THE FILE'", *lines, "END OF THE FILE"]
        elif kind == "sh":
            script += lines
        elif kind == "text":
            for line in lines:
                if line.startswith("$ "):
                    screens.append((line, []))
                    script += [f"echo '{MARK}'", line[2:]]
                elif screens:
                    screens[-1][1].append(line)
    return "\n".join(script) + "\n", screens


def copied(program: str, folder: str) -> Dict[str, str]:
    """Puts the tools, the lessons and the program into a folder. Answers the environment in which `jvm` is found."""
    for name in ("tools", "lessons", "programs", "library"):
        shutil.copytree(ROOT / name, os.path.join(folder, name))
    place = os.path.join(folder, "bin")
    os.mkdir(place)
    os.symlink(os.path.realpath(program), os.path.join(place, "jvm"))
    cache = os.path.join(folder, "cache")
    return {**os.environ, "PATH": place + os.pathsep + os.environ["PATH"], "XDG_CACHE_HOME": cache}


def compared(screens: List[Screen], printed: str) -> Iterator[Screen]:
    """The commands whose screens are others than what was printed, each with how it differs."""
    came = printed.split(MARK + "\n")[1:]
    for (command, screen), text in zip(screens, came):
        lines = text.removesuffix("\n").split("\n") if text else []
        if lines != screen:
            yield command, list(difflib.unified_diff(screen, lines, "the document", "the program", lineterm=""))
    for command, screen in screens[len(came) :]:
        yield command, ["it was not run"]


def differing(program: str, document: str) -> int:
    """How many screens of a document differ. They are shown."""
    script, screens = script_and_screens((ROOT / document).read_text(encoding="utf-8"))
    with tempfile.TemporaryDirectory() as folder:
        environment = copied(program, folder)
        ran = subprocess.run(["bash", "-c", script], cwd=folder, env=environment, stdout=subprocess.PIPE)
    count = 0
    for command, told in compared(screens, ran.stdout.decode(errors="replace")):
        count += 1
        print(f"{document}: {command}")
        print("\n".join(told))
    print(f"{document}: {len(screens)} commands, {count} differ")
    return count


def main() -> int:
    if len(sys.argv) < 2 or sys.argv[1] in ("-h", "--help"):
        print(__doc__)
        return 2
    documents = sys.argv[2:] or DOCUMENTS
    return 1 if sum(differing(sys.argv[1], document) for document in documents) else 0


if __name__ == "__main__":
    sys.exit(main())
