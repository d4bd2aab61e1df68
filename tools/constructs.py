"""The sources of constructs/: what each shows, what is told of it, and its class files."""

import pathlib
import re
import subprocess
import tempfile
from typing import Dict, List, Optional, Sequence

from tools.repository import ROOT

FOLDER = ROOT / "constructs"

WORKS = "It works."
REFUSED = "javac refuses it."

VERSION_AT = 6


def joined(lines: Sequence[str]) -> List[str]:
    """Lines, each with those behind it that are indented."""
    whole: List[str] = []
    for line in lines:
        if line.startswith("    ") and whole:
            whole[-1] += " " + line.strip()
        else:
            whole.append(line)
    return whole


class Construct:
    """A source: its group and its title, and the paragraphs below them in its first comment.

    A paragraph is `It works.` or `javac refuses it.`, the lines that are told, or options: `Files:` and the names of
    the class files that are given, by default all of them, or `Version:` and the one that is put into them.
    """

    def __init__(self, path: pathlib.Path) -> None:
        self.path = path
        self.name = path.stem
        comment = path.read_text(encoding="utf-8").split("*/")[0]
        lines = [line[3:] for line in comment.splitlines()[1:]]
        paragraphs = [part.split("\n") for part in re.split(r"\n\n+", "\n".join(lines).strip("\n"))]
        self.group, _, self.title = " ".join(" ".join(paragraphs[0]).split()).partition(": ")
        self.files: Optional[List[str]] = None
        self.version = 49
        self.told: List[str] = []
        self.verdict = ""
        for paragraph in paragraphs[1:]:
            self.take(joined(paragraph))

    def take(self, lines: List[str]) -> None:
        """Takes what a paragraph says."""
        key, _, value = lines[0].partition(": ")
        if lines == [WORKS] or lines == [REFUSED]:
            self.verdict = lines[0]
        elif key == "Files":
            self.files = value.split()
        elif key == "Version":
            self.version = int(value)
        else:
            self.told = lines

    def works(self) -> bool:
        return self.verdict == WORKS

    def cures(self) -> List[str]:
        """What is told, without the places, each once."""
        found: List[str] = []
        for line in self.told:
            told = re.sub(r"^[^ ]*?\.(?:java|class)(?::[0-9]+)?:? ", "", line)
            if told not in found:
                found.append(told)
        return found

    def given(self, made: Dict[str, bytes]) -> Dict[str, bytes]:
        """The class files that are given, by their names, of those that javac makes of the source."""
        main = self.name + ".class"
        names = self.files or sorted(made, key=lambda name: (pathlib.Path(name).name != main, name))
        by_last_name = {pathlib.Path(name).name: data for name, data in made.items()}
        return {name: self.with_version(by_last_name[pathlib.Path(name).name]) for name in names}

    def with_version(self, data: bytes) -> bytes:
        return data[:VERSION_AT] + self.version.to_bytes(2, "big") + data[VERSION_AT + 2 :]


def compiled_together(paths: Sequence[pathlib.Path]) -> Optional[Dict[str, bytes]]:
    """The bytes of the class files of sources that are compiled together; none where javac refuses one."""
    with tempfile.TemporaryDirectory() as folder:
        command = [str(ROOT / "tools/java-classes"), *map(str, paths), "--into", folder, "--lines"]
        ran = subprocess.run(command, stdout=subprocess.PIPE, stderr=subprocess.DEVNULL, text=True, check=False)
        if ran.returncode:
            return None
        made = [pathlib.Path(path) for path in ran.stdout.splitlines()]
        return {str(path.relative_to(folder)): path.read_bytes() for path in made}


def of_source(files: Dict[str, bytes], one: Construct) -> Dict[str, bytes]:
    """Those of some class files that tell the name of a source."""
    name = one.path.name.encode("ascii")
    told = b"\x01" + len(name).to_bytes(2, "big") + name
    return {path: data for path, data in files.items() if told in data}


def class_files(all_of_them: Sequence[Construct]) -> Dict[str, Dict[str, bytes]]:
    """The class files that are given of each construct, by its name; of one that javac refuses there are none.

    Those that javac is to take are compiled together, and where it refuses one, by themselves.
    """
    taken = [one for one in all_of_them if one.verdict != REFUSED]
    together = compiled_together([one.path for one in taken])
    found: Dict[str, Dict[str, bytes]] = {}
    for one in all_of_them:
        is_alone = together is None or one.verdict == REFUSED
        made = compiled_together([one.path]) if is_alone else of_source(together or {}, one)
        if made is not None:
            found[one.name] = one.given(made)
    return found


def constructs() -> List[Construct]:
    return [Construct(path) for path in sorted(FOLDER.glob("*.java"))]
