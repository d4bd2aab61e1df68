#!/usr/bin/env python3
"""Compares `jvm disasm` with javap on class files.

    compare/javap.py PROGRAM PATH..

PROGRAM is the built program, each PATH a class file or a folder of them, as `javac --release 7 -d FOLDER X.java` makes
or `jimage extract --dir FOLDER lib/modules` of a JDK. The version of each file is patched to 49.0 in a temporary
folder. What the program refuses is counted by its cause. Of the others the descriptors and flags of members, the sizes
of code, the instructions with their operands and the exception tables are compared. An opcode that this machine has
not is `unknown` and one byte long, so what follows it is compared from the next place on at which both list an
instruction. The status is 0 where nothing differs.
"""

import argparse
import collections
import os
import pathlib
import re
import subprocess
import sys
import tempfile
from typing import Counter, Dict, Iterator, List, Optional, Sequence, Tuple

sys.dont_write_bytecode = True
sys.path.insert(0, str(pathlib.Path(__file__).resolve().parent.parent))

from oracle.opcodes import SUPPORTED
from tools.class_files import with_version_49

# The instructions that this machine has, by javap's names.
KNOWN = (SUPPORTED - {"wide"}) | {"iload_w", "aload_w", "istore_w", "astore_w", "iinc_w"}

ELEMENTS = {"float": "#6", "double": "#7", "long": "#11"}

# So many files are listed at a time.
AT_A_TIME = 200

INSTRUCTION = re.compile(r"^ +(\d+): ([a-z_0-9]+) *(.*)$")
CASE = re.compile(r"^ +(-?\d+|default): (\d+)$")
HANDLER = re.compile(r"^ +(\d+) +(\d+) +(\d+) +(?:Class (\S+)|(any))$")


def patched(path: str, folder: str, number: int) -> str:
    made = os.path.join(folder, f"{number}.class")
    pathlib.Path(made).write_bytes(with_version_49(pathlib.Path(path).read_bytes()))
    return made


def class_files(paths: Sequence[str]) -> Iterator[str]:
    for path in paths:
        if os.path.isdir(path):
            for folder, _, names in sorted(os.walk(path)):
                yield from (os.path.join(folder, name) for name in sorted(names) if name.endswith(".class"))
        else:
            yield path


def member_word(owner: str, comment: str) -> str:
    """A field or method of javap's comment, with its class."""
    word = comment.split(" ", 1)[1].replace('"', "")
    name = word.split(":", 1)[0]
    return word if "." in name else f"{owner}.{word}"


def operands(owner: str, mnemonic: str, rest: str) -> List[str]:
    """The operands as this machine lists them, from what javap says of them."""
    text, _, comment = (part.strip() for part in rest.partition("//"))
    words = text.replace(",", " ").split()
    if mnemonic in ("ldc", "ldc_w"):
        kind, _, value = comment.partition(" ")
        if kind == "int":
            return [value]
        return ["class", value.replace('"', "")] if kind == "class" else words
    if mnemonic.startswith(("get", "put")) or mnemonic.startswith("invoke"):
        return [member_word(owner, comment)] + words[1:]
    if mnemonic in ("new", "anewarray", "checkcast", "instanceof"):
        return [comment.split(" ", 1)[1].replace('"', "")]
    if mnemonic == "newarray":
        return [ELEMENTS.get(words[0], words[0])]
    return words


class Member:
    """The descriptor, flags and code of a field or a method."""

    def __init__(self, descriptor: str) -> None:
        self.head = [descriptor]
        self.lines: Dict[int, List[str]] = {}
        self.handlers: List[List[str]] = []


class Javap:
    """Reads the text of javap, line by line."""

    def __init__(self) -> None:
        self.classes: List[List[Member]] = []
        self.owner, self.member, self.place = "", Member(""), ""
        # The switch whose cases are read: where it stands, its mnemonic, and its cases.
        self.switch: Optional[Tuple[int, str, List[str]]] = None

    def read(self, line: str) -> None:
        if line.startswith("Classfile "):
            self.classes.append([])
        elif line.startswith("  this_class: "):
            self.owner = line.split("// ", 1)[1].replace('"', "")
        elif line.startswith("    descriptor: "):
            self.member = Member(line[16:])
            self.classes[-1].append(self.member)
            self.place = ""
        elif line.startswith("    flags: (0x"):
            self.member.head.append(line[14:18])
        elif line.startswith("      stack="):
            self.member.head += re.findall(r"\d+", line)[:2]
            self.place = "code"
        elif line.startswith("      Exception table:"):
            self.place = "handlers"
        elif self.place == "code":
            self.code(line)
        elif self.place == "handlers":
            self.handler(line)

    def code(self, line: str) -> None:
        """A line of the code of a method, or behind it."""
        if self.switch is not None:
            pc, name, cases = self.switch
            case = CASE.match(line)
            if not case:
                self.switch = None
            elif case[1] == "default":
                self.member.lines[pc] = [name, "default", case[2], *cases]
            else:
                cases.append(f"{case[1]}:{case[2]}")
        elif found := INSTRUCTION.match(line):
            self.instruction(int(found[1]), found[2], found[3])
        elif not line.startswith("        "):
            self.place = ""

    def instruction(self, pc: int, mnemonic: str, rest: str) -> None:
        if mnemonic not in KNOWN:
            self.member.lines[pc] = ["unknown"]
        elif mnemonic.endswith("switch"):
            self.switch = pc, mnemonic, []
        else:
            wide = ["wide"] if mnemonic.endswith("_w") and mnemonic not in ("ldc_w", "goto_w") else []
            name = mnemonic[:-2] if wide else mnemonic
            self.member.lines[pc] = wide + [name] + operands(self.owner, mnemonic, rest)

    def handler(self, line: str) -> None:
        """A line of an exception table, or behind it."""
        if found := HANDLER.match(line):
            self.member.handlers.append([found[1], found[2], found[3], (found[4] or found[5]).replace('"', "")])
        elif "from    to  target type" not in line:
            self.place = ""


def by_javap(text: str) -> List[List[Member]]:
    """The members of each class, in order, from javap's text."""
    reader = Javap()
    for line in text.split("\n"):
        reader.read(line)
    return reader.classes


def by_program(text: str) -> List[Member]:
    """The members of a class, in order, from its listing."""
    members = []
    for line in text.split("\n")[1:-1]:
        words = line.split(" ")
        if words[0] == "field":
            members.append(Member(words[2]))
            members[-1].head.append(words[4])
        elif words[0] == "method":
            members.append(Member(words[1][words[1].index("(") :]))
            members[-1].head += [words[3]] + words[5:8:2]
        elif words[0] == "catch":
            members[-1].handlers.append(words[1:])
        else:
            members[-1].lines[int(words[0])] = words[2:]
    return members


def differences(path: str, ours: List[Member], theirs: List[Member]) -> Tuple[int, List[str]]:
    """The number of instructions compared, and what differs."""
    compared = 0
    told: List[str] = []
    if len(ours) != len(theirs):
        return 0, [f"{path}: {len(ours)} and {len(theirs)} members"]
    for number, (our, their) in enumerate(zip(ours, theirs)):
        if (our.head, our.handlers) != (their.head, their.handlers):
            told.append(f"{path}: member {number}: {our.head} {our.handlers}, javap: {their.head} {their.handlers}")
        lost = False
        for pc in sorted(our.lines.keys() | their.lines.keys()):
            line, wanted = our.lines.get(pc), their.lines.get(pc)
            if line is not None and wanted is not None:
                compared += 1
                lost = wanted == ["unknown"]
                if line != wanted:
                    told.append(f"{path}: member {number}: {pc}: {line}, javap: {wanted}")
            elif not lost:
                told.append(f"{path}: member {number}: {pc}: {line}, javap: {wanted}")
    return compared, told


class Comparison:
    """What was compared so far, of the listings of a program."""

    def __init__(self, program: str) -> None:
        self.program, self.files, self.compared, self.differing = program, 0, 0, 0
        self.refused: Counter[str] = collections.Counter()

    def compare(self, paths: Sequence[str], folder: str) -> None:
        """Compares the listings of some files with javap's, which lists them all at once."""
        taken: List[Tuple[str, str]] = []
        listed: List[str] = []
        for number, path in enumerate(paths):
            made = patched(path, folder, number)
            ran = subprocess.run([self.program, "disasm", made], capture_output=True)
            if ran.returncode == 0:
                taken.append((path, ran.stdout.decode("utf-8", "surrogateescape")))
                listed.append(made)
            else:
                self.refused[ran.stderr.decode().split()[-1]] += 1
        javap = subprocess.run(["javap", "-v", "-p", *listed], capture_output=True)
        theirs = by_javap(javap.stdout.decode("utf-8", "surrogateescape"))
        if len(theirs) != len(taken):
            sys.exit(f"javap shows {len(theirs)} of {len(taken)} files")
        for (path, text), members in zip(taken, theirs):
            count, told = differences(path, by_program(text), members)
            self.files, self.compared = self.files + 1, self.compared + count
            self.differing += len(told)
            print("\n".join(told[:5]), end="\n" * bool(told))


def main() -> None:
    parser = argparse.ArgumentParser(description=__doc__, formatter_class=argparse.RawDescriptionHelpFormatter)
    parser.add_argument("program", type=pathlib.Path, metavar="PROGRAM")
    parser.add_argument("paths", nargs="+", metavar="PATH")
    options = parser.parse_args()
    comparison = Comparison(str(options.program.resolve()))
    paths = list(class_files(options.paths))
    with tempfile.TemporaryDirectory() as folder:
        for first in range(0, len(paths), AT_A_TIME):
            comparison.compare(paths[first : first + AT_A_TIME], folder)
    causes = ", ".join(f"{cause} {count}" for cause, count in sorted(comparison.refused.items())) or "none"
    counts = f"{comparison.files} files, {comparison.compared} instructions compared"
    print(f"{counts}, {comparison.differing} differences; refused: {causes}")
    sys.exit(1 if comparison.differing else 0)


if __name__ == "__main__":
    main()
