#!/usr/bin/env python3
"""Measures linking on class files that it makes.

    bench/link.py [--program PROGRAM] [--command COMMAND] [--whole] [--runs N] [--files N] [--chain N]
                  [--depth N] [--rungs N] [NAME..]

PROGRAM is the built program `bench` [default: crates/bench/out/bench, which `rt run` leaves], run as `bench link`. With
a COMMAND it is run as `PROGRAM COMMAND FILE..`, as `jvm verify`, which does more than to link. One line is printed for
each program of class files [default: all]: files a second of the processor, and the peak resident memory, also for each
byte of the files. The files are read and decoded too. The programs are:

many_files    N classes and interfaces [default: 10,000] with 10 methods each, which call each other
chain         N superclasses above each other [default: 5000], which redeclare a method
many_methods  a class of 65,535 methods, which call each other
many_fields   a class of 65,535 fields
selections    N classes below each other [default: 400] with 10 methods each, all of which are called by invokevirtual
ladder        two interfaces a rung, each of which stands on both of the rung below, of N rungs [default: 1000]
"""

import argparse
import os
import pathlib
import sys
import tempfile
from typing import Iterable, Iterator, List, Optional, Sequence, Tuple

sys.dont_write_bytecode = True
sys.path.insert(0, str(pathlib.Path(__file__).resolve().parent.parent))

from bench.measures import measured
from tools.class_files import FIELDREF, INTERFACE_METHODREF, METHODREF, Pool, class_file, code_attribute, member, u2
from tools.repository import BENCH

PUBLIC, STATIC, INTERFACE, ABSTRACT = 0x0001, 0x0008, 0x0200, 0x0400

RETURN = b"\xb1"

# Seconds and kilobytes.
Cost = Tuple[float, int]


class Maker:
    """A class file whose constant pool has each entry once."""

    def __init__(
        self, name: str, superclass: str = "java/lang/Object", interfaces: Sequence[str] = (), flags: int = PUBLIC
    ) -> None:
        self.pool, self.flags = Pool(), flags
        self.fields: List[bytes] = []
        self.methods: List[bytes] = []
        self.classes = self.pool.class_of(name), self.pool.class_of(superclass)
        self.interfaces = [self.pool.class_of(interface) for interface in interfaces]

    def calls(self, owner: str, name: str, descriptor: str = "()V") -> bytes:
        """An invokestatic."""
        return b"\xb8" + u2(self.pool.member(METHODREF, owner, name, descriptor))

    def calls_virtual_on_null(self, owner: str, name: str) -> bytes:
        """An invokevirtual of a method without parameters on null."""
        return b"\x01\xb6" + u2(self.pool.member(METHODREF, owner, name, "()V"))

    def calls_on_null(self, owner: str, name: str) -> bytes:
        """An invokeinterface of a method without parameters on null."""
        return b"\x01\xb9" + u2(self.pool.member(INTERFACE_METHODREF, owner, name, "()V")) + b"\x01\x00"

    def increments(self, owner: str, name: str) -> bytes:
        """A static int is read and written."""
        reference = u2(self.pool.member(FIELDREF, owner, name, "I"))
        return b"\xb2" + reference + b"\x04\x60\xb3" + reference

    def field(self, flags: int, name: str, descriptor: str = "I") -> None:
        self.fields.append(member(flags, self.pool.text(name), self.pool.text(descriptor)))

    def method(self, flags: int, name: str, descriptor: str = "()V", code: Optional[bytes] = None) -> None:
        attributes = [] if code is None else [code_attribute(self.pool.text("Code"), 2, 4, code)]
        self.methods.append(member(flags, self.pool.text(name), self.pool.text(descriptor), attributes))

    def main(self, code: bytes = b"") -> None:
        self.method(PUBLIC | STATIC, "main", "([Ljava/lang/String;)V", code + RETURN)

    def data(self) -> bytes:
        return class_file(self.pool.entries, self.flags, self.classes, self.fields, self.methods, self.interfaces)


# Class files by their names.
Classes = Iterator[Tuple[str, Maker]]


def many_files(options: argparse.Namespace) -> Classes:
    """Of ten files nine are classes of 10 methods, below another class and an interface, and one an interface of 10."""
    interfaces = options.files // 10
    classes = options.files - interfaces
    for number in range(classes):
        above = f"C{number // 8}" if number >= 8 else "java/lang/Object"
        made = Maker(f"C{number}", above, [f"I{number % interfaces}"], PUBLIC | ABSTRACT)
        made.field(PUBLIC | STATIC, "count")
        made.field(PUBLIC, f"field{number}")
        if number == 0:
            made.main()
        for method in range(10 - (number == 0)):
            other = (number * 7 + method * 1_001 + 1) % classes
            code = made.calls(f"C{other}", f"s{(method + 1) % 9}") + made.increments(f"C{other}", "count")
            code += made.calls_on_null(f"I{other % interfaces}", "m0_0")
            made.method(PUBLIC | STATIC, f"s{method}", "()V", code + RETURN)
        yield f"C{number}", made
    for number in range(interfaces):
        upper = sorted({f"I{number // 2}", f"I{number // 3}"}) if number else []
        made = Maker(f"I{number}", "java/lang/Object", upper, PUBLIC | INTERFACE | ABSTRACT)
        for method in range(10):
            made.method(PUBLIC | ABSTRACT, f"m{number}_{method}")
        yield f"I{number}", made


def chain(options: argparse.Namespace) -> Classes:
    """Classes, each below the next, with a method each; the first calls and reads what the last declares."""
    for number in range(options.chain):
        is_last = number + 1 == options.chain
        above = "java/lang/Object" if is_last else f"C{number + 1}"
        made = Maker(f"C{number}", above)
        made.method(PUBLIC, "m", "()V", RETURN)
        if number == 0:
            made.main(made.calls("C0", "top") + made.increments("C0", "count"))
        if is_last:
            made.field(PUBLIC | STATIC, "count")
            made.method(PUBLIC | STATIC, "top", "()V", RETURN)
        yield f"C{number}", made


def selections(options: argparse.Namespace) -> Classes:
    """Classes, each below the next, with 10 methods each and one that calls these on null."""
    for number in range(options.depth):
        above = "java/lang/Object" if number + 1 == options.depth else f"C{number + 1}"
        made = Maker(f"C{number}", above)
        if number == 0:
            made.main()
        for method in range(10):
            made.method(PUBLIC, f"m{number}_{method}", "()V", RETURN)
        code = b"".join(made.calls_virtual_on_null(f"C{number}", f"m{number}_{method}") for method in range(10))
        made.method(PUBLIC | STATIC, "calls", "()V", code + RETURN)
        yield f"C{number}", made


def many_methods(_options: argparse.Namespace) -> Classes:
    """65,535 methods, of 16,384 names and 4 descriptors, each of which calls another."""
    made = Maker("A")
    made.main()
    for number in range(65_534):
        code = made.calls("A", f"m{(number * 5 + 1) % 16_000}")
        made.method(PUBLIC | STATIC, f"m{number % 16_384}", "(" + "I" * (number // 16_384) + ")V", code + RETURN)
    yield "A", made


def many_fields(_options: argparse.Namespace) -> Classes:
    """65,535 instance fields, of 16,384 names and 4 types."""
    made = Maker("A")
    made.main()
    for number in range(65_535):
        made.field(PUBLIC, f"f{number % 16_384}", "IZCS"[number // 16_384])
    yield "A", made


def ladder(options: argparse.Namespace) -> Classes:
    """Two interfaces a rung, a class below the upmost ones, and a call of what the lowest declares."""
    upmost = [f"{side}{options.rungs - 1}" for side in "LR"]
    made = Maker("A", "java/lang/Object", upmost, PUBLIC | ABSTRACT)
    made.main(b"".join(made.calls_on_null(interface, "m") for interface in upmost))
    yield "A", made
    for rung in range(options.rungs):
        below = [f"{side}{rung - 1}" for side in "LR"] if rung else []
        for side in "LR":
            made = Maker(f"{side}{rung}", "java/lang/Object", below, PUBLIC | INTERFACE | ABSTRACT)
            if rung == 0:
                made.method(PUBLIC | ABSTRACT, "m")
            yield f"{side}{rung}", made


def written(folder: str, classes: Iterable[Tuple[str, Maker]]) -> Tuple[List[str], int, int]:
    """The names of the files, their methods and their bytes together."""
    names, methods, size = [], 0, 0
    for name, made in classes:
        data = made.data()
        with open(os.path.join(folder, name), "wb") as file:
            file.write(data)
        names.append(name)
        methods += len(made.methods)
        size += len(data)
    return names, methods, size


def linked(command: Sequence[object], folder: str) -> Cost:
    """Seconds of the processor and peak kilobytes of one run."""
    ran = measured(command, folder)
    if ran.status != 0 or not (ran.error + ran.written).startswith(("linked", "verified")):
        sys.exit(f"status {ran.status}: {ran.error}{ran.written}")
    return ran.processor, ran.kilobytes


def least(command: Sequence[object], folder: str, runs: int) -> List[Cost]:
    """The two forms of a command in turn: the least seconds and the peak kilobytes of each."""
    forms = (command, [*command, "whole"])
    found = [[linked(form, folder) for form in forms] for _ in range(runs)]
    return [(min(run[form][0] for run in found), max(run[form][1] for run in found)) for form in range(len(forms))]


def told(names: List[str], size: int, seconds: float, peak: int) -> str:
    """What one run says."""
    return (
        f"{size / 1e6:.1f} MB in {seconds:.3f} s: {len(names) / seconds:.0f} files a second, "
        f"{peak / 1e3:.0f} MB of memory, {peak * 1024 / size:.1f} bytes a byte"
    )


def told_whole(alone: Cost, whole: Cost) -> str:
    """What the runs of both forms say."""
    return (
        f"linking {alone[0]:.3f} s, {alone[1] / 1e3:.0f} MB; with the linked program {whole[0]:.3f} s, "
        f"{whole[1] / 1e3:.0f} MB: {whole[0] / alone[0]:.2f} times as long"
    )


PROGRAMS = (many_files, chain, selections, many_methods, many_fields, ladder)


def main() -> None:
    parser = argparse.ArgumentParser(description=__doc__, formatter_class=argparse.RawDescriptionHelpFormatter)
    parser.add_argument("--program", default=BENCH)
    parser.add_argument("--command")
    parser.add_argument("--whole", action="store_true")
    parser.add_argument("--runs", type=int, default=5)
    parser.add_argument("--files", type=int, default=10_000)
    parser.add_argument("--chain", type=int, default=5_000)
    parser.add_argument("--depth", type=int, default=400)
    parser.add_argument("--rungs", type=int, default=1_000)
    parser.add_argument("names", nargs="*", metavar="NAME")
    options = parser.parse_args()
    program = os.path.abspath(options.program)
    for made in PROGRAMS:
        if options.names and made.__name__ not in options.names:
            continue
        with tempfile.TemporaryDirectory() as folder:
            names, methods, size = written(folder, made(options))
            with open(os.path.join(folder, "sets"), "w") as file:
                file.write(" ".join(names) + "\n")
            command = [program, options.command, *names] if options.command else [program, "link", "sets"]
            if options.whole:
                said = told_whole(*least(command, folder, options.runs))
            else:
                said = told(names, size, *linked(command, folder))
        print(f"{made.__name__}: {len(names)} files, {methods} methods, {said}", flush=True)


if __name__ == "__main__":
    main()
