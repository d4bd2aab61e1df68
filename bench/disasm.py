#!/usr/bin/env python3
"""Measures `jvm disasm` on class files that it makes.

    bench/disasm.py [PROGRAM [MEGABYTES]]

PROGRAM is the built program [default: crates/jvm/out/jvm, which `rt run` leaves], MEGABYTES the size of the first two
files [default: 10]. One line is printed for each file: megabytes of file a second, megabytes of text a second, and the
peak resident memory for each byte of the file. The files: one of long code, one of texts in the constant pool that are
listed nowhere, and one of 65,535 methods without code. They are made anew in a temporary folder.
"""

import argparse
import os
import pathlib
import sys
import tempfile
from typing import List, Tuple

sys.dont_write_bytecode = True
sys.path.insert(0, str(pathlib.Path(__file__).resolve().parent.parent))

from bench.measures import measured
from tools.class_files import class_file, code_attribute, entries_with, integer, member, utf8
from tools.repository import JVM, PathLike

# getstatic, iload_1, sipush 1000, iadd, istore_2, iload_2, bipush 7, if_icmpne 3, invokevirtual, iinc 1 1, ldc, pop
LOOP = bytes.fromhex("b2000d 1b 1103e8 60 3d 1c 1007 a00003 b60013 840101 1214 57")

NAMES = 20


def head() -> List[bytes]:
    """The entries 1 to 20 of a constant pool: those of `entries_with`, and an int."""
    return [*entries_with("f", "()V"), integer(1_000_000)]


def class_of(entries: List[bytes], fields: List[bytes], methods: List[bytes]) -> bytes:
    """The class A with these members."""
    return class_file(entries, 0x0421, (2, 4), fields, methods)


def names(count: int, width: int) -> List[bytes]:
    """The entries of so many names of this many bytes."""
    return [utf8(f"m{number}".ljust(width, "x")) for number in range(count)]


def method_with(name: int, code: bytes) -> bytes:
    return member(0x0009, name, 6, [code_attribute(7, 2, 3, code)])


def long_code(size: int) -> bytes:
    """60,000 entries, 10,000 fields, and methods of long code."""
    texts = names(60_000 - NAMES, 8)
    fields = [member(0x0009, NAMES + 1 + number, 11) for number in range(10_000)]
    code = LOOP * (65_000 // len(LOOP)) + b"\xb1"
    count = max(1, (size - 800_000) // (len(code) + 32))
    return class_of(head() + texts, fields, [method_with(NAMES + 1 + number, code) for number in range(count)])


def long_pool(size: int) -> bytes:
    """60,000 entries of long texts."""
    return class_of(head() + names(60_000 - NAMES, max(8, size // 60_000 - 3)), [], [])


def many_methods(_size: int) -> bytes:
    """65,535 methods without code, of 512 names and 128 descriptors."""
    descriptors = [utf8("(" + "I" * number + ")V") for number in range(128)]
    first = NAMES + 128 + 1
    methods = [member(0x0401, first + number // 128, NAMES + 1 + number % 128) for number in range(65_535)]
    return class_of(head() + descriptors + names(512, 8), [], methods)


def listed(program: PathLike, folder: str) -> Tuple[float, int, int]:
    """Seconds, bytes of text and peak kilobytes of one run."""
    path = os.path.join(folder, "listing")
    with open(path, "wb") as listing:
        ran = measured([program, "disasm", "A.class"], folder, listing)
    if ran.status != 0:
        sys.exit(f"status {ran.status}")
    return ran.clock, os.path.getsize(path), ran.kilobytes


MAKERS = {"long_code": long_code, "long_pool": long_pool, "many_methods": many_methods}


def main() -> None:
    parser = argparse.ArgumentParser(description=__doc__, formatter_class=argparse.RawDescriptionHelpFormatter)
    parser.add_argument("program", nargs="?", type=pathlib.Path, default=JVM, metavar="PROGRAM")
    parser.add_argument("megabytes", nargs="?", type=float, default=10, metavar="MEGABYTES")
    options = parser.parse_args()
    program, size = options.program.resolve(), int(options.megabytes * 1_000_000)
    with tempfile.TemporaryDirectory() as folder:
        path = os.path.join(folder, "A.class")
        for name, made in MAKERS.items():
            with open(path, "wb") as file:
                file.write(made(size))
            length = os.path.getsize(path)
            seconds, text, peak = listed(program, folder)
            print(
                f"{name}: {length / 1e6:.1f} MB of file and {text / 1e6:.1f} MB of text in {seconds:.3f} s: "
                f"{length / 1e6 / seconds:.1f} and {text / 1e6 / seconds:.1f} MB a second, "
                f"{peak * 1024 / length:.1f} bytes of memory a byte of file"
            )


if __name__ == "__main__":
    main()
