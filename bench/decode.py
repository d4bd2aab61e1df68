#!/usr/bin/env python3
"""Measures `classfile::decode` by the program `bench decode`, on class files that it makes.

    bench/decode.py [PROGRAM]

PROGRAM is the built program `bench` [default: crates/bench/out/bench, which `rt run` leaves]. One line is printed for
each file: megabytes of file a second of the processor, and the peak resident memory for each byte of the file. The
first three files are those of disasm.py. The others are made to take long: members that share a name or a descriptor
of 65,535 bytes, classes and NameAndTypes that share a text as long, names that differ in their last bytes alone,
60,000 short fields, and attributes that hold nothing. The last two members of each of these are the same, which is the
last thing that is looked for: so each must be answered `Duplicate`.
"""

import argparse
import pathlib
import sys
import tempfile
from typing import Iterator, List, Sequence, Tuple

sys.dont_write_bytecode = True
sys.path.insert(0, str(pathlib.Path(__file__).resolve().parent.parent))

from bench.disasm import MAKERS, NAMES, class_of, head
from bench.measures import measured
from tools.class_files import NAME_AND_TYPE, attribute, class_entry, member, pair, utf8
from tools.repository import BENCH, PathLike

LONG = 65_535
MANY = 65_000
SIZE = 10_000_000


def field(name: int, descriptor: int) -> bytes:
    return member(0x0009, name, descriptor)


def method(name: int, descriptor: int, attributes: Sequence[bytes] = ()) -> bytes:
    return member(0x0401, name, descriptor, attributes)


def numbered(count: int) -> List[str]:
    """So many class names of six bytes."""
    return [f"a{number:05x}" for number in range(count)]


def one_name() -> bytes:
    """Fields of one long name."""
    descriptors = [utf8(f"L{text};") for text in numbered(MANY)]
    fields = [field(NAMES + 1, NAMES + 2 + number) for number in range(MANY)]
    return class_of(head() + [utf8("x" * LONG), *descriptors], [*fields, fields[-1]], [])


def one_descriptor() -> bytes:
    """Fields of one long descriptor."""
    texts = [utf8("L" + "x" * (LONG - 2) + ";"), *map(utf8, numbered(MANY))]
    fields = [field(NAMES + 2 + number, NAMES + 1) for number in range(MANY)]
    return class_of(head() + texts, [*fields, fields[-1]], [])


def one_method_descriptor() -> bytes:
    """Methods of one long descriptor."""
    texts = [utf8("(L" + "x" * (LONG - 5) + ";)V"), *map(utf8, numbered(MANY))]
    methods = [method(NAMES + 2 + number, NAMES + 1) for number in range(MANY)]
    return class_of(head() + texts, [], [*methods, methods[-1]])


def one_class_name() -> bytes:
    """Classes of one long name."""
    entries = [utf8("x" * LONG), *[class_entry(NAMES + 1)] * MANY]
    return class_of(head() + entries, [field(NAMES + 1, 11)] * 2, [])


def one_name_and_type() -> bytes:
    """NameAndTypes of one long name and one long descriptor."""
    texts = [utf8("x" * LONG), utf8("L" + "x" * (LONG - 2) + ";")]
    entries = [*texts, *[pair(NAME_AND_TYPE, NAMES + 1, NAMES + 2)] * MANY]
    return class_of(head() + entries, [field(NAMES + 1, NAMES + 2)] * 2, [])


def late_differences() -> bytes:
    """150 long names that differ in their last bytes, and fields of each with 430 descriptors."""
    names = [utf8("x" * (LONG - 5) + f"{number:05}") for number in range(150)]
    descriptors = [utf8(f"L{text};") for text in numbered(430)]
    fields = [
        field(NAMES + 1 + name, NAMES + 151 + descriptor) for name in range(150) for descriptor in range(430)
    ]
    return class_of(head() + names + descriptors, [*fields, fields[-1]], [])


def long_fronts() -> bytes:
    """60,000 names of 163 bytes that differ in their last bytes, each of a field."""
    names = [utf8("x" * 158 + f"{number:05}") for number in range(60_000)]
    fields = [field(NAMES + 1 + number, 11) for number in range(60_000)]
    return class_of(head() + names, [*fields, fields[-1]], [])


def short_fields() -> bytes:
    """60,000 fields in a file of a megabyte."""
    names = [utf8(text) for text in numbered(60_000)]
    fields = [field(NAMES + 1 + number, 11) for number in range(60_000)]
    return class_of(head() + names, [*fields, fields[-1]], [])


def empty_attributes() -> bytes:
    """1,600,000 attributes of methods that hold nothing."""
    attributes = [attribute(1, b"")] * MANY
    names = [utf8(text) for text in numbered(25)]
    methods = [method(NAMES + 1 + number, 6, attributes) for number in range(25)]
    return class_of(head() + names, [], [*methods, methods[-1]])


def decoded(program: PathLike, folder: str, wanted: str) -> Tuple[float, int]:
    """Seconds of the processor and peak kilobytes of one run."""
    ran = measured([program, "decode", "A.class"], folder)
    if not ran.written.startswith(wanted):
        sys.exit(f"status {ran.status}: {ran.written}")
    return ran.processor, ran.kilobytes


HOSTILE = {
    "one_name": one_name,
    "one_descriptor": one_descriptor,
    "one_method_descriptor": one_method_descriptor,
    "one_class_name": one_class_name,
    "one_name_and_type": one_name_and_type,
    "late_differences": late_differences,
    "long_fronts": long_fronts,
    "short_fields": short_fields,
    "empty_attributes": empty_attributes,
}


def made() -> Iterator[Tuple[str, bytes, str]]:
    """The name of each file, its bytes, and what has to be said of it."""
    for name, plain in MAKERS.items():
        yield name, plain(SIZE), "ok"
    for name, hostile in HOSTILE.items():
        yield name, hostile(), "Duplicate"


def main() -> None:
    parser = argparse.ArgumentParser(description=__doc__, formatter_class=argparse.RawDescriptionHelpFormatter)
    parser.add_argument("program", nargs="?", type=pathlib.Path, default=BENCH, metavar="PROGRAM")
    program = parser.parse_args().program.resolve()
    for name, data, wanted in made():
        with tempfile.TemporaryDirectory() as folder:
            pathlib.Path(folder, "A.class").write_bytes(data)
            seconds, peak = decoded(program, folder, wanted)
        print(
            f"{name}: {len(data) / 1e6:.1f} MB of file in {seconds:.3f} s: {len(data) / 1e6 / seconds:.1f} MB a "
            f"second, {peak * 1024 / len(data):.1f} bytes of memory a byte of file"
        )


if __name__ == "__main__":
    main()
