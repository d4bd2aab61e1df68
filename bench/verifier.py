#!/usr/bin/env python3
"""Measures the verifier by the program `bench verify`, on class files that it makes.

    bench/verifier.py [--program PROGRAM] [--keep FOLDER] [NAME..]

PROGRAM is the built program `bench` [default: crates/bench/out/bench, which `rt run` leaves]. One line is printed for
each set of class files: bytes of code, the seconds of the verification alone, bytes a second, and the peak resident
memory. The sets: 10,000 methods that javac compiles (`ordinary`); a method of 65,535 bytes with a thousand
handlers over all of it, without and with stores to local variables (`handlers`, `stores`); one with 65,535 local
variables (`locals`), and one of 65,535 bytes with as many (`both`), which takes more steps than there may be; 5,000
joins up a chain of 5,000 classes, of one place after all (`ladder`) and at the head of a loop (`loop`). All names are
the sets that are made [default: all].
"""

import argparse
import os
import pathlib
import random
import struct
import subprocess
import sys
import tempfile
from typing import List, Optional, Sequence, Tuple

sys.dont_write_bytecode = True
sys.path.insert(0, str(pathlib.Path(__file__).resolve().parent.parent))

from bench.measures import measured
from tools.class_files import FIELDREF, NAME_AND_TYPE, Handler, class_entry, class_file, code_attribute, member
from tools.class_files import named_class, pair, u2, u4, utf8, with_version_49
from tools.repository import BENCH, PathLike

CLASSES = 20
METHODS = 500
CHAIN = 5_000
LONGEST = 65_535


# ---- what javac compiles

STATEMENTS = [
    "for (int i = {c}; i < y; i++) {{ s += i * {d}; if ((s & {e}) == 0) {{ s = {call}; }} else {{ s ^= a; }} }}",
    "G{k} o = new G{k}(s); o.a = s + y; o.next = this; s -= o.b;",
    "int[] t = new int[{e}]; t[y & {c}] = a;"
    " for (int j = 0; j < t.length; j++) {{ t[j] = t[j] * {d} + s; s -= t[j] >> {c}; }}",
    "while (s > {d}) {{ s = s / {e} - b; if (y == s) {{ break; }} }}",
    "try {{ s = ((G{k}) next).a + {call}; }}"
    " catch (ArithmeticException f) {{ s = -{c}; }} catch (RuntimeException f) {{ s = {d}; }}",
    "switch (s) {{ case {c}: s = {d}; break; case {e}: a = s; default: b = y + {c}; }}",
    "if (next instanceof G{k}) {{ G0 p = (G{k}) next; s += p.a; }} else if (next != null) {{ s -= {call}; }}",
    "synchronized (this) {{ a += s; b -= {d}; }}",
    "G0[] r = new G0[{e}]; r[{c}] = s > y ? next : this; G0 q = r[{c}]; if (q != null) {{ s = {call}; }}",
    "System.out.println(s * {d}); count = count + s;",
    "s = (s << {c}) | (y >>> {e}) & ~(a % {d});",
]


def statement(rng: random.Random, method: int) -> str:
    callee = rng.randrange(METHODS)
    call = f"{rng.choice(['', 'this.', 'other().'])}m{callee}(s, y - {rng.randrange(9)})"
    numbers = {"c": rng.randrange(1, 6), "d": rng.choice([7, 100, 1000, 40_000]), "e": rng.randrange(7, 30)}
    return rng.choice(STATEMENTS).format(k=rng.randrange(CLASSES), call=call, **numbers)


def method_source(rng: random.Random, number: int) -> str:
    lines = [f"{{ {statement(rng, number)} }}" for _ in range(4)]
    return f"int m{number}(int x, int y) {{ int s = x; {' '.join(lines)} return s; }}"


def class_source(rng: random.Random, number: int) -> str:
    head = f"class G{number} extends G{number // 2 - 1}" if number > 1 else f"class G{number}"
    if number == 0:
        head += " { int a; int b; G0 next; static int count;"
        head += " public static void main(String[] words) { System.out.println(new G0(1).m0(1, 2)); }"
    elif number == 1:
        head = "class G1 extends G0 {"
    else:
        head += " {"
    above = "" if number == 0 else "super(a); "
    head += f" G{number}(int a) {{ {above}this.a = a; b = a - 1; }} G0 other() {{ return next == null ? this : next; }}"
    methods = [method_source(rng, method) for method in range(METHODS)]
    return "\n".join([head, *methods, "}"])


def ordinary(folder: str) -> List[str]:
    """Classes that javac compiles, as files of version 49."""
    rng = random.Random(1)
    sources = []
    for number in range(CLASSES):
        sources.append(os.path.join(folder, f"G{number}.java"))
        with open(sources[-1], "w") as file:
            file.write(class_source(rng, number))
    command = ["javac", "-nowarn", "-g:none", "--release", "7", "-d", folder, *sources]
    subprocess.run(command, check=True, stderr=subprocess.DEVNULL)
    paths = [os.path.join(folder, f"G{number}.class") for number in range(CLASSES)]
    for path in paths:
        pathlib.Path(path).write_bytes(with_version_49(pathlib.Path(path).read_bytes()))
    return paths


# ---- one class with one long method

MAIN, DESCRIPTOR, CODE, CLASS, OBJECT, THROWABLE, NAMES = 1, 2, 3, 5, 7, 9, 10


def head() -> List[bytes]:
    """The entries 1 to 9: main, its descriptor, Code, the class A, Object and Throwable."""
    return [
        *map(utf8, ("main", "([Ljava/lang/String;)V", "Code")),
        *named_class(4, "A"),
        *named_class(6, "java/lang/Object"),
        *named_class(8, "java/lang/Throwable"),
    ]


def write_class(
    path: str, entries: Sequence[bytes], classes: Tuple[int, int], fields: Sequence[bytes], methods: Sequence[bytes]
) -> str:
    pathlib.Path(path).write_bytes(class_file(entries, 0x0021, classes, fields, methods))
    return path


def main_method(code: bytes, stack: int, local_count: int, handlers: Sequence[Handler] = ()) -> bytes:
    return member(0x0009, MAIN, DESCRIPTOR, [code_attribute(CODE, stack, local_count, code, handlers)])


def write_main(
    folder: str,
    code: bytes,
    sizes: Tuple[int, int],
    handlers: Sequence[Handler] = (),
    entries: Sequence[bytes] = (),
    fields: Sequence[bytes] = (),
) -> str:
    """Writes the class A, whose main has this code, and these sizes of its stack and its local variables."""
    method = main_method(code, *sizes, handlers)
    return write_class(os.path.join(folder, "A.class"), [*head(), *entries], (CLASS, OBJECT), fields, [method])


def with_handlers(folder: str, body: bytes) -> List[str]:
    """A thousand handlers over all of 65,535 bytes of code; each drops what it caught and returns."""
    handler = bytes.fromhex("57 b1")
    length = LONGEST - 1000 * len(handler)
    code = body * ((length - 1) // len(body))
    code += b"\x00" * (length - 1 - len(code)) + b"\xb1"
    places = [len(code) + len(handler) * number for number in range(1000)]
    code += handler * 1000
    kinds = [THROWABLE, 0]
    handlers = [(0, LONGEST, at, kinds[at // 2 % 2]) for at in places]
    return [write_main(folder, code, (2, 4), handlers)]


def handlers(folder: str) -> List[str]:
    return with_handlers(folder, b"\x00")


def stores(folder: str) -> List[str]:
    """iconst_0, istore_1, iinc 1 1, aload_0, astore_1, aconst_null, astore_2"""
    return with_handlers(folder, bytes.fromhex("03 3c 84 01 01 2a 4c 01 4d"))


def local_variables(folder: str) -> List[str]:
    """Three thousand instructions that store in the last of 65,535 local variables."""
    body = bytes.fromhex("03 c4 36 fffe 2a c4 3a fffe")
    return [write_main(folder, body * 750 + b"\xb1", (1, LONGEST))]


def both(folder: str) -> List[str]:
    body = bytes.fromhex("03 c4 36 fffe 2a c4 3a fffe")
    code = body * ((LONGEST - 1) // len(body))
    return [write_main(folder, code + b"\x00" * (LONGEST - 1 - len(code)) + b"\xb1", (1, LONGEST))]


# ---- joins

def chain(folder: str) -> List[str]:
    """A chain of classes C0, C1, .. in files of their own, C0 directly below Object."""
    paths = []
    for number in range(CHAIN):
        entries = [utf8(f"C{number}"), class_entry(1)]
        entries += [utf8(f"C{number - 1}" if number else "java/lang/Object"), class_entry(3)]
        paths.append(write_class(os.path.join(folder, f"C{number}.class"), entries, (2, 4), [], []))
    return paths


def fields_of_chain() -> Tuple[List[bytes], List[bytes], List[int]]:
    """Static fields f0, f1, .. of the classes of the chain, the last first: entries, the fields, their references."""
    entries: List[bytes] = []
    fields: List[bytes] = []
    references: List[int] = []
    first = NAMES
    for number in range(CHAIN):
        at = first + len(entries)
        entries += [utf8(f"f{number}"), utf8(f"LC{CHAIN - 1 - number};")]
        entries += [pair(NAME_AND_TYPE, at, at + 1), pair(FIELDREF, CLASS, at + 2)]
        fields.append(member(0x0009, at, at + 1))
        references.append(at + 3)
    return entries, fields, references


def joins(folder: str, to_head: bool) -> List[str]:
    """A switch on an int to 5,000 places, each of which stores a field of another class of the chain in local variable
    1, and goes on behind them all, or back to the head."""
    entries, fields, references = fields_of_chain()
    head_code = bytes.fromhex("01 4c 03 3d")
    at = len(head_code)
    # iload_2, tableswitch
    switch_at = at + 1
    padding = (3 - switch_at) % 4
    table_at = switch_at + 1 + padding
    cases_at = table_at + 12 + 4 * CHAIN
    # getstatic, astore_1, goto_w
    rung = 9
    end = cases_at + rung * CHAIN
    code = head_code + b"\x1c\xaa" + b"\x00" * padding
    code += u4(end - switch_at) + u4(0) + u4(CHAIN - 1)
    code += b"".join(u4(cases_at + rung * number - switch_at) for number in range(CHAIN))
    for number, reference in enumerate(references):
        target = at if to_head else end
        jump = target - (cases_at + rung * number + 4)
        code += b"\xb2" + u2(reference) + b"\x4c\xc8" + struct.pack(">i", jump)
    code += b"\xb1"
    return [write_main(folder, code, (1, 3), entries=entries, fields=fields), *chain(folder)]


def ladder(folder: str) -> List[str]:
    return joins(folder, False)


def loop(folder: str) -> List[str]:
    return joins(folder, True)


SETS = {
    "ordinary": ordinary,
    "handlers": handlers,
    "stores": stores,
    "locals": local_variables,
    "both": both,
    "ladder": ladder,
    "loop": loop,
}


def verified(program: PathLike, paths: Sequence[str]) -> Tuple[str, Optional[int], int]:
    """What the program says, the microseconds of the verification, and peak kilobytes."""
    ran = measured([program, "verify", *paths])
    told = ran.error.split("\n")
    if ran.status != 0 or not told[0].endswith(" microseconds"):
        return f"status {ran.status}: {ran.written.strip()} {ran.error.strip()}", None, ran.kilobytes
    return ran.written.strip(), int(told[0].split()[0]), ran.kilobytes


def main() -> None:
    parser = argparse.ArgumentParser(description=__doc__, formatter_class=argparse.RawDescriptionHelpFormatter)
    parser.add_argument("--program", default=BENCH)
    parser.add_argument("--keep", help="a folder for the class files, in place of a temporary one")
    parser.add_argument("names", nargs="*")
    options = parser.parse_args()
    for name in options.names or SETS:
        with tempfile.TemporaryDirectory() as temporary:
            folder = os.path.join(options.keep, name) if options.keep else temporary
            os.makedirs(folder, exist_ok=True)
            paths = SETS[name](folder)
            if options.keep:
                continue
            said, microseconds, peak = verified(os.path.abspath(options.program), paths)
        if microseconds is None:
            print(f"{name}: {said}", flush=True)
            continue
        count = int(said.split()[0])
        seconds = max(microseconds, 1) / 1e6
        rate, memory = f"{count / 1e6 / seconds:.2f} MB a second", f"peak {peak / 1024:.0f} MiB"
        print(f"{name}: {said} in {seconds:.3f} s: {rate}, {memory}", flush=True)


if __name__ == "__main__":
    main()
