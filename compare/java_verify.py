#!/usr/bin/env python3
"""Compares the verifier with that of a JDK, on methods made by chance.

    compare/java_verify.py [--program PROGRAM] [--count N] [--seed N] [--keep FOLDER]

Makes class files of version 49 with one method each, mostly of good types, some changed in an instruction, an operand,
a jump or a handler; has the JDK's verifier, which infers types for files of this version, and PROGRAM judge each; and
prints how often both accept and refuse, and each file of which only one accepts. PROGRAM is `bench verify` or `jvm
verify` [default: `crates/bench/out/bench verify`]; a file that it refuses while linking is not counted. A JDK has to
be there, whose `java` still has the old verifier and whose `javac` compiles for release 7.
"""

import argparse
import pathlib
import random
import subprocess
import sys
import tempfile
from typing import Dict, Sequence, Tuple

sys.dont_write_bytecode = True
sys.path.insert(0, str(pathlib.Path(__file__).resolve().parent.parent))

from compare.made_files import class_file
from tools.class_files import with_version_49
from tools.repository import BENCH

JAVAC = ["javac", "-nowarn", "-g:none", "--release", "7"]

HELPERS = """
interface I { int run(int n); }
class A implements I {
    int x; A next; static A one; A() {} A(int n) { x = n; }
    public int run(int n) { return n; } A same(A a) { return a; } static A made(B b) { return b; }
}
class B extends A { int[] numbers; B() {} B(int n) { super(n); } A[] all() { return null; } }
class C extends A { I other; static Object any; C() {} static int count(A[] all) { return 0; } }
class D extends B { D() {} static void print(I i) {} }
"""

LOADER = """
public class Loader {
    public static void main(String[] words) throws Exception {
        for (int i = 0; i < Integer.parseInt(words[0]); i++) {
            String said = "accepted";
            try {
                Class.forName("T" + i, false, Loader.class.getClassLoader()).getDeclaredMethods();
            } catch (VerifyError e) {
                said = "refused " + String.valueOf(e.getMessage()).replace('\\n', ' ');
            } catch (Throwable e) {
                said = "other " + String.valueOf(e).replace('\\n', ' ');
            }
            System.out.println(said);
        }
    }
}
"""


def make(folder: pathlib.Path, count: int, seed: int) -> None:
    for name, source in (("Helpers", HELPERS), ("Loader", LOADER)):
        path = folder / f"{name}.java"
        path.write_text(source)
        subprocess.run([*JAVAC, "-d", folder, path], check=True, stderr=subprocess.DEVNULL)
    for name in "IABCD":
        path = folder / f"{name}.class"
        path.write_bytes(with_version_49(path.read_bytes()))
    for number in range(count):
        (folder / f"T{number}.class").write_bytes(class_file(random.Random(seed * 1_000_000 + number), number))


def said_by_program(program: Sequence[str], folder: pathlib.Path, number: int) -> str:
    paths = [str(folder / f"{name}.class") for name in (f"T{number}", *"IABCD")]
    ran = subprocess.run([*program, *paths], capture_output=True, text=True)
    told = ran.stdout + ran.stderr
    if "Unverified" in told:
        return "refused " + told[told.index("refused"):].split("\n")[0]
    if "verified" in told and "refused" not in told:
        return "accepted"
    return "not linked " + told.split("\n")[0]


def main() -> None:
    parser = argparse.ArgumentParser(description=__doc__, formatter_class=argparse.RawDescriptionHelpFormatter)
    parser.add_argument("--program", default=f"{BENCH} verify")
    parser.add_argument("--count", type=int, default=500)
    parser.add_argument("--seed", type=int, default=1)
    parser.add_argument("--keep", help="a folder for the class files, in place of a temporary one")
    options = parser.parse_args()
    with tempfile.TemporaryDirectory() as temporary:
        folder = pathlib.Path(options.keep or temporary)
        folder.mkdir(parents=True, exist_ok=True)
        make(folder, options.count, options.seed)
        command = ["java", "-Xverify:all", "-Xshare:off", "-cp", str(folder), "Loader", str(options.count)]
        ran = subprocess.run(command, capture_output=True, text=True, check=True)
        by_java = ran.stdout.split("\n")[: options.count]
        counts: Dict[Tuple[str, str], int] = {}
        for number, java in enumerate(by_java):
            ours = said_by_program(options.program.split(), folder, number)
            pair = (java.split()[0], " ".join(ours.split()[:1]))
            counts[pair] = counts.get(pair, 0) + 1
            if pair[1] != "not" and pair[0] != pair[1]:
                print(f"T{number}: java {java}; program {ours}")
    for (java, ours), count in sorted(counts.items()):
        print(f"{count}: java {java}, program {'not linked' if ours == 'not' else ours}")


if __name__ == "__main__":
    main()
