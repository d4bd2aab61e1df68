#!/usr/bin/env python3
"""Traces by the oracle: what `jvm trace` has to print, worked out by a machine of its own.

    oracle/traces.py [--columns | --json] [--summary] [--from N] [--to N] [--only N,..] --schedule FILE FILE..
    oracle/traces.py --write

The schedule is a text. What an event did is told by the state before it and the state after it, as docs/REFERENCE.md
says. With --write the traces of the lessons below become cases/traces.cases, with what they have to print.
"""

import argparse
import pathlib
import re
import sys
import tempfile
from typing import Any, Dict, List, Optional, Sequence, Tuple

sys.dont_write_bytecode = True
sys.path.insert(0, str(pathlib.Path(__file__).resolve().parent.parent))

from oracle.lessons import LESSONS, class_files
from oracle.machine import status_of, text_of
from oracle.schedules import Entry, entries_of_text
from oracle.state import NotEnabled, Refused
from oracle.told import Folded, Told
from oracle.traced import Traced
from tools.cases import file_lines, write_cases
from tools.class_files import METHODREF, NAME_AND_TYPE, Handler, attribute, class_file, code_attribute, counted, member
from tools.class_files import named_class, pair, stored_utf8, u2, utf8
from tools.repository import ROOT, compiled


def numbers_of(text: Optional[str]) -> Optional[List[int]]:
    """The numbers of a text, with commas between them; None of no text."""
    return None if text is None else [int(part) for part in text.split(",")]


def folded(run: List[Told]) -> List[Told]:
    """The lines of events of one entry of a schedule: of two or more local ones, one behind the other, a line."""
    lines: List[Told] = []
    at = 0
    while at < len(run):
        behind = at + 1
        while run[at].is_local and behind < len(run) and run[behind].follows(run[behind - 1]):
            behind += 1
        lines.append(Folded(run[at:behind]) if behind > at + 1 else run[at])
        at = behind
    return lines


def trace(
    files: Sequence[bytes],
    entries: Sequence[Entry],
    first: int = 0,
    last: Optional[int] = None,
    only: Optional[Sequence[int]] = None,
    form: str = "plain",
    summary: bool = False,
) -> Tuple[str, int]:
    """What `jvm trace` prints, and its status; `only` has the threads that are told."""
    machine, end = Traced(files), ""
    lines: List[str] = []
    for thread, pick, repeat in entries:
        run = []
        for _ in range(repeat):
            at = machine.done
            try:
                told = machine.told(thread, pick)
            except NotEnabled:
                end = f"not enabled {machine.done}"
            except Refused as why:
                end = f"refused {machine.done} {why}"
            if end:
                break
            if first <= at and (last is None or at <= last) and (only is None or thread in only):
                run.append(told)
        lines += [told.line(form) + "\n" for told in (folded(run) if summary else run)]
        if end:
            break
    end = end or ("schedule" if machine.enabled() else "quiet")
    return "".join(lines) + text_of(machine, end), status_of(machine, end)


# The lessons that are traced: folder, schedule, class files, options, how the schedule goes on, and what the case is
# called by.
TRACED: List[Tuple[str, str, List[str], Dict[str, Any], str, str]] = [
    ("lost-update", "lost", ["LostUpdate"], {}, "1*4 0*10", ""),
    ("lost-update", "lost", ["LostUpdate"], {"from": 20, "to": 35, "form": "columns"}, "1*4 0*10", ""),
    ("lost-update", "lost", ["LostUpdate"], {"only": "2,1"}, "1*4 0*10", "threads-1-and-2"),
    ("lost-update", "lost", ["LostUpdate"], {"summary": True}, "1*4 0*10", "summary"),
    ("lost-update", "lost-repaired", ["Repaired"], {"only": "2"}, "", ""),
    ("bounded-buffer", "barges-in", ["IfForWhile"], {"from": 26}, "1*20", ""),
    ("bounded-buffer", "barges-in", ["IfForWhile"], {"form": "json", "summary": True}, "1*20", "summary"),
    (
        "bounded-buffer",
        "barges-in",
        ["IfForWhile"],
        {"from": 28, "only": "0,2", "form": "columns", "summary": True},
        "1*20",
        "summary",
    ),
    ("wrong-waiter", "second-is-woken", ["WrongWaiter"], {"from": 40}, "0*2 2*5", ""),
    ("interrupted-wait", "within", ["InterruptedWait"], {"from": 10}, "1*30", ""),
    ("missed-notify", "in-time", ["MissedNotify"], {"from": 15, "to": 30}, "1*12 0*5", ""),
    ("class-initialisation", "thread-1-first", ["Initialisers", "Left", "Right"], {}, "0*4", ""),
    ("class-initialisation", "thread-1-first", ["Initialisers", "Left", "Right"], {"form": "json"}, "0*4", ""),
]


# The entry of the LineNumberTable's name in the constant pool of `lined`.
LINES = 12


def lined_method(
    member_head: Tuple[int, int, int],
    sizes: Tuple[int, int],
    code: str,
    handlers: Sequence[Handler],
    lines: Sequence[Tuple[int, int]],
) -> bytes:
    """A method with the lines of its code."""
    table = attribute(LINES, counted([u2(start) + u2(line) for start, line in lines]))
    return member(*member_head, [code_attribute(7, *sizes, bytes.fromhex(code), handlers, [table])])


def lined(half: bytes = b"half", source: bytes = b"A.java") -> bytes:
    """A class whose main divides by zero, and catches that, with its source and its lines (JVMS 4.7.10, 4.7.12)."""
    pool = [
        *named_class(1, "A"),
        *named_class(3, "java/lang/Object"),
        *map(utf8, ("main", "([Ljava/lang/String;)V", "Code")),
        *named_class(8, "java/lang/ArithmeticException"),
        stored_utf8(half),
        *map(utf8, ("(I)I", "LineNumberTable")),
        stored_utf8(source),
        utf8("SourceFile"),
        pair(NAME_AND_TYPE, 10, 11),
        pair(METHODREF, 2, 15),
    ]
    # iconst_0, invokestatic half, pop, return; astore_1, return
    main = lined_method((9, 5, 6), (1, 2), "03 b80010 57 b1 4c b1", [(0, 5, 6, 9)], [(0, 3), (5, 6), (6, 4)])
    # bipush 10, iload_0, idiv, ireturn, in a static synchronized method
    divides = lined_method((0x29, 10, 11), (2, 1), "100a 1a 6c ac", [], [(0, 9), (2, 10)])
    return class_file(pool, 0x20, (2, 4), [], [main, divides], attributes=[attribute(14, u2(13))])


# Names in modified UTF-8: a NUL has two bytes, and a character outside of the first 65,536 is a pair of surrogates.
ODD = lined(b'h"a\\l\nf\xc0\x80', b"\xc3\xa9\xed\xa0\xbd\xed\xb8\x80.java")

LINED = [
    ("lines", "plain", lined(), "An exception leaves a synchronized method, and is caught."),
    ("divides", "summary", lined(), "In a summary what throws has a line of its own."),
    (
        "names",
        "json",
        ODD,
        "Names have a quotation mark, a backslash, a line feed, a NUL, a letter with an accent, and a face.",
    ),
]


HEAD = [
    "# Traces: runs told event by event, made by `oracle/traces.py` over the files of the lessons.",
    "",
    "files lessons.cases",
    "",
]


def traced_lesson(
    folder: str, schedule: str, names: List[str], options: Dict[str, Any], more: str, called: str
) -> Tuple[List[str], str]:
    """The lines of the case of a lesson, and what it has to print."""
    files = class_files(LESSONS / folder)
    words = re.sub(r"#.*", "", (LESSONS / folder / f"{schedule}.schedule").read_text()).split() + more.split()
    form = options.get("form", "plain")
    told, status = trace(
        [files[f"{name}.class"] for name in names],
        entries_of_text(" ".join(words)),
        options.get("from", 0),
        options.get("to"),
        numbers_of(options.get("only")),
        form,
        options.get("summary", False),
    )
    flags = {"form": f" --{form}", "summary": " --summary"}
    given = "".join(flags.get(key, f" --{key} {value}") for key, value in options.items())
    case = "-".join(filter(None, ["trace", folder, schedule, "" if form == "plain" else form, called]))
    paths = " ".join(f"{folder}/{name}.class" for name in names)
    text = [f"text {case}.schedule", f"  {' '.join(words)}"]
    text += [f"case {case}", f"  trace --schedule {case}.schedule{given} {paths}"]
    return text, f"case {case}\n{told}status {status}\n"


def cases() -> Tuple[str, str]:
    """The text of the cases, and what they have to print."""
    text, printed = [*HEAD], ""
    for row in TRACED:
        lines, told = traced_lesson(*row)
        text, printed = text + lines, printed + told
    text += ["", "# Of the next class files, which tell their source and their lines.", "text lined.schedule", "  0*13"]
    for name, form, data, comment in LINED:
        told, status = trace([data], [Entry(0, 0, 13)], form=form, summary=form == "summary")
        given = "" if form == "plain" else f" --{form}"
        text += ["", f"# {comment}", *file_lines(f"{name}/A.class", data)]
        text += [f"case trace-{name}", f"  trace{given} --schedule lined.schedule {name}/A.class"]
        printed += f"case trace-{name}\n{told}status {status}\n"
    told, status = trace([ODD], [Entry(0, 0, 13)])
    text += ["# Outside of JSON a line of an event is one line, too.", "case trace-names-in-words"]
    text += ["  trace --schedule lined.schedule names/A.class"]
    printed += f"case trace-names-in-words\n{told}status {status}\n"
    for program in PROGRAMS:
        lines, shown = traced_program(*program)
        text, printed = text + lines, printed + shown
    return "\n".join([*text, ""]), printed


# The programs of programs/ that are traced: the folder of the class file, the program, how many events are told, and
# what is said of them.
PROGRAMS = [
    ("prints", "Quoted", 37, "What is printed is told in quotation marks, but for a println of an int."),
    ("strings", "Asked", 54, "A method of String makes a String, or pushes what is there, or throws."),
    ("builders", "Told", 68, "A method of StringBuilder makes a String, and pushes what is there; both streams print."),
    ("volatile", "races/VolatileFlag", 18, "A field that is volatile is said to be so."),
]

# In the place of a method that javac takes there stands another one, which no class of Java has for others to call.
CHANGED = {
    "(Ljava/lang/CharSequence;)Ljava/lang/StringBuilder;": "(Ljava/lang/StringBuilder;)Ljava/lang/StringBuilder;",
}


def traced_program(folder: str, name: str, events: int, comment: str) -> Tuple[List[str], str]:
    """The lines of the cases of a program of one thread, and what they have to print."""
    with tempfile.TemporaryDirectory() as classes:
        data = compiled([ROOT / f"programs/{name}.java"], classes)[0].read_bytes()
    for old, new in CHANGED.items():
        data = data.replace(utf8(old), utf8(new))
    text = ["", f"# {comment}", f"text {folder}.schedule"]
    text += [f"  0*{events}", *file_lines(f"{folder}/{name}.class", data)]
    printed = ""
    for form in ("plain", "json"):
        told, status = trace([data], [Entry(0, 0, events)], form=form)
        given, case = ("", f"trace-{folder}") if form == "plain" else (f" --{form}", f"trace-{folder}-{form}")
        text += [f"case {case}", f"  trace{given} --schedule {folder}.schedule {folder}/{name}.class"]
        printed += f"case {case}\n{told}status {status}\n"
    return text, printed


def main() -> int:
    if sys.argv[1:] == ["--write"]:
        write_cases("traces", *cases())
        return 0
    parser = argparse.ArgumentParser()
    parser.add_argument("--schedule", required=True)
    for form in ("columns", "json"):
        parser.add_argument(f"--{form}", action="store_const", const=form, dest="form", default="plain")
    for name in ("--from", "--to"):
        parser.add_argument(name, type=int, dest=name[2:] + "_")
    parser.add_argument("--only", dest="only_")
    parser.add_argument("--summary", action="store_true")
    parser.add_argument("files", nargs="+")
    words = parser.parse_args()
    files = [pathlib.Path(path).read_bytes() for path in words.files]
    entries = entries_of_text(pathlib.Path(words.schedule).read_text())
    only = numbers_of(words.only_)
    text, status = trace(files, entries, words.from_ or 0, words.to_, only, words.form, words.summary)
    sys.stdout.buffer.write(text.encode("latin-1"))
    return status


if __name__ == "__main__":
    sys.exit(main())
