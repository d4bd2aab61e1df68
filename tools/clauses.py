"""What is proved of each module, as docs/PROVED.md has it: a table of what the heads of the sources say."""

import pathlib
import re
import textwrap
from typing import Iterator, List, NamedTuple, Set

from tools import heads
from tools.heads import Item, Module
from tools.repository import ROOT

DOCUMENT = ROOT / "docs/PROVED.md"
COLUMNS = 120

# The sections of a head.
PROVED, NOT_PROVED, WRONG_BODIES = "Proved", "Not proved", "Wrong bodies"

QUOTED = re.compile(r"`((?:\w+::)*\w+)`")
GROUP = re.compile(r"\(([^()]*`[^()]*)\)")
DECLARED = re.compile(r"\bfn (\w+)")
WRONG_BODY = re.compile(r"(`[\w-]+`(?:, `[\w-]+`)*): (.*); refused by (.*)\.")
PLANTED = re.compile(
    r"Planted by `rt plant`(?: in (what stands in no module))?: (\d+) functions, (\d+) untried; (\d+) bodies judged, (\d+) not judged, (\d+) not run; "
    r"(.*)\."
)

BEGINNING = """\
# What is proved, module by module

`tools/proved` makes this page of the heads of the sources. [THEOREM.md](THEOREM.md) has what is proved of the whole,
and [ARCHITECTURE.md](ARCHITECTURE.md) the map of the crates.

`rt check` accepts a function only where its body meets its contract for all arguments that its `requires` allows. It is
safe then: no index out of range, no sum that wraps, no use after free. And it returns: each function does but
`run_workers`, and so `run` and `run_engine` of `engines`, whatever bytes, schedules and limits it is given. That stands
in no clause. How long calls take is only measured.

*Memory aside* below means: in the place of the promised answer there may be one that there was no memory. No contract
says when memory is there: `AllocError` has one value, which any code can make. Cases and tests run with enough memory.
What a function takes by reference alone it leaves as it is, and a value that it takes over is given up where it
refuses.

A row has the functions that it names; the clauses of their contracts, and the definitions that these name, in brackets
where they are said; and what they say. What no clause says stands in the last column: it is shown by *cases*, by
*tests*, or not at all. A case is data: class files, a schedule and a command line, with what must be printed;
`tools/try-cases` runs all of them. Tests are code, in crates of their own.
"""

WRONG = """\
## Wrong bodies that are refused

These matter most. The gate tries those of `must-fail/`. Those of `wrong-bodies/` stand there with some 1,300 others,
which `tools/wrong-bodies` tries. An edit begins with the name of its module.
"""

PLANTS = """\
## What planted wrong bodies get through

`rt plant` writes wrong bodies by rule under the contracts of public functions. Some give up: a failure, none, 0, an
argument, nothing done. Others call the real function, of which only its contract is seen, and spoil the call. They
call it with another argument, twice, or not where something is empty or 0; change the answer; or set a field to 0.
`rt plant` lists those that Rattle's tactics prove. Of the rest they are no judge: they may miss a proof, and where they
meet a limit a body isn't judged. So the table shows where a contract is loose, and not that the others are tight.

*Untried* are functions of which no body that gives up was judged, as where none can be written. A body that proves and
does what the real one does is counted, too. All runs but those of crates were made of an earlier tree, in which each of
these modules was a crate; those of a crate are of all its modules.
"""


class Row(NamedTuple):
    """A row of a module's table, with the text of the last two columns in one of them."""

    functions: List[str]
    clauses: List[str]
    text: str
    is_proved: bool

    def line(self) -> str:
        says = ["", ""]
        says[not self.is_proved] = self.text.replace("|", "\\|")
        return "| " + " | ".join([quoted(self.functions), quoted(self.clauses), *says]) + " |"


def quoted(names: List[str]) -> str:
    return ", ".join(f"`{name}`" for name in names)


def named(text: str, declared: Set[str]) -> List[str]:
    """The functions that a text names, each once."""
    return list(dict.fromkeys(name for name in QUOTED.findall(text) if name.split("::")[-1] in declared))


def clauses_of(text: str, functions: List[str]) -> List[str]:
    """The clauses and definitions that a text names in brackets, each once."""
    found = (name for group in GROUP.findall(text) for name in QUOTED.findall(group))
    return list(dict.fromkeys(name for name in found if name not in functions))


def parts(text: str) -> List[str]:
    """The sentences of a text, cut at semicolons, too, but not within brackets."""
    found, start, depth = [], 0, 0
    plain = re.sub(r"`[^`]*`", lambda one: "`" * len(one[0]), text)
    for place, letter in enumerate(plain):
        depth += (letter in "([") - (letter in ")]")
        if depth == 0 and (letter == ";" or letter == "." and re.match(r"\. [A-Z`]", plain[place:])):
            found.append(text[start : place + 1].strip())
            start = place + 1
    return found + [text[start:].strip()] * bool(text[start:].strip())


def rows(items: List[Item], declared: Set[str], above: List[str]) -> Iterator[Row]:
    """The rows of a list. A part of an item that names a function or a clause begins one; what names no function is of
    those before it."""
    for item in items:
        functions = above
        begun: List[Row] = []
        for part in parts(item.text):
            here = named(part, declared)
            clauses = clauses_of(part, here)
            functions = here or functions
            if begun and not here and not clauses:
                begun[-1] = begun[-1]._replace(text=f"{begun[-1].text} {part}")
            else:
                begun.append(Row(functions, clauses, part, True))
        yield from begun
        yield from rows(item.below, declared, functions)


def rows_of_what_is_not(items: List[Item], declared: Set[str]) -> Iterator[Row]:
    for item in items:
        yield Row(named(item.text, declared), [], item.text, False)
        yield from rows_of_what_is_not(item.below, declared)


def declared_in(module: Module) -> Set[str]:
    return {name for path in module.files() for name in DECLARED.findall(path.read_text(encoding="utf-8"))}


def module_lines(module: Module) -> Iterator[str]:
    """What the page says of a module."""
    found = heads.sections(module.source())
    link = module.path.relative_to(ROOT).as_posix()
    is_told = PROVED in found or NOT_PROVED in found
    if is_told or module.is_crate():
        yield f"{'###' if module.is_crate() else '####'} {module.name}"
        yield ""
    if not is_told:
        return
    declared = declared_in(module)
    table: List[Row] = []
    yield from paragraph(f"[Its head](../{link}) says:")
    for name in (PROVED, NOT_PROVED):
        if name in found:
            for text in found[name].paragraphs:
                yield from paragraph(text)
            listed = found[name].items
            table += rows(listed, declared, []) if name == PROVED else rows_of_what_is_not(listed, declared)
    if table:
        yield "| Function | Clause | What it says | Not proved |"
        yield "|---|---|---|---|"
        yield from (row.line() for row in table)
        yield ""


def paragraph(text: str) -> List[str]:
    """The lines of a paragraph, and an empty one."""
    kept = re.sub(r"`[^`]*`", lambda one: one[0].replace(" ", "\0"), text)
    lines = textwrap.wrap(kept, COLUMNS, break_long_words=False, break_on_hyphens=False)
    return [line.replace("\0", " ") for line in lines] + [""]


def all_modules() -> List[Module]:
    return [module for _, crates in heads.groups() for crate in crates for module in heads.modules(crate, True)]


def wrong_bodies(module: Module) -> List[Item]:
    found = heads.sections(module.source())
    return found[WRONG_BODIES].items if WRONG_BODIES in found else []


def edit_of(crate: str, name: str) -> pathlib.Path:
    """The file of an edit, whether it is there or not."""
    folder = ROOT / "crates" / crate
    path = folder / "must-fail" / f"{name}.edit"
    return path if path.is_file() else folder / "wrong-bodies" / f"{name}.edit"


def tables_of_wrong_bodies() -> Iterator[str]:
    """The tables of wrong bodies, and of those that are planted."""
    refused, planted = [], []
    for module in all_modules():
        for item in wrong_bodies(module):
            of_edit, of_plant = WRONG_BODY.fullmatch(item.text), PLANTED.fullmatch(item.text)
            if of_edit:
                paths = [edit_of(module.crate, name) for name in re.findall(r"`([^`]*)`", of_edit[1])]
                edits = ", ".join(f"`{module.crate}/{path.parent.name}/{path.stem}`" for path in paths)
                refused.append(f"| {of_edit[2]} | {edits} | {of_edit[3]} |")
            elif of_plant:
                what = f"`{module.name}`, {of_plant[1] or 'the crate'}" if module.is_crate() else f"`{module.name}`"
                cells = f"{of_plant[2]}, {of_plant[3]} | {of_plant[4]} | {of_plant[5]}, {of_plant[6]} | {of_plant[7]}"
                planted.append(f"| {what} | {cells} |")
    yield from [WRONG, "| Body | Edit | Refused by |", "|---|---|---|", *refused, ""]
    yield from [PLANTS, "| Module | Functions, of these untried | Bodies judged | Not judged, not run | What proves |"]
    yield from ["|---|---|---|---|---|", *planted, ""]


def document() -> str:
    """The page."""
    lines = [BEGINNING]
    for group, crates in heads.groups():
        lines += [f"## {group}", ""]
        for crate in crates:
            for module in heads.modules(crate, of_programs=True):
                lines += module_lines(module)
    lines += tables_of_wrong_bodies()
    return "\n".join(lines).rstrip("\n") + "\n"


def faults() -> List[str]:
    """What is wrong with the page and with the heads that it is made of, a line each."""
    found: List[str] = []
    for module in all_modules():
        name = module.path.relative_to(ROOT).as_posix()
        for item in wrong_bodies(module):
            of_edit = WRONG_BODY.fullmatch(item.text)
            if of_edit:
                names = re.findall(r"`([^`]*)`", of_edit[1])
                found += [f"{name}: no edit {edit}" for edit in names if not edit_of(module.crate, edit).is_file()]
            elif not PLANTED.fullmatch(item.text):
                found.append(f"{name}: neither an edit nor what was planted: {item.text[:60]}")
    if not DOCUMENT.is_file() or DOCUMENT.read_text(encoding="utf-8") != document():
        found.append("docs/PROVED.md: it differs from the heads; tools/proved --write makes it")
    return found
