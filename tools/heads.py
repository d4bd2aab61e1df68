"""The heads of crates and their modules: what is in each, and what is proved of it.

A head is the lines `//! ` that a source begins with. Its first paragraph says what is in the module. A line `# NAME` in it
begins a section of paragraphs and then of items, each of which may have items of its own below it.
"""

import pathlib
import re
from typing import Dict, Iterator, List, NamedTuple, Tuple

from tools.repository import ROOT

MODULE = re.compile(r"^pub mod (\w+);", re.M)
ANY_MODULE = re.compile(r"^(?:pub )?mod (\w+);", re.M)
ITEM = re.compile(r"( *)- (.*)")


class Item(NamedTuple):
    """An item of a list, and those below it."""

    text: str
    below: List["Item"]


class Section(NamedTuple):
    """A section of a head."""

    paragraphs: List[str]
    items: List[Item]


class Module(NamedTuple):
    """A module, or a crate with what stands in no module of it: its name, its crate and its source."""

    name: str
    crate: str
    path: pathlib.Path

    def is_crate(self) -> bool:
        return self.name == self.crate

    def source(self) -> str:
        return self.path.read_text(encoding="utf-8")

    def files(self) -> List[pathlib.Path]:
        """All its sources, those of the modules within it included."""
        return sorted(self.path.parent.glob("**/*.rt")) if self.path.stem in ("lib", "main", "mod") else [self.path]


def groups() -> Iterator[Tuple[str, List[str]]]:
    """The groups of crates.txt, each with its crates."""
    lines = (ROOT / "crates.txt").read_text(encoding="utf-8").split("\n")
    group = ""
    crates: List[str] = []
    for before, line in zip([""] + lines, lines):
        if line.startswith("# ") and not before and lines[0] != line:
            if crates:
                yield group, crates
            group, crates = line[2:], []
        elif line and not line.startswith("#"):
            crates.append(re.split(r"[ :]", line)[0])
    yield group, crates


def modules(crate: str, of_programs: bool = False) -> Iterator[Module]:
    """A crate, and then the modules that its `src/lib.rt` has as `pub mod`; of programs, too, all that `main.rt` has."""
    folder = ROOT / "crates" / crate / "src"
    top = folder / "lib.rt" if (folder / "lib.rt").is_file() else folder / "main.rt"
    yield Module(crate, crate, top)
    pattern = ANY_MODULE if of_programs and top.name == "main.rt" else MODULE
    for name in pattern.findall(top.read_text(encoding="utf-8")):
        path = folder / f"{name}.rt"
        yield Module(name, crate, path if path.is_file() else folder / name / "mod.rt")


def head(source: str) -> List[str]:
    """The lines at the head of a source, without what marks them."""
    lines: List[str] = []
    for line in source.split("\n"):
        if not line.startswith("//!"):
            break
        lines.append(line[4:])
    return lines


def first_paragraph(source: str) -> str:
    lines = head(source)
    return " ".join(lines[: lines.index("")] if "" in lines else lines)


def sections(source: str) -> Dict[str, Section]:
    """The sections of a head, by their names."""
    found: Dict[str, List[str]] = {}
    name = ""
    for line in head(source):
        if line.startswith("# "):
            name = line[2:]
            found[name] = []
        elif name:
            found[name].append(line)
    return {name: section(lines) for name, lines in found.items()}


def section(lines: List[str]) -> Section:
    start = next((number for number, line in enumerate(lines) if ITEM.match(line)), len(lines))
    paragraphs = [" ".join(text.split()) for text in re.split(r"\n\s*\n", "\n".join(lines[:start])) if text.strip()]
    return Section(paragraphs, items(lines[start:]))


def items(lines: List[str]) -> List[Item]:
    """The items of a list, by how far they are indented."""
    found: List[Item] = []
    below: List[List[str]] = []
    depth = None
    for line in lines:
        begun = ITEM.match(line)
        if begun and depth is None:
            depth = len(begun[1])
        if begun and len(begun[1]) == depth:
            found.append(Item(begun[2], []))
            below.append([])
        elif found and line.strip():
            if begun or below[-1]:
                below[-1].append(line)
            else:
                found[-1] = Item(f"{found[-1].text} {line.strip()}", [])
    return [Item(item.text, items(rest)) for item, rest in zip(found, below)]
