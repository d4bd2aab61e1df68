"""The sources of the crate `class_library`: the class files of library/classes as tables of bytes."""

import pathlib
import re
from typing import Dict, List, NamedTuple

from tools.repository import ROOT

CRATE = ROOT / "crates/class_library"

HEAD = """\
//! The class files of the library, as `tools/build-library` makes them of library/classes. Not to be edited.
#![tactic(auto)]

{modules}

use library_files::LibraryClass;
use std::alloc::{{AllocError, Global}};

/// The classes of the library, by the bytes of their names. `AllocError` for want of memory.
pub fn library_classes(alloc: Global) -> Result<Vec<LibraryClass<'static>>, AllocError> {{
    let mut classes = Vec::new(alloc);
{extended}
    Ok(classes)
}}
"""

MODULE = """\
//! The class files of {package}. Not to be edited.

use library_files::LibraryClass;

{statics}

/// The classes of the package, by the bytes of their names.
pub(crate) fn classes() -> [LibraryClass<'static>; {count}] {{
    {rows}
}}
"""

ROW = """\
LibraryClass {{
    name: b"{name}",
    bytes: {static},
}}"""


class TableClass(NamedTuple):
    """A class file: the name of its class, as class files spell it, and its bytes."""

    name: str
    data: bytes

    @property
    def package(self) -> str:
        return self.name.rpartition("/")[0]

    @property
    def static(self) -> str:
        """The name of the static that has its bytes."""
        simple = self.name.rpartition("/")[2].replace("$", "_")
        return re.sub(r"(?<=[a-z0-9])(?=[A-Z])", "_", simple).upper()


def literal(data: bytes) -> str:
    """Bytes as a byte string of Rattle."""
    written = {ord('"'): '\\"', ord("\\"): "\\\\"}
    return 'b"' + "".join(written.get(b, chr(b) if 32 <= b < 127 else f"\\x{b:02x}") for b in data) + '"'


def classes_of(folder: pathlib.Path) -> List[TableClass]:
    """The class files of a folder, by the bytes of their names."""
    paths = {path.relative_to(folder).as_posix()[: -len(".class")]: path for path in folder.rglob("*.class")}
    return [TableClass(name, paths[name].read_bytes()) for name in sorted(paths, key=lambda one: one.encode("utf-8"))]


def rows_of(classes: List[TableClass]) -> str:
    """An array of the classes, in the layout of `rt fmt`."""
    rows = [ROW.format(name=one.name, static=one.static) for one in classes]
    if len(rows) == 1:
        return indented(f"[{rows[0]}]", 1)
    return "[\n" + "".join(f"        {indented(row, 2)},\n" for row in rows) + "    ]"


def indented(text: str, steps: int) -> str:
    """A text whose lines behind the first stand further in."""
    return text.replace("\n", "\n" + "    " * steps)


def module_of(package: str, classes: List[TableClass]) -> str:
    statics = "\n\n".join(f"static {one.static}: &[u8] =\n    {literal(one.data)};" for one in classes)
    return MODULE.format(package=package, statics=statics, count=len(classes), rows=rows_of(classes))


def sources(folder: pathlib.Path) -> Dict[str, str]:
    """The texts of the crate's sources, by their names in src/, where the class files stand in a folder.

    A package is a module. Its classes stand together among all, which are in the order of the bytes of their names.
    """
    by_package: Dict[str, List[TableClass]] = {}
    for one in classes_of(folder):
        by_package.setdefault(one.package, []).append(one)
    modules = {package: package.replace("/", "_") for package in by_package}
    made = {f"{modules[package]}.rt": module_of(package, classes) for package, classes in by_package.items()}
    lines = [f"    classes.extend_from_slice(&{module}::classes())?;" for module in modules.values()]
    declared = "\n".join(f"mod {module};" for module in sorted(modules.values()))
    return {"lib.rt": HEAD.format(modules=declared, extended="\n".join(lines)), **made}


def kept() -> Dict[str, str]:
    """The sources that are there."""
    return {path.name: path.read_text(encoding="utf-8") for path in (CRATE / "src").glob("*.rt")}


def write(folder: pathlib.Path) -> None:
    """Makes the crate's sources of the class files of a folder."""
    (CRATE / "src").mkdir(parents=True, exist_ok=True)
    made = sources(folder)
    for name in {*kept()} - {*made}:
        (CRATE / "src" / name).unlink()
    for name, text in made.items():
        (CRATE / "src" / name).write_text(text, encoding="utf-8")
