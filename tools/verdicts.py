"""The prover's last line on each crate, kept as tools/build proves it, with the checksum of the crate's text."""

import hashlib
import pathlib
import re
import shutil
from typing import Iterable, List, NamedTuple, Optional

from tools.repository import ROOT

FOLDER = ROOT / "out/verdicts"
PARTS_OF_A_CRATE = ("src", "specs", "proofs")

# The file that says which toolchain the verdicts are of.
TOOLCHAIN = ".toolchain"

LINE = re.compile(rb"^logic=proved .*$", re.M)


class Verdict(NamedTuple):
    """What the prover said of a crate, and the checksum of the text that it read."""

    crate: str
    checksum: str
    line: str

    def __str__(self) -> str:
        return f"{self.crate} {self.checksum} {self.line}"


def checksum_of(crate: str) -> str:
    """The SHA-256 of the paths and bytes of the crate's text, in the order of the paths."""
    folder = ROOT / "crates" / crate
    files = sorted(path for part in PARTS_OF_A_CRATE for path in (folder / part).rglob("*") if path.is_file())
    found = hashlib.sha256()
    for path in files:
        found.update(f"{path.relative_to(folder)} {path.stat().st_size}\n".encode())
        found.update(path.read_bytes())
    return found.hexdigest()


def file_of(crate: str) -> pathlib.Path:
    return FOLDER / crate


def keep_only_of(toolchain: str) -> None:
    """Forgets what another toolchain said."""
    file = FOLDER / TOOLCHAIN
    if not file.is_file() or file.read_text(encoding="utf-8") != toolchain:
        shutil.rmtree(FOLDER, ignore_errors=True)
        FOLDER.mkdir(parents=True)
        file.write_text(toolchain, encoding="utf-8")


def keep(crate: str, output: bytes) -> None:
    """Keeps the verdict that stands in the output of a proof; where none does, the crate was proved before."""
    lines = LINE.findall(output)
    if lines:
        FOLDER.mkdir(parents=True, exist_ok=True)
        file_of(crate).write_text(f"{Verdict(crate, checksum_of(crate), lines[-1].decode())}\n", encoding="utf-8")


def kept(crate: str) -> Optional[Verdict]:
    """The verdict that was kept, where it is on the text of now."""
    try:
        name, checksum, line = file_of(crate).read_text(encoding="utf-8").rstrip("\n").split(" ", 2)
    except (FileNotFoundError, ValueError):
        return None
    return Verdict(name, checksum, line) if checksum == checksum_of(crate) else None


def without(crates: Iterable[str]) -> List[str]:
    """The crates on whose text of now no verdict is kept."""
    return [crate for crate in crates if kept(crate) is None]
