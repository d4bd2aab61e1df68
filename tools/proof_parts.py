"""The parts of a crate's last check, and how long each took, by when its file was written."""

import collections
from typing import Dict, Iterable, List, NamedTuple, Tuple

from tools.repository import ROOT

ENDING = ".oantt"

# The parts of a function's proof.
KINDS = ("Answers", "Code", "Goals", "Invariants", "Layout", "Lts", "Met", "Named", "Proof", "Statement", "Tie")

DEFINITIONS = "definitions"
LEMMAS = "lemmas and others"


class Part(NamedTuple):
    """A part of a check: its seconds, and its name."""

    seconds: float
    name: str

    def kind(self) -> str:
        """What it is of: a kind of a function's proof, or a definition or lemma."""
        last = self.name.rpartition(".")[2]
        return last if last in KINDS else DEFINITIONS if "-specs." in self.name else LEMMAS

    def subject(self) -> str:
        """The function or lemma that it is of, by its path in the crate; of a definition its whole name."""
        path = self.name.split("-proofs.", 1)[-1]
        return path.rpartition(".")[0] if self.kind() in KINDS else path


def parts_of(crate: str) -> List[Part]:
    """The parts, in the order in which they ended."""
    files = (ROOT / "crates" / crate / "out/incremental").rglob(f"*{ENDING}")
    return between(
        (path.stat().st_mtime, path.name[: -len(ENDING)]) for path in files if path.parent.name != "records"
    )


def between(ended: Iterable[Tuple[float, str]]) -> List[Part]:
    """The parts that ended at these times: each took the time since the one before. The first one's isn't known."""
    in_order = sorted(ended)
    return [Part(end - start, name) for (start, _), (end, name) in zip(in_order, in_order[1:])]


def by_kind(parts: Iterable[Part]) -> Dict[str, float]:
    """The seconds of all parts of each kind."""
    sums: Dict[str, float] = collections.defaultdict(float)
    for part in parts:
        sums[part.kind()] += part.seconds
    return dict(sums)


def dearest(parts: Iterable[Part], most: int) -> List[Tuple[str, Dict[str, float]]]:
    """The functions, lemmas and definitions that took longest, each with the seconds of its parts by kind."""
    of: Dict[str, List[Part]] = collections.defaultdict(list)
    for part in parts:
        of[part.subject()].append(part)
    sums = [(subject, by_kind(found)) for subject, found in of.items()]
    return sorted(sums, key=lambda one: (-sum(one[1].values()), one[0]))[:most]
