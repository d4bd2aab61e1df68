"""The table of a sweep (docs/REFERENCE.md, "Sweep"): read from a part's text, merged with others, and written.

Texts are bytes, told by characters of Latin-1, since the names of classes need not be UTF-8.
"""

import re
from typing import Dict, Iterable, List, NamedTuple, Sequence, Tuple

OUTCOME = "outcome"
RACE = "race "

SHARE = re.compile(r"runs (\d+) of (\d+), first seed (\d+)")
CUT = re.compile(r"(budget|refused) (\d+) runs, first seed (\d+)")

SUMS = re.compile(
    r"runs (?P<runs>\d+), seeds (?P<first>\d+)\.\.\d+\n"
    r"events (?P<events>\d+)\n"
    r"once \d+\n"
    r"unseen at most \d+ in \d+ runs of (?P<policy>\w+)\n"
    r"(?:sweep done\n|sweep (?P<found>found)\njvm run --seed \d+(?P<repeated>[^\n]*)\n)"
)


class Shown(NamedTuple):
    """What some runs show: the lines of an outcome, or the word of runs that have none."""

    word: str
    lines: Tuple[str, ...]
    runs: int
    first: int
    schedule: bytes = b""

    def is_outcome(self) -> bool:
        return self.word == OUTCOME


class Table(NamedTuple):
    """What the runs of some seeds show, by the first seed that shows it."""

    shown: List[Shown]
    first: int
    runs: int
    events: int
    policy: str
    is_found: bool
    races: Tuple[str, ...] = ()

    def last(self) -> int:
        """The seed of the last run."""
        return self.first + self.runs - 1

    def outcomes(self) -> List[Shown]:
        return [shown for shown in self.shown if shown.is_outcome()]

    def text(self, repeated: str) -> str:
        """The text, of which the last line has these words behind the seed where a run shows what is wanted."""
        lines = [*self.races]
        outcomes = self.outcomes()
        for number, one in enumerate(outcomes, 1):
            lines += [f"{OUTCOME} {number}", *one.lines]
            lines += [f"runs {one.runs} of {self.runs}, first seed {one.first}"]
        lines += [f"outcomes {len(outcomes)}"]
        cut = [one for one in self.shown if not one.is_outcome()]
        lines += [f"{one.word} {one.runs} runs, first seed {one.first}" for one in cut]
        once = sum(one.runs == 1 for one in outcomes)
        lines += [f"runs {self.runs}, seeds {self.first}..{self.last()}", f"events {self.events}", f"once {once}"]
        lines += [f"unseen at most {min(once + 3, self.runs)} in {self.runs} runs of {self.policy}"]
        lines += ["sweep found", f"jvm run --seed {self.last()}{repeated}"] if self.is_found else ["sweep done"]
        return "".join(f"{line}\n" for line in lines)


def read_outcomes(lines: Sequence[str]) -> Tuple[List[Shown], int]:
    """The outcomes at the head of a text, and how many lines they take."""
    found: List[Shown] = []
    at = 0
    while at < len(lines) and lines[at] == f"{OUTCOME} {len(found) + 1}":
        end = next((end for end in range(at + 1, len(lines)) if SHARE.fullmatch(lines[end])), None)
        share = SHARE.fullmatch(lines[end]) if end is not None else None
        if end is None or not share:
            raise ValueError(f"{lines[at]} has no line that says how many runs show it")
        found.append(Shown(OUTCOME, tuple(lines[at + 1 : end]), int(share[1]), int(share[3])))
        at = end + 1
    return found, at


def read_table(text: str, schedules: Sequence[bytes] = ()) -> Table:
    """The table of a text, with the schedule files of its outcomes. Raises ValueError where the text is none."""
    lines = text.split("\n")
    count = next(at for at, line in enumerate(lines) if not line.startswith(RACE))
    races, lines = tuple(lines[:count]), lines[count:]
    shown, at = read_outcomes(lines)
    if schedules and len(schedules) != len(shown):
        raise ValueError(f"it has {len(shown)} outcomes, and {len(schedules)} schedules")
    shown = [one._replace(schedule=schedule) for one, schedule in zip(shown, schedules or [b""] * len(shown))]
    at += 1
    while at < len(lines) and (cut := CUT.fullmatch(lines[at])):
        shown.append(Shown(cut[1], (), int(cut[2]), int(cut[3])))
        at += 1
    sums = SUMS.fullmatch("\n".join(lines[at:]))
    if not sums:
        raise ValueError("its last lines are not those of a sweep that is done, or has found what is wanted")
    shown.sort(key=lambda one: one.first)
    first, runs, events = int(sums["first"]), int(sums["runs"]), int(sums["events"])
    table = Table(shown, first, runs, events, sums["policy"], sums["found"] is not None, races)
    if table.text(sums["repeated"] or "") != text or sum(one.runs for one in shown) != runs:
        raise ValueError("its numbers don't agree with each other")
    if not all(first <= one.first <= table.last() for one in shown):
        raise ValueError("a first seed lies outside of its seeds")
    return table


def merged(tables: Iterable[Table]) -> Table:
    """The table of all runs of some tables, of which each begins behind the one before, up to the first that found."""
    shown: Dict[Tuple[str, Tuple[str, ...]], Shown] = {}
    whole = Table([], 0, 0, 0, "", False)
    for table in tables:
        first, runs, events = whole.first if whole.runs else table.first, whole.runs, whole.events
        for one in table.shown:
            before = shown.get((one.word, one.lines))
            shown[one.word, one.lines] = before._replace(runs=before.runs + one.runs) if before else one
        whole = Table([], first, runs + table.runs, events + table.events, table.policy, table.is_found, table.races)
        if table.is_found:
            break
    return whole._replace(shown=sorted(shown.values(), key=lambda one: one.first))
