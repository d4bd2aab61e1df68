"""Trials of `jvm` behind each front of a schedule: one event of each thread 0 to 3 with the picks 0, 1 and 65,535.

Wrong is: a replay without a report; an event that is not enabled and leaves another report than that of the front, or
that is done where the report of the front says that its thread can't go on; one of pick 0 that is not done where it
can; and one of pick 65,535 that is done.
"""

import collections
import pathlib
import re
import tempfile
from typing import Counter, List, NamedTuple, Optional

from oracle.machine import Machine
from oracle.schedules import Entry, entries_of_file, file_of_entries, front
from oracle.state import NotEnabled
from tools.cases import write_files
from tools.form_trials import Subject
from tools.outcomes import Jvm, Outcome

THREADS, PICKS = range(4), (0, 1, 65_535)

REPORT = re.compile(r"(?s)(?P<states>.*)events (?P<events>[0-9]+)\nend (?P<end>[^\n]*)\nstatus [0-9]\n")


class Report(NamedTuple):
    """What a report says of the printed text and the threads, how many events were done, and why there were no more."""

    states: str
    events: int
    end: str


class EventTrials(NamedTuple):
    """How often what came of the events behind a front, and what is wrong."""

    came: Counter[str]
    wrong: List[str]


def report_of(outcome: Outcome) -> Optional[Report]:
    found = REPORT.fullmatch(outcome.text())
    return Report(found["states"], int(found["events"]), found["end"]) if found else None


def fate_of(before: Report, after: Optional[Report]) -> Optional[str]:
    """What came of the event behind a front, by both reports; `None` where they don't go together."""
    if not after:
        return None
    if after.events == before.events + 1:
        return "done" if after.end in ("quiet", "schedule") else None
    if after[:2] != before[:2]:
        return None
    found = re.match("(not enabled|refused) ", after.end)
    return found[1] if found else None


def may_be(fate: str, pick: int, can_go_on: bool) -> bool:
    """Whether an event with this pick, of a thread that can go on or can't, may come to this."""
    if fate == "not enabled":
        return pick != PICKS[0] or not can_go_on
    return pick != PICKS[2] and can_go_on


def try_front(program: pathlib.Path, subject: Subject, events: int) -> EventTrials:
    """Tries the events behind so many first events of the schedule."""
    entries = front(entries_of_file(subject.files[subject.schedule]), events)
    came: Counter[str] = collections.Counter()
    wrong: List[str] = []
    with tempfile.TemporaryDirectory(prefix="jvm-trials-") as folder:
        write_files(subject.files, folder)
        jvm, path = Jvm(program, pathlib.Path(folder)), pathlib.Path(folder) / subject.schedule

        def replayed(*more: Entry) -> Optional[Report]:
            path.write_bytes(file_of_entries([*entries, *more]))
            return report_of(jvm.ran(subject.replay()))

        before = replayed()
        if not before or before.end not in ("quiet", "schedule"):
            return EventTrials(came, [f"behind {events} events there is no report"])
        for thread in THREADS:
            can_go_on = f"thread {thread} runnable\n" in before.states
            for pick in PICKS:
                fate = fate_of(before, replayed(Entry(thread, pick, 1)))
                if fate and may_be(fate, pick, can_go_on):
                    came[f"pick {pick} {fate}"] += 1
                else:
                    wrong.append(f"behind {events} events: thread {thread} pick {pick}: {fate}")
    return EventTrials(came, wrong)


def counted_by_rules(subject: Subject) -> Counter[str]:
    """How often each event behind a front of the schedule can be done, by the machine in Python."""
    machine = Machine([subject.files[name] for name in subject.classes])
    counts: Counter[str] = collections.Counter()

    def count() -> None:
        for number in THREADS:
            for pick in PICKS:
                try:
                    if number >= len(machine.threads):
                        raise NotEnabled("none")
                    machine.planned(machine.threads[number], pick)
                    counts[f"pick {pick} done"] += 1
                except NotEnabled:
                    counts[f"pick {pick} not enabled"] += 1

    count()
    for thread, pick, repeat in entries_of_file(subject.files[subject.schedule]):
        for _ in range(repeat):
            machine.step(thread, pick)
            count()
    return counts
