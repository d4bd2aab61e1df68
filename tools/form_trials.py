"""Trials of `jvm` over files in other forms than they have.

With a class file of another form, it is listed, verified and replayed, and replayed once more where it is accepted.
Wrong is: a listing that is refused otherwise than the verification says of the bytes; a replay that is refused
otherwise than the verification; a second replay that says something else. With a schedule file of another form only
the replays are done.
"""

import collections
import pathlib
import re
import tempfile
from typing import Counter, Dict, Iterator, List, NamedTuple, Optional

from tools.cases import CaseFolder, write_files
from tools.outcomes import Jvm, Outcome, in_words

# What is said of bytes that are no class file. Code is looked at later, and listed.
MALFORMED = re.compile(rb"refused 1 Malformed file (\d+) (offset \d+ (?!Code\n).*)")


class Form(NamedTuple):
    """Another form of a file: which, and its bytes."""

    what: str
    data: bytes


def fronts(data: bytes) -> Iterator[Form]:
    """Each front."""
    for length in range(len(data)):
        yield Form(f"first {length} bytes", data[:length])


def changes_of_a_byte(data: bytes, every: int) -> Iterator[Form]:
    """Of all changes of one byte to another value each N-th."""
    for number in range(every, len(data) * 255 + 1, every):
        offset, by = divmod(number - 1, 255)
        value = data[offset] ^ (by + 1)
        yield Form(f"offset {offset} byte {value}", data[:offset] + bytes([value]) + data[offset + 1 :])


class Subject(NamedTuple):
    """A schedule file, options of a replay, and class files, by their names."""

    schedule: str
    options: List[str]
    classes: List[str]
    files: Dict[str, bytes]

    def replay(self) -> List[str]:
        """The words of the replay."""
        return ["replay", "--quiet", "--schedule", self.schedule, *self.options, *self.classes]


def subject_of(cases: CaseFolder, case: str) -> Subject:
    """What a case replays."""
    schedule, options, classes = cases.replayed(case)
    files = cases.files(case)
    return Subject(schedule, options, classes, {name: files[name] for name in [schedule, *classes]})


def fronts_by_rules(subject: Subject) -> Counter[str]:
    """What comes of the fronts of a schedule file and of a class file, which end too early and have no other fault."""
    classes = sum(len(subject.files[name]) for name in subject.classes)
    counts = collections.Counter({"replay schedule refused Truncated": len(subject.files[subject.schedule])})
    counts.update({f"{word} refused Malformed Truncated": classes for word in ("disasm", "verify", "replay")})
    return counts


class FormTrial(NamedTuple):
    """What came of a form: in words, and what is wrong, if anything is."""

    came: Counter[str]
    wrong: Optional[str]


class Malformed(NamedTuple):
    """Which file is no class file, by its number, and where and why."""

    number: int
    what: bytes


def refusal_of_bytes(outcome: Outcome) -> Optional[Malformed]:
    found = MALFORMED.match(outcome.error)
    return Malformed(int(found[1]), found[2]) if found else None


def is_listed_as_verified(listing: Outcome, verified: Outcome, place: int) -> bool:
    """Whether the listing of the file at a place is refused where the verification refuses its bytes, and only there.
    Where the verification names another file, nothing is said of this one."""
    listed, found = refusal_of_bytes(listing), refusal_of_bytes(verified)
    is_other = found is not None and found.number != place
    is_same = (listed.what if listed else None) == (found.what if found else None)
    return (listing.status != 0) == bool(listing.error) and (is_other or is_same)


def wrong_replay(jvm: Jvm, subject: Subject, replay: Outcome) -> Optional[str]:
    """What is wrong with a replay: another one comes to something else."""
    return None if replay.error or jvm.ran(subject.replay()) == replay else "replayed otherwise"


def try_schedule(jvm: Jvm, subject: Subject) -> FormTrial:
    replay = jvm.ran(subject.replay())
    return FormTrial(collections.Counter([in_words("replay", replay)]), wrong_replay(jvm, subject, replay))


def try_class_file(jvm: Jvm, subject: Subject, name: str) -> FormTrial:
    listing = jvm.ran(["disasm", "--quiet", name])
    verified = jvm.ran(["verify", "--quiet", "--files-alone", *subject.classes])
    replay = jvm.ran(subject.replay())
    came = collections.Counter(
        in_words(word, one) for word, one in (("disasm", listing), ("verify", verified), ("replay", replay))
    )
    if not is_listed_as_verified(listing, verified, subject.classes.index(name)):
        return FormTrial(came, "listed otherwise than verified")
    if not replay.error.startswith(b"schedule refused ") and replay.error != verified.error:
        return FormTrial(came, "verified otherwise than replayed")
    return FormTrial(came, wrong_replay(jvm, subject, replay))


def tried(program: pathlib.Path, subject: Subject, name: str, form: Form) -> FormTrial:
    """Tries a file of the subject in another form, in a folder that is made for it."""
    with tempfile.TemporaryDirectory(prefix="jvm-trials-") as folder:
        write_files({**subject.files, name: form.data}, folder)
        jvm = Jvm(program, pathlib.Path(folder))
        return try_schedule(jvm, subject) if name == subject.schedule else try_class_file(jvm, subject, name)
