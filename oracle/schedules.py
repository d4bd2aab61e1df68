"""Schedules: the text of one, its file (docs/REFERENCE.md), and its entries."""

import hashlib
import re
import struct
from typing import Iterable, List, NamedTuple, Sequence, Tuple

# A thread, and which of the waiters its notify picks.
Event = Tuple[int, int]

MAGIC_AND_VERSION = b"JSCH\x01"
ENTRY = struct.Struct(">HHI")


class Entry(NamedTuple):
    """So many events of a thread, with the pick of each."""

    thread: int
    pick: int
    repeat: int


def entries_of_text(text: str) -> List[Entry]:
    """The entries of a schedule's text."""
    found: List[Entry] = []
    for word in re.sub(r"#(?![a-z]).*", "", text).split():
        part = re.fullmatch(r"(\d+)(?:\*(\d+)|\.(\d+))?", word)
        if not part:
            raise ValueError(f"{word!r} is no entry of a schedule")
        found.append(Entry(int(part[1]), int(part[3] or 0), int(part[2] or 1)))
    return found


def entries_of_events(events: Iterable[Event]) -> List[Entry]:
    """The entries of events: equal ones without a pick are one entry."""
    entries: List[Entry] = []
    for thread, pick in events:
        if entries and entries[-1][:2] == (thread, 0) and pick == 0:
            entries[-1] = Entry(thread, 0, entries[-1].repeat + 1)
        else:
            entries.append(Entry(thread, pick, 1))
    return entries


def entries_of_file(data: bytes) -> List[Entry]:
    """The entries of a schedule file."""
    head = len(MAGIC_AND_VERSION) + 4
    count = int.from_bytes(data[len(MAGIC_AND_VERSION) : head], "big")
    if not data.startswith(MAGIC_AND_VERSION) or len(data) != head + ENTRY.size * count:
        raise ValueError("these bytes are no schedule file")
    return [Entry(*found) for found in ENTRY.iter_unpack(data[head:])]


def file_of_entries(entries: Sequence[Entry]) -> bytes:
    """A schedule file of entries."""
    return MAGIC_AND_VERSION + struct.pack(">I", len(entries)) + b"".join(ENTRY.pack(*entry) for entry in entries)


def text_of_events(events: Iterable[Event]) -> str:
    """Events as a schedule's text, in one line."""
    return " ".join(
        f"{thread}.{pick}" if pick else f"{thread}*{repeat}" if repeat > 1 else f"{thread}"
        for thread, pick, repeat in entries_of_events(events)
    )


def lines_of_words(words: Sequence[str], most: int = 16) -> List[str]:
    """Words in lines of so many at most."""
    return [" ".join(words[i : i + most]) for i in range(0, len(words), most)]


def recorded_lines(files: Sequence[bytes], events: Iterable[Event], version: int) -> List[str]:
    """The text of events that were recorded with the usual limits over these files, by a version (docs/REFERENCE.md)."""
    entries = lines_of_words(text_of_events(events).split())
    if version == 1:
        return entries
    lines = ["#limits objects=1000000 cells=16000000 monitors=65536 threads=256 frames=1024"]
    lines += lines_of_words(["#lengths", *(str(len(file)) for file in files)], 17)
    if version == 3:
        lines += lines_of_words(["#checksums", *(hashlib.sha256(file).hexdigest()[:16] for file in files)], 17)
    return [*lines, "#events", *entries]


def front(entries: Sequence[Entry], events: int) -> List[Entry]:
    """The entries of the first events of a schedule."""
    found: List[Entry] = []
    for thread, pick, repeat in entries:
        repeat = min(repeat, events - sum(entry.repeat for entry in found))
        if repeat:
            found.append(Entry(thread, pick, repeat))
    return found
