"""What runs print: one text of UTF-16 code units, for both streams, and how it is shown and compared."""

import re
from typing import Any, Iterable, List, Sequence, Tuple

LINE_FEED = 10

# Where a line stands among others: an int before all else, then by its number, or by its units.
Rank = Tuple[bool, int, List[int]]


def units_of(text: str) -> List[int]:
    """The UTF-16 code units of a text."""
    data = text.encode("utf-16-be", "surrogatepass")
    return [int.from_bytes(data[at : at + 2], "big") for at in range(0, len(data), 2)]


# A character of a text of the command line, or an escape of it.
PIECE = re.compile(r"(?P<plain>[^\\])|\\(?P<named>[n\\])|\\u(?P<unit>[0-9A-Fa-f]{4})", re.DOTALL)


def spelled_units(text: str) -> List[int]:
    """The UTF-16 code units that a text of the command line spells, in characters and escapes."""
    units: List[int] = []
    at = 0
    while at < len(text):
        piece = PIECE.match(text, at)
        if piece is None:
            raise ValueError(f"character {at + 1} begins no escape")
        plain, named, unit = piece.groups()
        units += units_of(plain or {"n": "\n", "\\": "\\"}[named]) if unit is None else [int(unit, 16)]
        at = piece.end()
    return units


def decoded(data: bytes) -> List[int]:
    """The units that the bytes of a Utf8 entry spell (JVMS 4.4.7). A byte that begins none is a unit by itself."""
    units: List[int] = []
    at = 0
    while at < len(data):
        size = next((size for size, first in ((2, 0xC0), (3, 0xE0)) if is_unit(data[at : at + size], size, first)), 1)
        unit = data[at] & (0xFF, 0x1F, 0x0F)[size - 1]
        for byte in data[at + 1 : at + size]:
            unit = unit << 6 | byte & 0x3F
        units.append(unit)
        at += size
    return units


def is_unit(data: bytes, size: int, first: int) -> bool:
    """Whether bytes are a unit of so many, of which the first is this one and some bits more."""
    bits = 5 if size == 2 else 4
    is_first = len(data) == size and data[0] >> bits == first >> bits
    return is_first and all(byte >> 6 == 2 for byte in data[1:])


def in_utf8(units: Sequence[int]) -> str:
    """Units in UTF-8, a character for each byte; a surrogate without its other half is a question mark."""
    data = b"".join(unit.to_bytes(2, "big") for unit in units)
    text = data.decode("utf-16-be", "surrogatepass")
    return re.sub("[\ud800-\udfff]", "?", text).encode().decode("latin-1")


def printed_lines(units: Sequence[int]) -> str:
    """Units as a report begins with them: their last line is ended there."""
    is_open = bool(units) and units[-1] != LINE_FEED
    return in_utf8(units) + ("\n" if is_open else "")


def lines_in(units: Iterable[int]) -> List[List[int]]:
    """The lines of a text; the last one may have no end."""
    lines: List[List[int]] = []
    is_open = False
    for unit in units:
        if not is_open:
            lines.append([])
        is_open = unit != LINE_FEED
        if is_open:
            lines[-1].append(unit)
    return lines


def rank(line: Sequence[int]) -> Rank:
    """Where a line stands among others."""
    text = "".join(map(chr, line))
    is_int = re.fullmatch("0|-?[1-9][0-9]*", text, re.ASCII) and -(2**31) <= int(text) < 2**31
    return (False, int(text), []) if is_int else (True, 0, list(line))


def text_order(units: Sequence[int]) -> Tuple[Any, ...]:
    """Where a text stands in a list of outcomes: by its lines, and of two with the same lines the shorter one first."""
    return list(map(rank, lines_in(units))), list(units)


# How many units of a text a trace tells.
MOST_TOLD = 40


def told_unit(unit: int) -> str:
    if unit == LINE_FEED:
        return "\\n"
    if chr(unit) in '"\\':
        return "\\" + chr(unit)
    return chr(unit) if 32 <= unit <= 126 else f"\\u{unit:04x}"


def quoted(units: Sequence[int]) -> str:
    """A text as a trace tells it."""
    told = "".join(map(told_unit, units[:MOST_TOLD])) + (".." if len(units) > MOST_TOLD else "")
    return f'"{told}"'
