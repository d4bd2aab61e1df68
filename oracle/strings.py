"""What the methods of String without code answer (the API of String): a value, or a text of which a String is made."""

from __future__ import annotations

from typing import TYPE_CHECKING, Any, Callable, Dict, List, NamedTuple, Optional, Tuple

from oracle.frames import wrapped
from oracle.texts import units_of

if TYPE_CHECKING:
    from oracle.state import Object

STRING = "java/lang/String"


class Raised(Exception):
    """An exception of the machine, by the last part of its class's name."""


class Made(NamedTuple):
    """A String that is new, by its units."""

    units: List[int]


def units_in(operand: Optional[Object]) -> List[int]:
    """The units of an operand that is a String; null is an exception."""
    if operand is None:
        raise Raised("NullPointerException")
    return operand.text


def char_at(this: Object, index: int) -> int:
    if not 0 <= index < len(this.text):
        raise Raised("StringIndexOutOfBoundsException")
    return this.text[index]


def equals(this: Object, other: Optional[Object]) -> int:
    return int(other is not None and other.kind == STRING and other.text == this.text)


def hash_code(this: Object) -> int:
    found = 0
    for unit in this.text:
        found = wrapped(31 * found + unit)
    return found


def compare_to(this: Object, other: Optional[Object]) -> int:
    """The difference of the first units that differ, or else of the lengths."""
    units = units_in(other)
    pairs = zip(this.text, units)
    return next((one - two for one, two in pairs if one != two), len(this.text) - len(units))


def concat(this: Object, other: Optional[Object]) -> Any:
    """Nothing is made where nothing is added."""
    added = units_in(other)
    return Made(this.text + added) if added else this


def substring(this: Object, begin: int, end: int) -> Any:
    """The whole is the receiver."""
    if not 0 <= begin <= end <= len(this.text):
        raise Raised("StringIndexOutOfBoundsException")
    return Made(this.text[begin:end]) if end - begin < len(this.text) else this


def index_of(this: Object, unit: int, start: int) -> int:
    """The first place of a unit that is not below `start`."""
    return next((place for place, one in enumerate(this.text) if place >= start and one == unit), -1)


def region_matches(this: Object, at: int, other: Optional[Object], start: int, count: int) -> int:
    """Whether so many units from two places on are the same: none are, where there are not so many."""
    units = units_in(other)
    if min(at, start) < 0 or at + count > len(this.text) or start + count > len(units):
        return 0
    return int(count <= 0 or this.text[at : at + count] == units[start : start + count])


# By the name and the descriptor, of the receiver, where there is one, and the operands.
ANSWERS: Dict[Tuple[str, str], Callable[..., Any]] = {
    ("length", "()I"): lambda this: len(this.text),
    ("charAt", "(I)C"): char_at,
    ("equals", "(Ljava/lang/Object;)Z"): equals,
    ("hashCode", "()I"): hash_code,
    ("compareTo", "(Ljava/lang/String;)I"): compare_to,
    ("concat", "(Ljava/lang/String;)Ljava/lang/String;"): concat,
    ("substring", "(II)Ljava/lang/String;"): substring,
    ("indexOf", "(II)I"): index_of,
    ("regionMatches", "(ILjava/lang/String;II)Z"): region_matches,
    ("valueOf", "(I)Ljava/lang/String;"): lambda number: Made(units_of(str(number))),
    ("valueOf", "(C)Ljava/lang/String;"): lambda unit: Made([unit & 0xFFFF]),
}
