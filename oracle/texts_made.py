"""What the constructors of String do, and those of its methods without code that ask for more than texts (the API)."""

from typing import Any, Callable, Dict, List, Optional, Tuple

from oracle.state import Object, State
from oracle.strings import Raised, units_in


class Kept:
    """What becomes of a call: a String gets its units, or an array gets some from an index on."""

    def __init__(self, units: List[int], at: Optional[int] = None) -> None:
        self.units, self.at = units, at


def part_of(array: Optional[Object], offset: int, count: int) -> Kept:
    """So many chars of an array, from an offset on."""
    if array is None:
        raise Raised("NullPointerException")
    units: List[int] = array.elements or []
    if min(offset, count) < 0 or offset + count > len(units):
        raise Raised("StringIndexOutOfBoundsException")
    return Kept(units[offset : offset + count])


def get_chars(this: Object, begin: int, end: int, array: Optional[Object], at: int) -> Kept:
    """The units from `begin` to `end` become elements of an array. First comes null, then begin and end."""
    if array is None:
        raise Raised("NullPointerException")
    if not 0 <= begin <= end <= len(this.text):
        raise Raised("StringIndexOutOfBoundsException")
    if at < 0 or at + end - begin > len(array.elements or []):
        raise Raised("ArrayIndexOutOfBoundsException")
    return Kept(this.text[begin:end], at)


def standing_for(state: State, this: Object) -> Optional[Object]:
    """The String that stands for a text: the first constant that has it, or else the String that was interned first."""
    constants = sorted(state.strings.values(), key=lambda one: one.number)
    return next((one for one in [*constants, *state.interned] if one.text == this.text), None)


# By the name and the descriptor, of the receiver and the operands.
KEEPS: Dict[Tuple[str, str], Callable[..., Kept]] = {
    ("<init>", "()V"): lambda this: Kept([]),
    ("<init>", "(Ljava/lang/String;)V"): lambda this, other: Kept(list(units_in(other))),
    ("<init>", "([CII)V"): lambda this, *operands: part_of(*operands),
    ("getChars", "(II[CI)V"): get_chars,
}


def is_cloneable(state: State, this: Object) -> bool:
    """Whether an object is copied: an array, or one whose class implements Cloneable, and no Thread."""
    if this.elements is not None:
        return True
    return state.is_below(this.kind, "java/lang/Cloneable") and not state.is_below(this.kind, "java/lang/Thread")


def copy_of(this: Object) -> Object:
    """Another object with the same fields, or array with the same elements."""
    made = Object(this.kind)
    made.fields = dict(this.fields)
    made.elements = None if this.elements is None else list(this.elements)
    return made


def cells_in(state: State, this: Any) -> int:
    """How many cells a copy takes."""
    return state.cells_of(this) if this.elements is None else len(this.elements)
