"""What an object tells of itself (the API of Object, Class and System): its number, its class, and texts of these."""

from typing import Any, Callable, Dict, List, Optional, Tuple

from oracle.state import Object, State
from oracle.strings import STRING, Made, Raised
from oracle.texts import decoded, units_of

SLASH, DOT = map(ord, "/.")


def dotted(name: str) -> List[int]:
    """The units of a name of class files, a character for each byte, with dots for slashes."""
    return [DOT if unit == SLASH else unit for unit in decoded(name.encode("latin-1"))]


def get_class(state: State, this: Object) -> Object:
    """Arrays have no Class object."""
    if this.kind[0] == "[":
        raise Raised("IncompatibleClassChangeError")
    return state.classes[this.kind].object


def described(_: State, thing: Optional[Object], number: int) -> Made:
    """A class's name or an array's descriptor, and an int in hexadecimal, without a sign."""
    if thing is None:
        raise Raised("NullPointerException")
    return Made([*dotted(thing.kind), *units_of(f"@{number & 0xFFFFFFFF:x}")])


# By the class, the name and the descriptor, of the state and the operands.
TELLS: Dict[Tuple[str, str, str], Callable[..., Any]] = {
    ("java/lang/Object", "hashCode", "()I"): lambda _, this: this.number,
    ("java/lang/Object", "getClass", "()Ljava/lang/Class;"): get_class,
    ("java/lang/System", "identityHashCode", "(Ljava/lang/Object;)I"): lambda _, thing: thing.number if thing else 0,
    ("java/lang/Class", "getName", "()Ljava/lang/String;"): lambda _, this: Made(dotted(this.names)),
    (STRING, "described", "(Ljava/lang/Object;I)Ljava/lang/String;"): described,
}
