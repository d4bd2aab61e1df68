"""What the lines of a check by rattle say of edits, judged as `rt must-fail` judges them."""

import re
from typing import Mapping, Set, Tuple

# Of a function, of another item, at a place, and there of a proof and of a source.
FN_LINE = re.compile(r"fn (\S+): (proved)?")
ITEM_LINE = re.compile(r"(?:impl|struct|enum|trait|const|static) \S+: ")
AT_A_PLACE = re.compile(r"(?:note: )?\S+:\d+:\d+:")
OF_A_PROOF = re.compile(r"(?:\./)?proofs/(\S+)/\w+\.antt:\d+:\d+: error")
BY_NAME = re.compile(r"(?:\./)?proofs/.*(?:has no field|is not in scope|has no `|was not admitted)")
OF_A_SOURCE = re.compile(r"(?:\./)?(\S+?):\d+:\d+: error: (?:(`[^`]*`): )?(.*)")
UNREAD = re.compile(r"is not in scope|has no field|is no name|operand is missing|expected the end|cannot continue")
STALE = re.compile(r"module .Rattle-\w+-.*Run the lower steps again")


def is_unread(line: str, texts: Mapping[str, str]) -> bool:
    """Returns whether the prover couldn't read a source or an edited file there, so that no contract was tried."""
    at = OF_A_SOURCE.match(line)
    if not at or at[1] not in texts and not at[1].startswith(("src/", "specs/")):
        return False
    return not at[2] or bool(UNREAD.search(re.sub(r"`[^`]*`", "", at[3])))


def those_refused(crate: str, said: str) -> Set[str]:
    """Returns the functions of which a check says that a goal of their own fails. One of a closure's is said of the
    function and the closure, as `crate::module::fn::name::map`."""
    found: Set[str] = set()
    refused: Set[str] = set()
    notes = False
    for line in said.split("\n"):
        proof, ended = OF_A_PROOF.match(line), FN_LINE.match(line)
        if proof and not BY_NAME.match(line):
            found.add(f"{crate}::{proof[1].replace('/', '::')}")
        notes = notes or line.startswith("note: src/") and bool(AT_A_PLACE.match(line))
        if ended and not ended[2] and (notes or ended[1] in found):
            refused.add(ended[1].replace("::fn::", "::"))
        notes = notes and not ended and not ITEM_LINE.match(line)
    return refused


def is_judged(said: str, texts: Mapping[str, str]) -> bool:
    """Returns whether a check of some functions, with these texts, came to its end."""
    is_read = not any(is_unread(line, texts) for line in said.split("\n"))
    return is_read and not STALE.search(said) and bool(re.search(r"(?m)^only=\d+ proved=\d+", said))


def judged(status: int, said: str, texts: Mapping[str, str]) -> Tuple[str, str]:
    """Returns what came of the edit that made these texts, `refused`, `by name`, `proves` or `failed`, and why that."""
    lines = said.split("\n")
    unread = next((it for it in lines if is_unread(it, texts)), "")
    if unread:
        return "failed", f"the prover can't read the edited text: {unread[:200]}"
    if STALE.search(said):
        return "failed", "the kept work of a library could not be used"
    if status == 1 and "\nlogic=not-proved" in said:
        told = [it for it in lines if AT_A_PLACE.match(it)]
        told = [it for it in told if ": error" in it or it.startswith("note: ")] or told
        return "by name" if told and all(map(BY_NAME.match, told)) else "refused", ""
    return ("failed", f"it did not reach the prover: {last_lines(said)}") if status else ("proves", "")


def last_lines(said: str, count: int = 4) -> str:
    return " / ".join(said.strip().split("\n")[-count:])
