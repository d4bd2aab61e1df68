"""Edits of a crate's files, as in must-fail/ and wrong-bodies/, and which functions they change."""

import pathlib
import re
from typing import Dict, List, Mapping, NamedTuple, Optional, Sequence, Set, Tuple

EDIT_NAME = re.compile(r"[A-Za-z0-9_-][A-Za-z0-9_.-]*\.edit")
FN_HEAD = re.compile(r"(?m)^( *)(?:pub(?:\(\w+\))? )?fn (\w+)")
OWNER_HEAD = re.compile(r"(?m)^(?:pub(?:\(\w+\))? )?(impl|trait)\b(.*)")

# A path, an old text and a new one; and a path, its text and a place there.
Pair = Tuple[str, str, str]
Place = Tuple[str, str, int]


class Edit(NamedTuple):
    """An edit by its name, and what it changes in turn."""

    name: str
    pairs: List[Pair]


# Edits that are tried together, each with the functions that it changes.
Batch = List[Tuple[Edit, Set[str]]]


class Unfit(Exception):
    """An edit can't be made; the text says why."""


def text_of(file: pathlib.Path, said: str) -> str:
    try:
        return file.read_text(encoding="utf-8")
    except (OSError, UnicodeDecodeError):
        raise Unfit(f"{said} can't be read") from None


def read_edit(file: pathlib.Path) -> Edit:
    """Returns the edit that the file holds: its pairs are of a path, an old text and a new one."""
    if not EDIT_NAME.fullmatch(file.name):
        raise Unfit("its name has other characters than letters, digits, _, - and .")
    path = old = ""
    pairs: List[Pair] = []
    for line in text_of(file, "it").split("\n"):
        word, _, rest = line.partition(":")
        rest = rest[1:] if rest.startswith(" ") else rest
        if word == "file":
            path = rest.strip()
        elif word == "old":
            old = rest
        elif word == "new":
            if not path or not old:
                raise Unfit("a 'new:' line stands before any 'file:' or 'old:' line")
            pairs, old = [*pairs, (path, old, rest)], ""
    if not pairs:
        raise Unfit("it has no 'old:' and 'new:' lines")
    return Edit(file.name, pairs)


def edited(edit: Edit, crate: pathlib.Path, texts: Mapping[str, str]) -> Tuple[Dict[str, str], List[Place]]:
    """Makes the edit to the crate in this folder over these texts of its files. Returns the texts then, by path, and
    where each pair stood: its path, the text before it and the place there."""
    texts = dict(texts)
    places: List[Place] = []
    for path, old, new in edit.pairs:
        text = texts[path] if path in texts else text_of(crate / path, path)
        count = text.count(old)
        if count != 1:
            raise Unfit(f"an old text stands in {path} {count} times, and not once: {old.strip()[:80]}")
        places.append((path, text, text.index(old)))
        texts[path] = text.replace(old, new)
    return texts, places


def last_name(text: str) -> str:
    """The last name of the path that a text begins with."""
    return re.split(r"[^\w:]", text.strip())[0].rpartition("::")[2]


def owner_of(head: str) -> Tuple[str, str]:
    """Returns how rattle's names write what an impl or a trait is of, as `StopFromMalformed` for `From<Malformed> for
    Stop`, and the start of that with no parameters of the trait."""
    plain = head
    while re.search(r"<[^<>]*>", plain):
        plain = re.sub(r"<[^<>]*>", "", plain)
    trait, of, owner = plain.partition(" for ")
    if not of:
        return last_name(plain), last_name(plain)
    given = re.search(rf"\b{last_name(trait)}<(.*)> for ", head)
    start = last_name(owner) + last_name(trait)
    return start + re.sub(r"\W", "", given[1] if given else ""), start


def function_at(crate: str, place: Place, functions: Set[str]) -> Optional[str]:
    """Returns which of the crate's functions has its body at the place, by rattle's name for it, or None."""
    path, text, at = place
    heads = [it for it in FN_HEAD.finditer(text) if it.start() <= at]
    if not heads or not path.startswith("src/"):
        return None
    indent, name = heads[-1].groups()
    rest = text[heads[-1].start():]
    opens, closes = re.search(rf"(?m)^{indent}(?:\S.*)?\{{$", rest), re.search(rf"(?m)^{indent}\}}$", rest)
    if not opens or not closes or not opens.end() <= at - heads[-1].start() < closes.start():
        return None
    modules = [it for it in path[:-len(".rt")].split("/")[1:] if it not in ("lib", "main", "mod")]
    above = "::".join([crate, *modules])
    if not indent:
        return f"{above}::{name}" if f"{above}::{name}" in functions else None
    owners = [it for it in OWNER_HEAD.finditer(text) if it.start() < heads[-1].start()]
    whole, start = owner_of(owners[-1][2]) if owners else ("", "")
    fit = [it for it in functions if re.fullmatch(rf"{crate}(?:::\w+)*::{start}\w*::{name}", it)]
    fit = [it for it in fit if it.endswith(f"::{whole}::{name}")] or fit
    fit = [it for it in fit if it.startswith(f"{above}::")] or fit
    return fit[0] if len(fit) == 1 else None


def together(folder: pathlib.Path, batch: Batch) -> Dict[str, str]:
    """Returns the texts of the crate's files with all edits of the batch."""
    texts: Dict[str, str] = {}
    for edit, _ in batch:
        texts = edited(edit, folder, texts)[0]
    return texts


def fits(folder: pathlib.Path, batch: Batch, edit: Edit, changes: Set[str]) -> bool:
    """Returns whether the edit can be made beside those of the batch, and changes other functions."""
    try:
        together(folder, [*batch, (edit, changes)])
    except Unfit:
        return False
    return not any(changes & it for _, it in batch)


def in_batches(crate: str, folder: pathlib.Path, edits: Sequence[Edit], functions: Set[str]) -> List[Batch]:
    """Returns batches of edits, each edit with the functions that it changes, which are others than those of all else
    in its batch. An edit of more than bodies is in none."""
    batches: List[Batch] = []
    for edit in edits:
        found = [function_at(crate, place, functions) for place in edited(edit, folder, {})[1]]
        changes = {it for it in found if it is not None}
        if None in found:
            continue
        batch = next((it for it in batches if fits(folder, it, edit, changes)), None)
        if batch:
            batch.append((edit, changes))
        else:
            batches.append([(edit, changes)])
    return batches
