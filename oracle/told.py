"""Events as `jvm trace` tells them: a line each, in columns or as JSON."""

import json
import re
from typing import Dict, List, Match, Optional, Sequence, Union

from oracle.texts import decoded

# What a member of a line of JSON has: a text of class files, or a number.
Part = Union[str, int]


def java_text(text: str) -> str:
    """A text of class files, a character for each byte, as the UTF-16 code units that it spells (JVMS 4.4.7)."""
    return "".join(map(chr, decoded(text.encode("latin-1"))))


# Between these characters, which stand for no byte, a part of a text is in one line already.
BEGIN, END = "\ue000", "\ue001"


def spelled(text: str) -> str:
    """A part of a text that is in one line already."""
    return f"{BEGIN}{text}{END}"


def in_one_line(text: str) -> str:
    """A line in which a backslash is doubled, and a control character is `\\x` and its two digits."""
    parts = re.split(f"{BEGIN}(.*?){END}", text)
    parts[::2] = map(escaped, parts[::2])
    return "".join(parts)


def escaped(text: str) -> str:
    doubled = text.replace("\\", "\\\\")
    return re.sub(r"[\x00-\x1f\x7f]", lambda found: f"\\x{ord(found[0]):02x}", doubled)


def long_escape(found: Match[str]) -> str:
    """An escape with four digits, but for a quotation mark and a backslash."""
    escape = found[0]
    if escape in ('\\"', "\\\\", "\\u"):
        return escape
    return f"\\u{ord(json.loads(f'[{chr(34)}{escape}{chr(34)}]')[0]):04x}"


def json_line(members: Dict[str, Part]) -> str:
    told = {key: java_text(part) if isinstance(part, str) else part for key, part in members.items()}
    return re.sub(r"\\.|\x7f", long_escape, json.dumps(told, separators=(",", ":")))


class Told:
    """An event that was done: where its thread stood, as `Class.method offset`, a class or `-`, and what it did."""

    def __init__(
        self,
        number: int,
        thread: int,
        place: Sequence[str],
        words: Sequence[str],
        is_local: bool,
        more: Optional[Dict[str, Part]] = None,
    ) -> None:
        self.number, self.thread, self.is_local, self.more = number, thread, is_local, more or {}
        self.method, self.source, self.instruction = place
        self.did = re.sub(f"[{BEGIN}{END}]", "", ", ".join(words))
        self.did_in_one_line = ", ".join(map(in_one_line, words))

    def words(self) -> str:
        parts = [str(self.thread), self.method, self.source, self.instruction]
        line = in_one_line(" ".join(part for part in parts if part))
        return line + (f" | {self.did_in_one_line}" if self.did else "")

    def line(self, form: str) -> str:
        if form == "json":
            return json_line(self.members())
        if form == "columns":
            return f"{self.number:7} {24 * min(self.thread, 7) * ' '}{self.words()}"
        return f"{self.number} {self.words()}"

    def members(self) -> Dict[str, Part]:
        members: Dict[str, Part] = {"event": self.number, "thread": self.thread}
        found = re.fullmatch(r"(.*)\.(.*) (\d+)", self.method, re.S)
        if found:
            members.update({"class": found[1], "method": found[2], "offset": int(found[3])})
        elif self.method != "-":
            members["class"] = self.method
        rest = {"source": self.source, "instruction": self.instruction, "did": self.did}
        members.update({key: part for key, part in rest.items() if part})
        members.update(self.more)
        return members

    def follows(self, before: "Told") -> bool:
        """Whether it is a local event behind another one that may stand in the same line."""
        return self.is_local and self.number == before.number + 1


class Folded(Told):
    """A run of local events of a thread, one after another."""

    def __init__(self, run: List[Told]) -> None:
        first, self.last, self.count = run[0], run[-1].number, len(run)
        self.to = int(run[-1].method.split()[-1])
        did = f"{self.count} local instructions, up to event {self.last}"
        super().__init__(first.number, first.thread, (first.method, "", ""), [did], True)

    def words(self) -> str:
        return in_one_line(f"{self.thread} {self.method}..{self.to}") + f" | {self.did}"

    def members(self) -> Dict[str, Part]:
        members = {key: part for key, part in super().members().items() if key != "did"}
        members.update({"last_offset": self.to, "last_event": self.last, "local_instructions": self.count})
        return members
