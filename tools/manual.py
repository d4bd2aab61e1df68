"""Manual pages of what a program's help tells, which fit whatever width a reader has."""

import re
from typing import List

USER_COMMANDS = "1"

# A title of a help, as `Options:`; behind `Usage:` the text stands in the same line.
TITLE = re.compile(r"(?P<title>[A-Z][\w ]*):(?: (?P<text>.*))?")

# A line of two columns, as `  -h, --help  Print help`.
ENTRY = re.compile(r" +(?P<word>\S+(?: \S+)*)  +(?P<text>\S.*)")

# A line that goes on with the second column.
GOES_ON = re.compile(r" {5,}(?P<text>\S.*)")

NAMES_OF_SECTIONS = {"Usage": "SYNOPSIS", "What it does": "DESCRIPTION", "Statuses": "EXIT STATUS"}


def escaped(line: str) -> str:
    """A line for troff, in which a backslash and a leading dot or quote mean something."""
    line = line.replace("\\", "\\e").replace("-", "\\-")
    return "\\&" + line if line[:1] in (".", "'") else line


def section_of(lines: List[str]) -> List[str]:
    """The lines of a section: tables of two columns, and paragraphs of text."""
    made: List[str] = []
    is_in_table = False
    for line in lines:
        entry, more = ENTRY.fullmatch(line), GOES_ON.fullmatch(line)
        if entry:
            made += [".TP", f"\\fB{escaped(entry['word'])}\\fR", escaped(entry["text"])]
        elif is_in_table and more:
            made.append(escaped(more["text"]))
        else:
            made += [".PP"] * is_in_table + [escaped(line.strip())]
        is_in_table = bool(entry or is_in_table and more)
    return made


def as_they_stand(lines: List[str]) -> List[str]:
    return [".nf", *(escaped(line.strip()) for line in lines), ".fi"]


def manual_page(title: str, text: str) -> str:
    """The page of a help: what stands below each of its titles is a section."""
    summary, _, rest = text.partition("\n")
    page = [f'.TH "{title.upper()}" "{USER_COMMANDS}"', ".SH NAME", f"{title} \\- {escaped(summary)}"]
    for part in re.split(r"\n\n+", rest.strip("\n")):
        first, *lines = part.split("\n")
        found = TITLE.fullmatch(first)
        if not found:
            page += [".PP", *section_of([first, *lines])]
            continue
        page.append(f".SH {NAMES_OF_SECTIONS.get(found['title'], found['title'].upper())}")
        page += [escaped(found["text"])] if found["text"] else []
        page += as_they_stand(lines) if found["title"].startswith("Example") else section_of(lines)
    return "\n".join(page) + "\n"
