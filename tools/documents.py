"""What documents say that can be held against the tree: links, paths, names, counts, options, lengths of lines."""

import pathlib
import re
import textwrap
from typing import Callable, Dict, Iterator, List, NamedTuple, Optional, Sequence, Set, Tuple

from tools.repository import ROOT, crates, scripts

COLUMNS = 120
WORDS = 30

# The folders at the top whose files are named in documents.
FOLDERS = (
    ("bench", "builtin", "cluster", "compare", "constructs", "crates")
    + ("docs", "lessons", "oracle", "programs", "tests", "tools")
)

PARTS_OF_A_CRATE = ("src", "specs", "proofs", "data", "must-fail", "wrong-bodies", "stdout")

# Names of the kit's libraries that documents name.
FOREIGN = {"conflicts_with", "open_file", "open_read"}

# What a path may go without in a document.
ENDINGS = ("", ".rt", ".antt", ".md", ".edit")

FENCE = re.compile(r"^ *```(\w*)")
LINK = re.compile(r"\[[^\]]*\]\(([^)\s]+)\)")
QUOTED = re.compile(r"`([^`]+)`")
HEADING = re.compile(r"^#+ +(.*)$")
ANCHOR = re.compile(r"<a (?:id|name)=\"([^\"]+)\"")
SNAKE = re.compile(r"[a-z][a-z0-9]*(?:_[a-z0-9]+)+")
SCRIPT = re.compile(r"(?<![\w./-])((?:\.\./)?(?:bench|cluster|compare|oracle|tools)/[\w-]+(?:\.py|\.sh)?)")
PLACEHOLDER = re.compile(r"\b[A-Z]{2,}\b|\.\.(?!/)|[<>{}]|\bM\b")


class Line(NamedTuple):
    """A line of a document: its number, its text, and whether it stands in a block of code."""

    number: int
    text: str
    is_code: bool


class Document:
    """A document, by its path from the top."""

    def __init__(self, name: str, text: str) -> None:
        self.name, self.lines = name, list(lines_of(text))

    def prose(self) -> Iterator[Line]:
        return (line for line in self.lines if not line.is_code)

    def anchors(self) -> Set[str]:
        """What links may name behind `#`."""
        found: Set[str] = set()
        for line in self.prose():
            heading = HEADING.match(line.text)
            found.update(ANCHOR.findall(line.text))
            if heading:
                name, number = anchor_of(heading[1]), 1
                while f"{name}-{number}" in found:
                    number += 1
                found.add(f"{name}-{number}" if name in found else name)
        return found


def lines_of(text: str) -> Iterator[Line]:
    is_code = False
    for number, line in enumerate(text.splitlines(), 1):
        if FENCE.match(line):
            yield Line(number, line, True)
            is_code = not is_code
        else:
            yield Line(number, line, is_code)


def anchor_of(heading: str) -> str:
    """The anchor that a heading has, as GitHub makes it."""
    plain = re.sub(r"\[([^\]]*)\]\([^)]*\)", r"\1", heading).replace("`", "")
    return re.sub(r" ", "-", re.sub(r"[^\w\- ]", "", plain.strip().lower()))


def documents() -> Dict[str, Document]:
    """The documents of the repository, by their paths."""
    paths = [ROOT / "README.md", ROOT / "CONTRIBUTING.md", *sorted(ROOT.glob("docs/*.md"))]
    paths += [ROOT / f"{folder}/README.md" for folder in ("builtin", "cluster", "programs")]
    paths += sorted(ROOT.glob("lessons/**/README.md"))
    names = [str(path.relative_to(ROOT)) for path in paths]
    return {name: Document(name, (ROOT / name).read_text(encoding="utf-8")) for name in names}


# Links and paths


def wrong_links(document: Document, all_of_them: Dict[str, Document]) -> Iterator[Tuple[int, str]]:
    for line in document.prose():
        for target in LINK.findall(re.sub(r"`[^`]*`", "", line.text)):
            if not re.match(r"[a-z]+:", target):
                why = wrong_link(document, target, all_of_them)
                if why:
                    yield line.number, f"the link {target}: {why}"


def wrong_link(document: Document, target: str, all_of_them: Dict[str, Document]) -> Optional[str]:
    path, _, anchor = target.partition("#")
    found = ((ROOT / document.name).parent / path).resolve() if path else ROOT / document.name
    if not found.exists():
        return "there is no such file"
    name = str(found.relative_to(ROOT))
    if anchor and name in all_of_them and anchor not in all_of_them[name].anchors():
        return "there is no such heading"
    return None


def is_there(path: str) -> bool:
    """Whether a path from the top names something, with stars for any text."""
    found = path.rstrip("/")
    return any(next(ROOT.glob(found + ending), None) is not None for ending in ENDINGS)


def path_of(word: str, names: Set[str], folder: str) -> Optional[str]:
    """The path from the top that a word names, or none where it names none of the repository's."""
    if PLACEHOLDER.search(word) or not re.fullmatch(r"[\w./*-]+", word) or "/out/" in f"/{word}/" or "/" not in word:
        return None
    parts = word.split("/")
    if parts[0] in FOLDERS:
        return word
    if parts[0] in names and len(parts) > 1 and parts[1] in PARTS_OF_A_CRATE:
        return f"crates/{word}"
    if parts[0] == "..":
        return str((ROOT / folder / word).resolve().relative_to(ROOT)) if is_inside(folder, word) else None
    return None


def is_inside(folder: str, word: str) -> bool:
    return ROOT in (ROOT / folder / word).resolve().parents


def wrong_paths(document: Document, names: Set[str]) -> Iterator[Tuple[int, str]]:
    """Paths in back quotes that name nothing."""
    folder = str(pathlib.Path(document.name).parent)
    for line in document.prose():
        for quoted in QUOTED.findall(line.text):
            for word in quoted.split():
                path = path_of(word, names, folder)
                if path and not is_there(path):
                    yield line.number, f"the path {word} names nothing"


# Names


def words_of_tree() -> Set[str]:
    """Each word of the sources, the definitions, the proofs, the cases and the scripts."""
    found: Set[str] = set(crates())
    for pattern in ("crates/*/src/**/*.rt", "crates/*/specs/**/*.antt", "crates/*/proofs/**/*.antt", "**/*.java"):
        for path in ROOT.glob(pattern):
            found.update(re.findall(r"\w+", path.read_text(encoding="utf-8")))
            found.add(path.stem)
    for path in scripts():
        if path.name != pathlib.Path(__file__).name:
            found.update(re.findall(r"\w+", path.read_text(encoding="utf-8")))
    return found | FOREIGN | {folder.name for folder in ROOT.glob("crates/*/*/**/") if folder.is_dir()}


def wrong_names(document: Document, known: Set[str]) -> Iterator[Tuple[int, str]]:
    """Names of functions, modules and definitions in back quotes, of two words and more, that stand nowhere."""
    for line in document.prose():
        for quoted in QUOTED.findall(line.text):
            for name in SNAKE.findall(quoted if re.fullmatch(r"[\w:. ,()*&]+", quoted) else ""):
                if name not in known:
                    yield line.number, f"the name {name} stands nowhere"


# Counts


def number_of(pattern: str) -> int:
    return sum(1 for _ in ROOT.glob(pattern))


# What is counted, as documents say it, and how many there are.
COUNTS: Sequence[Tuple[str, Callable[[], int]]] = [
    (r"([\d,]+) must-fail edits", lambda: number_of("crates/*/must-fail/*.edit")),
    (r"([\d,]+) wrong bodies", lambda: number_of("crates/*/wrong-bodies/*.edit")),
    (r"([\d,]+) programs of `programs/`", lambda: number_of("programs/*.java")),
    (r"([\d,]+) lessons\b", lambda: number_of("lessons/*/README.md")),
    (r"\b(?:the|The|has|all) ([\d,]+) crates\b(?! that there were)", lambda: len(crates())),
]


def wrong_counts(document: Document) -> Iterator[Tuple[int, str]]:
    for line in document.prose():
        for pattern, count in COUNTS:
            for told in re.findall(pattern, line.text):
                if int(told.replace(",", "")) != count():
                    yield line.number, f"it says {told}, and there are {count()}: {pattern}"


# Usage


def wrong_usage(document: Document) -> Iterator[Tuple[int, str]]:
    """Scripts that aren't there, and options that they don't have."""
    for line in document.lines:
        if line.is_code and FENCE.match(line.text):
            continue
        commands = [line.text] if line.is_code else QUOTED.findall(line.text)
        for command in commands:
            found = SCRIPT.search(command)
            if not found or PLACEHOLDER.search(found[1]):
                continue
            script = ROOT / found[1].replace("../", "")
            if not script.is_file():
                if not is_there(found[1].replace("../", "")):
                    yield line.number, f"there is no script {found[1]}"
                continue
            source = script.read_text(encoding="utf-8")
            words = re.split("[`|;&]", command[found.end() :])[0]
            for option in re.findall(r"(?<=\s)--[a-z][a-z-]*", words):
                if option != "--help" and option not in source:
                    yield line.number, f"{found[1]} has no option {option}"


def wrong_heads() -> Iterator[Tuple[str, str]]:
    """Scripts whose first usage line doesn't name them."""
    for path in scripts():
        usage = re.match(r'#!.*python3\n"""(?:(?!""").)*?\n\n    (\S+)', path.read_text(encoding="utf-8"), re.S)
        name = str(path.relative_to(ROOT))
        if usage and usage[1] != name:
            yield name, f"its usage line begins with {usage[1]}"


# Lines and sentences


def wrong_lines(document: Document) -> Iterator[Tuple[int, str]]:
    """Lines that are too long, but for rows of tables, for code, and for a link that can't be broken."""
    for line in document.prose():
        is_table = line.text.lstrip().startswith("|")
        if len(line.text) > COLUMNS and not is_table and " " in re.sub(r"\S*\]\(\S*\)\S*", "", line.text.strip()):
            yield line.number, f"the line has {len(line.text)} columns"


def sentences(document: Document) -> Iterator[str]:
    """The sentences of a document, without code and tables."""
    text = "\n".join("" if line.text.lstrip().startswith(("|", "#")) else line.text for line in document.prose())
    for paragraph in re.split(r"\n\s*\n|\n(?=\s*(?:[-*]|\d+\.) )", text):
        plain = re.sub(r"`[^`]*`", "x", " ".join(re.sub(r"^> ?", "", paragraph, flags=re.M).split()))
        plain = re.sub(r"\[([^\]]*)\]\([^)]*\)", r"\1", plain).replace("**", "").replace("*", "")
        yield from re.split(r"(?<=[.!?:;]) +(?=[A-Z(x])", plain)


def long_sentences(document: Document) -> int:
    return sum(len(sentence.split()) > WORDS for sentence in sentences(document))


def wrapped(text: str) -> str:
    """The text of a document, in which each paragraph that has too long a line is laid out anew."""
    document = Document("", text)
    found: List[str] = []
    paragraph: List[str] = []
    for line in [*document.lines, Line(0, "", False)]:
        is_start = bool(re.match(r" *(?:[-*]|\d+\.) ", line.text))
        if paragraph and (line.is_code or is_start or re.match(r" *(?:\||#|>|$)", line.text)):
            found += laid_out(paragraph)
            paragraph = []
        if line.is_code or re.match(r" *(?:\||#|>|$)", line.text):
            found.append(line.text)
        else:
            paragraph.append(line.text)
    return "\n".join(found[:-1]) + "\n"


def laid_out(paragraph: List[str]) -> List[str]:
    """The lines of a paragraph, with the indent of its second one."""
    if all(len(line) <= COLUMNS for line in paragraph):
        return paragraph
    start = re.match(r" *(?:(?:[-*]|\d+\.) +)?", paragraph[0])
    first = start[0] if start else ""
    text = " ".join(line.strip() for line in paragraph)[len(first.strip()) :].strip()
    quoted = re.sub(r"`[^`]*`|\[[^\]]*\]\([^)]*\)", lambda found: found[0].replace(" ", "\0"), text)
    lines = textwrap.wrap(
        quoted,
        COLUMNS,
        break_long_words=False,
        break_on_hyphens=False,
        initial_indent=first,
        subsequent_indent=" " * len(first),
    )
    return [line.replace("\0", " ") for line in lines]


def faults() -> List[str]:
    """All that is wrong, a line each."""
    all_of_them, names, known = documents(), set(crates()), words_of_tree()
    found = [f"{name}: {why}" for name, why in wrong_heads()]
    for document in all_of_them.values():
        for number, why in [
            *wrong_links(document, all_of_them),
            *wrong_paths(document, names),
            *wrong_names(document, known),
            *wrong_counts(document),
            *wrong_usage(document),
            *wrong_lines(document),
        ]:
            found.append(f"{document.name}:{number}: {why}")
    return found
