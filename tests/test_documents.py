"""What is checked of documents."""

import unittest
from typing import Iterator, List, Tuple

from tools import documents
from tools.documents import Document, anchor_of


def told(found: Iterator[Tuple[int, str]]) -> List[int]:
    """The lines of which something is said."""
    return [number for number, _ in found]


class Documents(unittest.TestCase):
    def test_anchors(self) -> None:
        self.assertEqual(anchor_of("What `jvm run` does, and *why*"), "what-jvm-run-does-and-why")
        text = "# One\n## Two\n## Two\n```sh\n# no heading\n```\n<a id=\"three\"></a>\n"
        self.assertEqual(Document("x.md", text).anchors(), {"one", "two", "two-1", "three"})

    def test_links(self) -> None:
        text = "# Head\n[a](#head) [b](README.md)\n[c](missing.md)\n[d](#none)\n[e](https://x.y/z)\n`[f](g)`\n"
        document = Document("README.md", text)
        self.assertEqual(told(documents.wrong_links(document, {"README.md": document})), [3, 4])

    def test_paths(self) -> None:
        text = "`tools/gate` `tools/none`\n`crates/*/specs` `model/src/instr.rt`\n`model/src/none.rt` `crates/M/src`\n"
        self.assertEqual(told(documents.wrong_paths(Document("x.md", text), {"model"})), [1, 3])

    def test_names(self) -> None:
        text = "`known_name` `Type::known_name`\n`other_name` other_name\n"
        self.assertEqual(told(documents.wrong_names(Document("x.md", text), {"known_name"})), [2])

    def test_counts(self) -> None:
        count = documents.number_of("programs/*.java")
        text = f"the {count} programs of `programs/`\nthe {count + 1} programs of `programs/`\n"
        self.assertEqual(told(documents.wrong_counts(Document("x.md", text))), [2])

    def test_usage(self) -> None:
        text = "`tools/gate --only tests --help`\n```sh\ntools/gate --never\ntools/none x\n```\n"
        self.assertEqual(told(documents.wrong_usage(Document("x.md", text))), [3, 4])

    def test_lines(self) -> None:
        long = "word " * 30
        text = f"{long}\n| {long} |\n```\n{long}\n```\n"
        self.assertEqual(told(documents.wrong_lines(Document("x.md", text))), [1])

    def test_long_lines_are_wrapped(self) -> None:
        long = " ".join(["word"] * 30)
        text = f"# Head\n\n- {long}\n  more\n- short\n\n| {long} |\n```\n{long}\n```\n"
        found = documents.wrapped(text)
        self.assertEqual(told(documents.wrong_lines(Document("x.md", found))), [])
        self.assertEqual(found.split(), text.split())
        self.assertIn(f"\n  {' '.join(['word'] * 7)} more\n- short\n", found)
        self.assertEqual(documents.wrapped(found), found)

    def test_sentences(self) -> None:
        text = f"{'word ' * 31}end. {'word ' * 20}end.\n\nShort.\n"
        self.assertEqual(documents.long_sentences(Document("x.md", text)), 1)
        text = f"- **{'word ' * 20}end.** {'Word ' * 20}end. [{'Word ' * 20}](x y).\n"
        self.assertEqual(documents.long_sentences(Document("x.md", text)), 0)


if __name__ == "__main__":
    unittest.main()
