"""The oracle: the steps of a few instructions, as the JVMS has them, and whole runs."""

import unittest
from typing import Any, List, Sequence

from oracle.classes import Class
from oracle.frames import Frame, local
from oracle.machine import Machine, replay
from oracle.schedules import Entry
from oracle.state import NotEnabled, Object
from oracle.strings import ANSWERS, STRING, Made, Raised
from oracle.texts import decoded, in_utf8, printed_lines, quoted, text_order, units_of
from oracle.told import json_line
from oracle.traces import lined, trace
from tools.class_files import class_with_main

PRINTS_SEVEN = class_with_main(bytes.fromhex("b2000d 1007 b60013 b1"))


def stack_after(code: str, stack: Sequence[Any], local_count: int = 4) -> List[Any]:
    """The operands behind one instruction that touches its frame alone."""
    return frame_after(code, stack, local_count).stack


def frame_after(code: str, stack: Sequence[Any], local_count: int = 4) -> Frame:
    method = Class("A", None).add("m", "()V")
    method.code, method.local_count = bytes.fromhex(code), local_count
    frame = Frame(method, [10], None)
    frame.stack = list(stack)
    local(Machine([PRINTS_SEVEN]), frame, frame.opcode())
    return frame


class Instructions(unittest.TestCase):
    def test_arithmetic_wraps(self) -> None:
        self.assertEqual(stack_after("60", [2**31 - 1, 1]), [-(2**31)])
        self.assertEqual(stack_after("64", [-(2**31), 1]), [2**31 - 1])
        self.assertEqual(stack_after("68", [65_536, 65_536]), [0])
        self.assertEqual(stack_after("74", [-(2**31)]), [-(2**31)])

    def test_division_goes_towards_zero(self) -> None:
        self.assertEqual(stack_after("6c", [-7, 2]), [-3])
        self.assertEqual(stack_after("70", [-7, 2]), [-1])
        self.assertEqual(stack_after("6c", [-(2**31), -1]), [-(2**31)])

    def test_shifts_take_five_bits(self) -> None:
        self.assertEqual(stack_after("78", [1, 33]), [2])
        self.assertEqual(stack_after("7a", [-8, 1]), [-4])
        self.assertEqual(stack_after("7c", [-1, 28]), [15])

    def test_constants_and_narrowing(self) -> None:
        self.assertEqual(stack_after("10 80", []), [-128])
        self.assertEqual(stack_after("11 8000", []), [-32_768])
        self.assertEqual([stack_after(code, [0x1_80FF])[0] for code in ("91", "92", "93")], [-1, 0x80FF, -32_513])

    def test_the_stack(self) -> None:
        self.assertEqual(stack_after("5b", [1, 2, 3]), [3, 1, 2, 3])
        self.assertEqual(stack_after("5e", [1, 2, 3, 4]), [3, 4, 1, 2, 3, 4])
        self.assertEqual(stack_after("5f", [1, 2]), [2, 1])

    def test_local_variables(self) -> None:
        self.assertEqual(stack_after("1a", []), [10])
        self.assertEqual(frame_after("84 00 ff", []).locals[0], 9)
        wide = frame_after("c4 84 0000 0100", [])
        self.assertEqual((wide.locals[0], wide.at), (266, 6))

    def test_jumps(self) -> None:
        self.assertEqual([frame_after("a1 0007", [1, number]).at for number in (1, 2)], [3, 7])
        switch = "aa 000000 00000020 00000005 00000006 00000018 0000001c"
        self.assertEqual([frame_after(switch, [key]).at for key in (4, 5, 6, 7)], [32, 24, 28, 32])
        pairs = "ab 000000 00000010 00000001 ffffffff 00000014"
        self.assertEqual([frame_after(pairs, [key]).at for key in (-1, 1)], [20, 16])


class Texts(unittest.TestCase):
    def test_bytes_that_begin_no_unit_are_units(self) -> None:
        self.assertEqual(decoded(b"a\xc3\xa9\xe2\x82\xac"), [0x61, 0xE9, 0x20AC])
        self.assertEqual(decoded(b"\xc3\xc3\xa9\xe2\x82A\x80"), [0xC3, 0xE9, 0xE2, 0x82, 0x41, 0x80])
        self.assertEqual(decoded(b"\xc0\x80\xe0\x83\xa9"), [0, 0xE9])
        self.assertEqual(decoded(b"\xed\xa0\xbd\xed\xb8\x80"), units_of("\U0001f600"))

    def test_a_half_of_a_pair_is_a_question_mark(self) -> None:
        high, low = units_of("\U0001f600")
        self.assertEqual(in_utf8([high, low, low, high]), "\U0001f600??".encode().decode("latin-1"))

    def test_the_last_line_is_ended(self) -> None:
        self.assertEqual([printed_lines(units_of(text)) for text in ("", "\n", "a\nb")], ["", "\n", "a\nb\n"])

    def test_lines_that_are_ints_come_first(self) -> None:
        texts = ["", "-2", "9\n", "9\n8", "9\na", "10", "+1", "01", "2147483648", "a"]
        self.assertEqual(sorted(reversed(texts), key=lambda text: text_order(units_of(text))), texts)

    def test_a_trace_tells_forty_units(self) -> None:
        self.assertEqual(quoted(units_of('"\\\n\x7f')), '"\\"\\\\\\n\\u007f"')
        self.assertEqual(quoted([97] * 41), f'"{"a" * 40}.."')


def string(text: str) -> Object:
    thing = Object(STRING)
    thing.text = units_of(text)
    return thing


def answer(name: str, *operands: Any) -> Any:
    """What the method of String answers that has this name first among those that do."""
    found = next(does for (method, _), does in ANSWERS.items() if method == name)
    return found(*(string(one) if isinstance(one, str) else one for one in operands))


class Strings(unittest.TestCase):
    def test_hashes_wrap(self) -> None:
        self.assertEqual(answer("hashCode", "hello"), 99_162_322)
        self.assertEqual(answer("hashCode", "polygenelubricants"), -(2**31))

    def test_regions(self) -> None:
        self.assertEqual([answer("regionMatches", "hello", 2, "ll", 0, count) for count in (2, 3, 0, -1)], [1, 0, 1, 1])
        self.assertEqual(answer("regionMatches", "hello", 2**31 - 1, "hello", 2**31 - 1, 2**31 - 1), 0)

    def test_what_is_made(self) -> None:
        hello, none = string("hello"), string("")
        self.assertEqual(answer("substring", hello, 1, 3), Made(units_of("el")))
        self.assertIs(answer("substring", hello, 0, 5), hello)
        self.assertIs(answer("concat", hello, none), hello)
        self.assertEqual(answer("concat", none, hello), Made(units_of("hello")))
        self.assertEqual(answer("valueOf", -7), Made(units_of("-7")))

    def test_what_is_raised(self) -> None:
        for operands in (("charAt", "a", 1), ("charAt", "a", -1), ("substring", "a", 1, 0)):
            self.assertRaisesRegex(Raised, "StringIndexOutOfBounds", answer, *operands)
        self.assertRaisesRegex(Raised, "NullPointer", answer, "regionMatches", "a", -1, None, 0, 0)


class Runs(unittest.TestCase):
    def test_seven_is_printed(self) -> None:
        report = "7\nthread 0 ended\nevents 8\nend quiet\n"
        self.assertEqual(replay([PRINTS_SEVEN], [Entry(0, 0, 8)]), (report, 0))

    def test_what_is_not_enabled_ends_a_run(self) -> None:
        report, status = replay([PRINTS_SEVEN], [Entry(0, 0, 2), Entry(1, 0, 1)])
        self.assertEqual((report, status), ("thread 0 runnable\nevents 2\nend not enabled 2\n", 3))
        with self.assertRaises(NotEnabled):
            Machine([PRINTS_SEVEN]).step(0, 1)

    def test_a_limit_refuses(self) -> None:
        array = class_with_main(bytes.fromhex("10 0b bc 0a 57 b1"))
        report, status = replay([array], [Entry(0, 0, 9)], {"cells": 10})
        self.assertEqual((report.splitlines()[-1].split()[:2], status), (["end", "refused"], 3))

    def test_an_exception_leaves_a_synchronized_method_and_is_caught(self) -> None:
        lines = trace([lined()], [Entry(0, 0, 13)])[0].splitlines()
        self.assertIn("throws java/lang/ArithmeticException #", "\n".join(lines))
        self.assertIn("leaves A.half by java/lang/ArithmeticException #", "\n".join(lines))
        self.assertEqual(lines[-3:], ["thread 0 ended", "events 13", "end quiet"])

    def test_a_line_of_json(self) -> None:
        text = json_line({"event": 3, "class": 'a"\\\n\x7f\xc3\xa9\xc0\x80', "offset": 0})
        self.assertEqual(text, '{"event":3,"class":"a\\"\\\\\\u000a\\u007f\\u00e9\\u0000","offset":0}')


if __name__ == "__main__":
    unittest.main()
