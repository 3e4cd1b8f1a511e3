"""How far to the next phase change: the library's call, plain flashes step by step through it, and the program `still`,
which has no such call. The same step, outcome and count."""

import ctypes
import random
import unittest
from dataclasses import replace
from unittest import mock

import desk
from desk import distance
from desk.batch import CallRefused
from desk.blocks import Rule, rule_of, sealed, split
from desk.openbook import open_book
from nine import NINE, SAMPLE_BOOK
from support import LIBRARY, ROOT, InFolder

YARD, ALCOHOLS = (open_book(str(ROOT / "yard" / name)) for name in ("yard.txt", "alcohols.txt"))
COUNT = 40
FLASH = NINE[7]  # of equal moles, both phases at 90,000 Pa
FILLED = list(range(100, 108))
HUNDRED = 100.0


def due(library, question: desk.Question):
    """By the text of docs/FORMAT.md: 1, -1, 2, -2 and on, each pressure rounded once; or the number at P."""
    here = library.ask(question)
    if here.refusal:
        return here.refusal
    refused = 0
    for size in range(1, 1001):
        for s in (size, -size):
            blocks = library.ask(replace(question, pressure=question.pressure + HUNDRED * s))
            if blocks.refusal:
                refused += 1
            elif blocks.head[3] != here.head[3]:
                return desk.Distance(refused, s, blocks.head[3])
    return desk.Distance(refused)


def found(core, question: desk.Question):
    try:
        return core.ask_distance(question)
    except CallRefused as refused:
        return refused.number


def questions(source: random.Random, library, n: int):
    """Flashes around their bubble and dew pressures, some far from both and some refused."""
    for _ in range(COUNT):
        parts = [source.random() if source.random() < 0.6 else 0.0 for _ in range(n)]
        feed = tuple(part / (sum(parts) or 1.0) for part in parts)
        kelvin = source.choice((260.0, *[source.uniform(290.0, 400.0)] * 12))
        bubble = library.ask(desk.Question(desk.BUBBLE_PRESSURE, feed, kelvin))
        pascals = bubble.real(desk.answer.P) if bubble.accepted else 50000.0
        pascals = source.choice((pascals + source.uniform(-2e4, 2e4), pascals * source.uniform(0.5, 1.2), 150.0, 4.9e5))
        by_mass = source.random() < 0.3
        yield desk.Question(desk.FLASH, feed, kelvin, pascals, by_mass=by_mass)


class AsPlain(unittest.TestCase):
    def test_drums_of_both_yards(self):
        seen = {"up": 0, "down": 0, "none": 0, "number": 0, "refused": 0}
        for book in (YARD.content, ALCOHOLS.content):
            library = desk.Library(book)
            for question in questions(random.Random(17), library, desk.book.solvent_count(book)):
                expected = due(library, question)
                self.assertEqual(found(library, question), expected, question)
                if isinstance(expected, int):
                    seen["number"] += 1
                    continue
                seen["none" if expected.steps is None else "up" if expected.steps > 0 else "down"] += 1
                seen["refused"] += expected.refused > 0
        self.assertTrue(all(count > 5 for count in seen.values()), seen)

    def test_library_and_program(self):
        """A run of the program for each step."""
        agreed = 0
        for book, feeds in (
            (SAMPLE_BOOK, [(0.5, 0.5), (0.89, 0.11), (0.0, 1.0)]), (YARD.content, [(0.9, 0.0, 0.0, 0.0, 0.0, 0.1)])
        ):
            with desk.Library(book) as library, desk.Core(book) as program:
                for feed in feeds:
                    bubble = library.ask(desk.Question(desk.BUBBLE_PRESSURE, feed, 360.0)).real(desk.answer.P)
                    for pascals in (bubble - 2050.0, bubble + 777.7, bubble, 99.0, 0.0):
                        question = desk.Question(desk.FLASH, feed, 360.0, pascals)
                        by_library = found(library, question)
                        if isinstance(by_library, int) or by_library.before < 300:
                            self.assertEqual(found(program, question), by_library)
                            agreed += 1
        self.assertGreater(agreed, 15)

    def test_no_change_by_the_program(self):
        """All 2000 steps; of the lower 950 each is refused by 14 or 23."""
        question = replace(FLASH, temperature=300.0, pressure=4e5)
        with desk.Library(SAMPLE_BOOK) as library, desk.Core(SAMPLE_BOOK) as program:
            self.assertEqual(found(library, question), desk.Distance(0))
            self.assertEqual(found(program, question), desk.Distance(0))
            low = replace(FLASH, temperature=440.0, fractions=(0.0, 1.0), pressure=5000.0)
            self.assertEqual((found(library, low), due(library, low)), (desk.Distance(951),) * 2)

    def test_a_preview(self):
        """Step by step: the core has no call for both."""
        pair = desk.open_yard(str(ROOT / "yard" / "sample.txt")).book.pairs[0]
        fitted = replace(pair, tau_ij=(0.0, 500.0, 0.0, 0.0))
        block = desk.pair_block(SAMPLE_BOOK, 0, 1, fitted)
        with desk.Preview(desk.Library(SAMPLE_BOOK), block) as tried:
            self.assertEqual(tried.ask_distance(FLASH), desk.Library(tried.book).ask_distance(FLASH))
            self.assertNotEqual(tried.ask_distance(FLASH), tried.core.ask_distance(FLASH))

    def test_numbers(self):
        """The book's, 11, 12 ahead of 36 and of all that the question says, then the flash's at P."""
        head, rest = split(SAMPLE_BOOK)[0], SAMPLE_BOOK[512:]
        cases = [
            (b"", FLASH, 1),
            (SAMPLE_BOOK[:-1], FLASH, 1),
            (sealed([1, 4, *head[2:63]]) + rest, FLASH, 38),
            (sealed([1, 1, 2, 1, *head[4:63]]) + rest, FLASH, 37),
            (SAMPLE_BOOK, replace(FLASH, by_mass=True), 36),
            (SAMPLE_BOOK, replace(FLASH, temperature=-1.0), 13),
            (SAMPLE_BOOK, replace(FLASH, pressure=0.0), 14),
            (SAMPLE_BOOK, replace(FLASH, fractions=(0.5, 0.4)), 18),
            (SAMPLE_BOOK, replace(FLASH, temperature=260.0), 22),
            (SAMPLE_BOOK, replace(FLASH, pressure=500000.5), 23),
            (SAMPLE_BOOK, replace(FLASH, options=desk.Options(max_iterations=3)), 27),
            *((SAMPLE_BOOK, replace(NINE[task], by_mass=True), 12) for task in NINE if task != 7),
            *((b"", NINE[task], 1) for task in NINE),
        ]
        for book, question, number in cases:
            with desk.Library(book) as library, desk.Core(book) as program:
                self.assertEqual((found(library, question), found(program, question)), (number, number))


class Bytes(unittest.TestCase):
    """The call itself."""

    def setUp(self) -> None:
        self.call = ctypes.CDLL(str(LIBRARY)).zektonk_distance
        slices, words = [ctypes.c_char_p, ctypes.c_size_t], [ctypes.POINTER(ctypes.c_uint64), ctypes.c_size_t]
        self.call.argtypes, self.call.restype = slices * 2 + words, ctypes.c_uint64

    def asked(self, block: bytes, room: int, book: bytes = SAMPLE_BOOK):
        """The number, and the words afterwards; what is lent stays."""
        words = (ctypes.c_uint64 * len(FILLED))(*FILLED)
        lent = [ctypes.create_string_buffer(part, max(len(part), 1)) for part in (book, block)]
        number = self.call(lent[0], len(book), lent[1], len(block), words, room)
        self.assertEqual([part.raw for part in lent], [book or b"\0", block or b"\0"])
        return number, list(words)

    def test_words(self):
        """1, s, outcome, refused, or 0, 0, 0, refused, at the front; fewer than four stay, with the same number."""
        low = replace(FLASH, pressure=5000.0)  # 14 and 23 on the way down
        none = replace(FLASH, pressure=4e5)
        liquid = replace(FLASH, pressure=120000.0)
        for question, words in (
            (FLASH, [1, 64, 1, 0]),
            (low, [1, 748, 3, 698]),
            (liquid, [1, 2**64 - 237, 3, 0]),
            (none, [0, 0, 0, 0]),
            (replace(low, temperature=440.0, fractions=(0.0, 1.0)), [0, 0, 0, 951]),
        ):
            for room in range(len(FILLED) + 1):
                after = words + FILLED[4:] if room >= 4 else FILLED
                self.assertEqual(self.asked(question.block(), room), (0, after), (question, room))

    def test_numbers_leave_every_word(self):
        """11 for any bytes that are no question; 10 isn't put."""
        block = FLASH.block()
        for wrong in (b"", block[:-1], block + b"\0", FLASH.block(Rule.RUNNING), bytes(512), sealed([9, 7])):
            for room in (0, 3, 4, 8):
                self.assertEqual(self.asked(wrong, room), (11, FILLED))
                self.assertEqual(self.asked(wrong, room, SAMPLE_BOOK[:-1]), (1, FILLED))
        for task in (0, 1, 8, 9, 10, 2**64 - 1):
            words = split(block)[0]
            self.assertEqual(self.asked(sealed([8, task, *words[2:63]]), 4), (12, FILLED))
        self.assertEqual(self.asked(replace(FLASH, pressure=90.0).block(), 4), (23, FILLED))

    def test_null_with_length_0(self):
        self.assertEqual(self.call(None, 0, None, 0, None, 0), 1)
        block = FLASH.block()
        self.assertEqual(self.call(SAMPLE_BOOK, len(SAMPLE_BOOK), block, len(block), None, 0), 0)

    def test_versions(self):
        """The question's check goes by the book's version."""
        sample = desk.open_yard(str(ROOT / "yard" / "sample.txt")).book
        for version in (1, 2, 3):
            book = desk.encode(sample, version)
            self.assertEqual(self.asked(FLASH.block(rule_of(book)), 4, book), (0, [1, 64, 1, 0, *FILLED[4:]]))

    def test_one_rounding(self):
        """A pressure with all its digits: each step is P + 100 s rounded once, not the step before it and 100 more."""
        question = replace(FLASH, pressure=90000.00000000001)
        library = desk.Library(SAMPLE_BOOK)
        self.assertEqual(library.ask_distance(question), due(library, question))
        stepped = [distance.at_step(question, s).pressure for s in (1, -1, 1000)]
        self.assertEqual(stepped, [question.pressure + 100.0, question.pressure - 100.0, question.pressure + 1e5])


class Sheets(InFolder):
    """`./sheet distance` over the library's call and over the program: the same sheet."""

    def test_one_sheet(self):
        pair, at = ("--drum", "ethanol=0.5,water=0.5"), ("--temperature", "78.29C", "--pressure")
        for asked in (
            (*pair, *at, "94kPa"),
            (*pair, *at, "94kPa", "--json", "--details"),
            ("--drum", "ethanol=0.9,water=0.1", *at, "102kPa"),
            ("--drum", "toluene=0.1,water=0.9", "--temperature", "85C", "--pressure", "68kPa", "--details"),
            ("--drum", "toluene=0.4,water=0.6", "--temperature", "25C", "--pressure", "1bar"),
            (*pair, *at, "94kPa", "--try", str(ROOT / "yard" / "try.txt")),
        ):
            calls, real = [], desk.Library.ask_distance

            def counted(library, question):
                calls.append(question)
                return real(library, question)

            with mock.patch.object(desk.Library, "ask_distance", counted):
                by_library, by_program = self.by_both("distance", *asked)
            self.assertEqual(len(calls), 0 if by_library[0] == 1 else 1)
            self.assertEqual(by_program, by_library)


if __name__ == "__main__":
    unittest.main()
