"""Pooled drums: the library's call on the drums, and the plain call on their mole fractions, which is how `./sheet` and
whoever runs `still` ask. The same answers, to a bit."""

import ctypes
import random
import unittest
from dataclasses import replace
from fractions import Fraction

import desk
from desk.blocks import Rule, rule_of, sealed, split
from desk.openbook import feed_of, open_book
from desk.pool import MOST_TOTAL, bytes_of, fractions_of, pool_of, refusal_of
from desk.question import K_VALUES
from nine import NINE, SAMPLE_BOOK, WRONG_BOOKS
from support import ANSWER_ROOM, LIBRARY, ROOT

YARD, ALCOHOLS = (open_book(str(ROOT / "yard" / name)) for name in ("yard.txt", "alcohols.txt"))
COUNT = 150
WRAPS = [(2**64 - 1, 0), (2, 0)]  # to 1


def drums_of(source: random.Random, n: int):
    """1 to 64 drums, some of their solvents in none of them; one pool in eight is refused."""
    kept = [source.random() < 0.7 for _ in range(n)] + [True] * (8 - n)
    most = source.choice((3, 10**9, MOST_TOTAL // 64, 2**64 - 1) if source.random() < 0.3 else (10**6, 10**9))
    count = 65 if source.random() < 0.05 else source.choice((1, 2, 3, 64))
    return [tuple(source.randint(0, most) if keep else 0 for keep in kept) for _ in range(count)]


def questions(source: random.Random, n: int):
    """Of all tasks."""
    for _ in range(COUNT):
        yield desk.Question(
            source.choice(desk.TASKS),
            tuple(source.random() for _ in range(n)),  # not read
            source.uniform(280.0, 440.0),
            10 ** source.uniform(3.0, 5.7),
            tuple(10 ** source.uniform(-1.0, 1.0) for _ in range(n)),
            desk.Options(max_iterations=source.choice((0, 3, 500, 500))),
            source.random() < 0.05,
        )


class AsPlain(unittest.TestCase):
    """`PoolAsPlain` of crates/pools/specs, by calls."""

    def assert_same(self, book: bytes, question: desk.Question, drums) -> int:
        with desk.Library(book) as library, desk.Core(book) as program:
            found = library.ask_pooled(question, drums)
            self.assertEqual(found, program.ask_pooled(question, drums), (question, drums))
        return found.refusal

    def test_drums_of_both_yards(self):
        numbers = []
        for book in (YARD.content, ALCOHOLS.content, SAMPLE_BOOK):
            n, source = desk.book.solvent_count(book), random.Random(5)
            with desk.Library(book) as library, desk.Core(book) as program:
                for question in questions(source, n):
                    drums = drums_of(source, n)
                    found = library.ask_pooled(question, drums)
                    self.assertEqual(found, program.ask_pooled(question, drums), (question, drums))
                    numbers.append(found.refusal)
        self.assertGreater(numbers.count(0), COUNT)
        self.assertTrue({31, 32, 36, 20} <= set(numbers), set(numbers))

    def test_bytes_of_the_plain_call(self):
        """The question with the pool's fractions in words 4 to 11; one division each, of exact sums."""
        source = random.Random(6)
        for book in (YARD.content, ALCOHOLS.content, SAMPLE_BOOK):
            library, n = desk.Library(book), desk.book.solvent_count(book)
            for question in questions(source, n):
                drums = drums_of(source, n)
                if refusal_of(drums, n) or question.by_mass:
                    continue
                pool = pool_of(drums, n)
                self.assertEqual(fractions_of(pool), tuple(float(Fraction(count, sum(pool))) for count in pool))
                plain = replace(question, fractions=fractions_of(pool)).block(library.rule)
                asked = question.block(library.rule)
                self.assertEqual(library.pooled_bytes(asked, bytes_of(drums)), library.ask_bytes(plain))
                self.assertEqual(library.ask_pooled(question, [pool]), library.ask_pooled(question, drums[::-1]))

    def test_what_the_sheet_asks(self):
        """Amounts in mol and kg, as ./sheet reads them."""
        for book, drums in (
            (YARD, ["ethanol=40kg,water=12kg", "ethanol=300mol,acetone=25mol", "water=3kg,acetone=8500g"]),
            (YARD, ["toluene=1t", "water=20kmol", "toluene=0.3mmol,2-propanol=1umol"]),
            (ALCOHOLS, ["ethanol=1kg,water=1kg", "1-propanol=0.25mol", "methanol=7g"]),
            (YARD, ["ethanol=2mol,water=3mol"]),
        ):
            feed = feed_of(book, drums, None)
            with desk.Library(book.content) as library, desk.Core(book.content) as program:
                for task, question in NINE.items():
                    k_values = (2.0, 0.5, 1.5, 0.7, 0.9, 1.1)[: len(book.names)]
                    asked = replace(question, fractions=feed.fractions, k_values=k_values if task > 7 else None)
                    self.assertEqual(program.ask(asked), library.ask_pooled(asked, feed.charge.counts), (task, drums))

    def test_refused_ahead_of_the_drums(self):
        """Books and questions keep their numbers, whatever the drums; 31, 32 and 36 come in this order."""
        good, none, zeros = [(1, 1)], [], [(0, 0)]
        for book, number in WRONG_BOOKS:
            for drums in (good, none, zeros):
                self.assertEqual(self.assert_same(book, NINE[7], drums), number)
        by_mass, cold = replace(NINE[7], by_mass=True), replace(NINE[7], temperature=-1.0)
        both = replace(by_mass, temperature=-1.0)
        for question, drums, number in (
            (both, none, 31), (both, zeros, 32), (both, good, 36), (cold, none, 31), (cold, good, 13)
        ):
            self.assertEqual(self.assert_same(SAMPLE_BOOK, question, drums), number)

    def test_borders(self):
        half, ones = MOST_TOTAL // 2, [(1, 1)]
        for drums, number in (
            ([(MOST_TOTAL, 0)], 0),
            ([(half, half)], 0),
            ([(half, half), (0, 1)], 32),
            ([(MOST_TOTAL + 1, 0)], 32),
            ([(1, 0)], 0),
            ([(0, 0)], 32),
            ([(0, 0, 5)], 32),
            ([(1, 1, *[2**64 - 1] * 6)], 0),
            (WRAPS, 32),
            ([(2**63, 0), (2**63, 1)], 32),
            (ones * 64, 0),
            (ones * 65, 31),
            ([], 31),
        ):
            self.assertEqual(self.assert_same(SAMPLE_BOOK, NINE[2], drums), number, drums)


class Bytes(unittest.TestCase):
    """The call itself."""

    def setUp(self) -> None:
        self.call = ctypes.CDLL(str(LIBRARY)).zektonk_pooled
        self.call.argtypes = [ctypes.c_char_p, ctypes.c_size_t] * 4
        self.call.restype = ctypes.c_uint64

    def asked(self, question: bytes, drums: bytes, length: int = ANSWER_ROOM):
        """The number, and the answer slice that was full of one byte before."""
        room = ctypes.create_string_buffer(b"\xaa" * ANSWER_ROOM, ANSWER_ROOM)
        number = self.call(SAMPLE_BOOK, len(SAMPLE_BOOK), question, len(question), drums, len(drums), room, length)
        return number, room.raw

    def test_samples(self):
        """(w) to (z) of docs/FORMAT.md; the question's own fractions are 2 and 2."""
        question = replace(NINE[8], fractions=(2.0, 2.0)).block()
        due = desk.Library(SAMPLE_BOOK).ask_bytes(NINE[8].block())
        number, room = self.asked(question, bytes_of([(3, 1, 7), (1, 3)]))
        self.assertEqual((number, room), (0, due + b"\xaa" * (ANSWER_ROOM - len(due))))
        for drums, refused in (([(0, 0)], 32), (WRAPS, 32), ([], 31)):
            self.assertEqual(self.asked(question, bytes_of(drums)), (refused, b"\xaa" * ANSWER_ROOM))

    def test_drums_that_are_not_whole(self):
        question, whole = NINE[7].block(), bytes_of([(1, 1)] * 3)
        for length in (0, 1, 63, 65, 127, 191, 64 * 65, 64 * 64 + 1, 64 * 64 - 1):
            self.assertEqual(self.asked(question, (whole * 30)[:length]), (31, b"\xaa" * ANSWER_ROOM), length)
        self.assertEqual(self.asked(question, whole, ANSWER_ROOM - 1)[0], 10)
        self.assertEqual(self.asked(question[:-1], b"")[0], 11)

    def test_what_is_under_the_check(self):
        """Fractions that aren't read count in the question's check; K values are read as ever."""
        drum, words = bytes_of([(1, 1)]), split(NINE[8].block())[0]
        self.assertEqual(self.asked(sealed(words[:4] + [7] * 8 + words[12:63]), drum), self.asked(sealed(words), drum))
        damaged = bytearray(NINE[8].block())
        damaged[40] ^= 1
        self.assertEqual(self.asked(bytes(damaged), drum)[0], 11)
        words[K_VALUES] = 0
        self.assertEqual(self.asked(sealed(words), drum)[0], 17)

    def test_rules(self):
        """A version 3 book takes a question with running sums, and so is its answer."""
        book = YARD.content
        self.assertEqual(rule_of(book), Rule.RUNNING)
        library = desk.Library(book)
        self.assertTrue(library.ask_pooled(NINE[7], [(1, 2, 3)]).accepted)
        found = library.pooled_bytes(NINE[7].block(Rule.PLAIN), bytes_of([(1, 2, 3)]))
        self.assertEqual(desk.answer.read(found, Rule.RUNNING).refusal, 11)


if __name__ == "__main__":
    unittest.main()
