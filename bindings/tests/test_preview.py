"""A pair tried in place of the book's own: the library's call on the offered block, and the plain call on a copy of the
book that holds it, which is how whoever runs `still` asks. The same answers, to a bit."""

import ctypes
import os
import random
import unittest
from dataclasses import replace
from unittest import mock

import desk
from desk.blocks import Rule, bits_of, rule_of, sealed, split, words_of
from desk.book import Interval, Pair, WilsonPair, due_pairs, encode, pair_place, pair_words
from desk.openbook import open_book
from desk.preview import Preview, copy_of, refusal_of
from nine import NINE, SAMPLE_BOOK
from support import ANSWER_ROOM, BLOCK, LIBRARY, ROOT, InFolder, sheet

YARD, ALCOHOLS = (open_book(str(ROOT / "yard" / name)) for name in ("yard.txt", "alcohols.txt"))
BOOKS = (YARD.content, ALCOHOLS.content, SAMPLE_BOOK)
OWN = SAMPLE_BOOK[3 * BLOCK :]
COUNT = 60
FILLED = bytes((7 * k + 3) % 256 for k in range(ANSWER_ROOM + 9))
INFINITY = bits_of(float("inf"))


def pair_of(source: random.Random, wilson: bool):
    interval = source.choice((None, Interval(300.0, 360.0, source.random() < 0.5)))
    if wilson:
        ij, ji = ((source.uniform(-1.0, 1.0), source.uniform(-300.0, 300.0)) for _ in range(2))
        return WilsonPair(ij, ji, interval)
    t0, t1, t3 = ([source.uniform(low, high) for _ in range(2)] for low, high in ((-1, 1), (-300, 800), (0, 1e-3)))
    tau = [(t0[k], t1[k], 0.0, t3[k]) for k in range(2)]
    return Pair(*tau, (source.choice((0.2, 0.3, -0.1)), source.choice((0.0, 1e-4))), interval)


def offered_of(source: random.Random, book: bytes) -> bytes:
    """A pair of the book's; one in three has something wrong."""
    n, rule = desk.book.solvent_count(book), rule_of(book)
    i, j = source.choice(due_pairs(n))
    words = pair_words(i, j, pair_of(source, desk.book.model_of(book) is desk.Model.WILSON))
    if source.random() < 0.35:
        at, value = source.choice(
            ((0, 2), (1, j), (2, n), (2, i), (15, 2), (18, 2), (3, INFINITY), (10, INFINITY), (16, INFINITY), (13, 7))
        )
        words[at] = value
    block = sealed(words, rule if source.random() < 0.95 else source.choice(list(Rule)))
    return block if source.random() < 0.95 else source.choice((b"", block[:-1], block + b"\0", block + block))


def questions(source: random.Random, n: int):
    """Of all tasks."""
    for _ in range(COUNT):
        parts = [source.random() if source.random() < 0.7 else 0.0 for _ in range(n)]
        total = sum(parts) or 1.0
        yield desk.Question(
            source.choice(desk.TASKS),
            tuple(part / total for part in parts),
            source.uniform(280.0, 440.0),
            10 ** source.uniform(3.0, 5.7),
            tuple(10 ** source.uniform(-1.0, 1.0) for _ in range(n)),
            desk.Options(max_iterations=source.choice((0, 500, 500, 500))),
            source.random() < 0.2,
        )


class AsTheCopy(unittest.TestCase):
    """`PreviewAsCopy` and `OwnPair` of crates/previews/specs, by calls."""

    def test_pairs_of_all_books(self):
        numbers, offered_numbers, changed = [], [], 0
        for book in BOOKS:
            n, source = desk.book.solvent_count(book), random.Random(11)
            with desk.Library(book) as library, desk.Core(book) as program:
                for question in questions(source, n):
                    offered, asked = offered_of(source, book), question.block(library.rule)
                    found = library.ask_preview(asked, offered)
                    self.assertEqual(found, program.ask_preview(asked, offered), (question, offered.hex()))
                    number = refusal_of(offered, book)
                    offered_numbers.append(number)
                    if number:
                        self.assertEqual(found.head[:3], [9, 0, number])
                    else:
                        copy = copy_of(book, offered)
                        self.assertEqual(found, desk.Library(copy).ask(question))
                        changed += found != library.ask(question)
                    numbers.append(found.refusal)
        self.assertEqual(set(offered_numbers), {0, 1, 2, 7, 8, 9})
        self.assertGreater(numbers.count(0), COUNT // 2)
        self.assertGreater(changed, COUNT // 2)

    def test_the_books_own_pair_changes_nothing(self):
        for book in BOOKS:
            n, library = desk.book.solvent_count(book), desk.Library(book)
            for i, j in due_pairs(n):
                own = book[BLOCK * pair_place(n, i, j) :][:BLOCK]
                self.assertEqual(copy_of(book, own), book)
                for question in NINE.values():
                    asked = question.block(library.rule)
                    self.assertEqual(library.preview_bytes(asked, own), library.ask_bytes(asked))

    def test_a_pair_of_a_solvent_that_is_absent_does_not_show(self):
        """But in ln gamma of that solvent, which task 1 has too."""
        library = desk.Library(YARD.content)
        words = pair_words(0, 2, Pair((5.0, 0.0, 0.0, 0.0), (7.0, 0.0, 0.0, 0.0), (0.3, 0.0)))
        offered = sealed(words, library.rule)
        for task in range(2, 8):
            for fractions, shows in (((0.4, 0.6), False), ((0.4, 0.2, 0.4), True)):
                question = replace(NINE[task], fractions=fractions + (0.0,) * (6 - len(fractions)))
                asked = question.block(library.rule)
                self.assertEqual(library.preview_bytes(asked, offered) != library.ask_bytes(asked), shows, task)

    def test_what_a_preview_asks(self):
        """`Preview` as a core: plainly, with drums and with many feeds."""
        pair = Pair((0.3, -20.0, 0.0, 0.0), (0.1, 500.0, 0.0, 0.0), (0.25, 0.0))
        sample = desk.open_yard(str(ROOT / "yard" / "sample.txt")).book
        copy = encode(replace(sample, pairs=(pair,)), 1)
        for core in (desk.Library(SAMPLE_BOOK), desk.Core(SAMPLE_BOOK)):
            with Preview(core, sealed(pair_words(0, 1, pair))) as preview, desk.Library(copy) as plain:
                self.assertEqual((preview.refusal, preview.of_the_book, preview.book), (0, False, copy))
                for question in NINE.values():
                    self.assertEqual(preview.ask(question), plain.ask(question))
                drums, feeds = [(3, 1), (4, 9)], [(0.5, 0.5), (0.5, 0.4), (0.1, 0.9)]
                self.assertEqual(preview.ask_pooled(NINE[7], drums), plain.ask_pooled(NINE[7], drums))
                self.assertEqual(preview.ask_feeds(NINE[7], feeds), plain.ask_feeds(NINE[7], feeds))

    def test_whose_number_it_is(self):
        """A book that is refused keeps its number, whatever is offered; else it is the offered block's."""
        broken = SAMPLE_BOOK[:600] + b"\1" + SAMPLE_BOOK[601:]
        words = words_of(OWN)
        uneven = sealed(words[:13] + [7] + words[14:63])
        for core in (desk.Library, desk.Core):
            with Preview(core(broken), uneven) as preview:
                self.assertEqual((preview.refusal, preview.of_the_book), (0, True))
                self.assertEqual(preview.ask(NINE[7]).head[:3], [9, 0, 2])
            with Preview(core(SAMPLE_BOOK), uneven) as preview:
                self.assertEqual((preview.refusal, preview.of_the_book), (9, False))
                self.assertEqual(preview.ask(NINE[7]).head[:3], [9, 0, 9])


class Bytes(unittest.TestCase):
    """The call itself."""

    def setUp(self) -> None:
        self.call = ctypes.CDLL(str(LIBRARY)).zektonk_preview
        self.call.argtypes = [ctypes.c_char_p, ctypes.c_size_t] * 4
        self.call.restype = ctypes.c_uint64

    def asked(self, offered: bytes, question: bytes = NINE[7].block(), length: int = ANSWER_ROOM, book=SAMPLE_BOOK):
        """The number, and the answer slice. The book is the same afterwards."""
        room = ctypes.create_string_buffer(FILLED, len(FILLED))
        lent = ctypes.create_string_buffer(book, len(book))
        number = self.call(lent, len(book), offered, len(offered), question, len(question), room, length)
        self.assertEqual(lent.raw, book)
        return number, room.raw

    def assert_refused(self, number: int, *asked, **settings) -> None:
        self.assertEqual(self.asked(*asked, **settings), (number, FILLED))

    def changed(self, at: int, value: int, *others) -> bytes:
        words = words_of(OWN)[:63]
        for place, word in ((at, value), *others):
            words[place] = word
        return sealed(words)

    def test_exactly_one_block(self):
        for offered in (b"", OWN[:1], OWN[:511], OWN + b"\0", OWN + OWN, OWN * 3):
            self.assert_refused(1, offered)
            self.assert_refused(1, offered, b"", 0)

    def test_check_by_the_books_rule(self):
        self.assert_refused(2, OWN[:-8] + bytes(8))
        self.assert_refused(2, sealed(words_of(OWN)[:63], Rule.RUNNING))
        running = sealed(pair_words(0, 1, Pair((0.0,) * 4, (0.0,) * 4, (0.3, 0.0))), Rule.RUNNING)
        yard = {"question": NINE[7].block(Rule.RUNNING), "book": YARD.content}
        self.assertEqual(self.asked(running, **yard)[0], 0)
        self.assert_refused(2, sealed(words_of(running)[:63]), **yard)

    def test_places(self):
        """Any i < j below n, in the block's own place."""
        n, zeros = 6, Pair((0.0,) * 4, (0.0,) * 4, (0.3, 0.0))
        yard = {"question": NINE[7].block(Rule.RUNNING), "book": YARD.content}
        for i in range(n + 2):
            for j in range(n + 2):
                offered = sealed(pair_words(i, j, zeros), Rule.RUNNING)
                number, room = self.asked(offered, **yard)
                self.assertEqual(number, 0 if i < j < n else 7, (i, j))
                if number == 0:
                    due = desk.Library(copy_of(YARD.content, offered)).ask_bytes(yard["question"])
                    self.assertEqual(room, due + FILLED[len(due) :])
        for at, value in ((0, 2), (0, 8), (1, 1), (2, 0), (2, 2), (2, 2**64 - 1), (1, 2**63), (15, 2), (18, 2)):
            self.assert_refused(7, self.changed(at, value))
        for at in (15, 18):
            self.assertEqual(self.asked(self.changed(at, 0))[0], 0)

    def test_numbers_and_alphas(self):
        for at in range(3, 15):
            self.assert_refused(8, self.changed(at, INFINITY))
        for at in (16, 17):
            self.assert_refused(8, self.changed(at, INFINITY))
            self.assertEqual(self.asked(self.changed(at, INFINITY, (15, 0)))[0], 0)
        for at in range(11, 15):
            self.assert_refused(9, self.changed(at, bits_of(0.31)))
        self.assertEqual(self.asked(self.changed(12, bits_of(-0.0)))[0], 0)
        wilson = split(ALCOHOLS.content)[6][:63]
        for at in range(3, 15):
            offered = sealed(wilson[:at] + [INFINITY] + wilson[at + 1 :], Rule.RUNNING)
            number = self.asked(offered, NINE[7].block(Rule.RUNNING), book=ALCOHOLS.content)[0]
            self.assertEqual(number, 8 if at < 7 else 0, at)

    def test_order(self):
        """The book's numbers, then the offered block's 1, 2, 7, 8 and 9, then 10, 11 and on."""
        head, rest = split(SAMPLE_BOOK)[0], SAMPLE_BOOK[512:]
        own = split(OWN)[0][:63]
        damaged = SAMPLE_BOOK[: 3 * BLOCK] + sealed(own[:15] + [2] + own[16:])
        for book, number in (
            (b"", 1),
            (sealed([1, 4, *head[2:63]]) + rest, 38),
            (sealed([1, 1, 9, *head[3:63]]) + rest, 3),
            (sealed([1, 1, 2, 1, *head[4:63]]) + rest, 37),
            (sealed([1, 2, *head[2:63]]) + rest, 35),
            (damaged, 7),
        ):
            for offered in (OWN, b"", OWN[:-8] + bytes(8)):
                self.assert_refused(number, offered, b"", 0, book)
        wrong = [(0, 2), (3, INFINITY), (13, 7)]  # 7, 8 and 9
        for k, number in enumerate((7, 8, 9)):
            self.assert_refused(number, self.changed(*wrong[k], *wrong[k + 1 :]), b"", 0)
        self.assert_refused(2, self.changed(*wrong[0])[:-8] + bytes(8), b"", 0)
        self.assert_refused(10, OWN, b"", ANSWER_ROOM - 1)
        self.assert_refused(11, OWN, b"")
        self.assert_refused(12, OWN, sealed([8, 10]))
        self.assert_refused(36, OWN, replace(NINE[7], by_mass=True).block())
        self.assert_refused(24, self.changed(11, bits_of(-1.0), (13, bits_of(-1.0))))

    def test_one_solvent(self):
        sample = desk.open_yard(str(ROOT / "yard" / "sample.txt")).book
        book = encode(replace(sample, solvents=sample.solvents[:1], pairs=()), 1)
        question = replace(NINE[2], fractions=(1.0,)).block()
        self.assertEqual(desk.Library(book).ask_block(question).refusal, 0)
        for i, j in ((0, 0), (0, 1), (1, 2)):
            self.assert_refused(7, self.changed(1, i, (2, j)), question, book=book)
        self.assert_refused(1, b"", question, book=book)


class Sheets(InFolder):
    """`./sheet --try` over the library's call and over the program: the same sheet."""

    def test_one_sheet(self):
        tried = ("--try", str(ROOT / "yard" / "try.txt"), "--details")
        at = ("--temperature", "76C", "--pressure", "1bar")
        for asked in (
            ("flash", "--drum", "ethanol=0.5,water=0.3,acetone=0.2", *at, "--json"),
            ("flash", "--drum", "ethanol=4kg", "--drum", "water=3mol", *at),
            ("dew-temperature", "--mass", "ethanol=0.5,water=0.5", "--pressure", "1atm"),
            ("layers", "--pair", "ethanol,water", "--temperature", "25C"),
            ("bubble-pressure", "--drums", str(ROOT / "yard" / "week.csv"), "--temperature", "72C", "--json"),
            ("strike", "excess", "--drum", "ethanol=0.5,water=0.5", "--temperature", "72C"),
        ):
            calls, real = [], desk.Library.ask_preview

            def counted(library, block, offered):
                calls.append(len(offered))
                return real(library, block, offered)

            with mock.patch.dict(os.environ, {"SOURCE_DATE_EPOCH": "1794821400"}):
                with mock.patch.object(desk.Library, "ask_preview", counted):
                    found = sheet(*asked, *tried)
                self.assertIn(found[0], (0, 1))
                self.assertGreater(len(calls), 1)
                with mock.patch.dict(os.environ, {"ZEKTONK_LIB": str(self.folder)}):
                    self.assertEqual(sheet(*asked, *tried), found)


if __name__ == "__main__":
    unittest.main()
