"""Many feeds in one call: the library's call on all of them, and the plain call on each, which is how whoever runs
`still` asks. The same answers, to a bit."""

import ctypes
import os
import random
import unittest
from dataclasses import replace
from unittest import mock

import desk
from desk.batch import FEED_BYTES, MOST_FEEDS, PART, TASKS, CallRefused, bytes_of
from desk.blocks import Rule, rule_of, sealed, split
from desk.openbook import open_book
from desk.question import MASS
from nine import NINE, SAMPLE_BOOK, WRONG_BOOKS
from support import ANSWER_ROOM, BLOCK, LIBRARY, ROOT, InFolder, sheet

YARD, ALCOHOLS = (open_book(str(ROOT / "yard" / name)) for name in ("yard.txt", "alcohols.txt"))
COUNT = 40
FILLED = bytes((7 * k + 3) % 256 for k in range(65 * ANSWER_ROOM))


def feeds_of(source: random.Random, n: int):
    """1 to 64 feeds, some of their solvents absent; about one in eight is refused."""
    found = []
    for _ in range(source.choice((1, 2, 5, 64))):
        parts = [source.random() if source.random() < 0.7 else source.choice((0.0, -0.0)) for _ in range(n)]
        total = sum(parts) or 1.0
        feed = [part / total for part in parts]
        if source.random() < 0.12:
            feed[source.randrange(n)] = source.choice((2.0, -0.1, float("nan"), float("inf")))
        found.append(tuple(feed) + tuple(source.choice((0.0, 7.0, float("nan"))) for _ in range(8 - n)))
    return found


def questions(source: random.Random):
    """Of all tasks; most of those that take many feeds, some that no feed passes."""
    for _ in range(COUNT):
        yield desk.Question(
            source.choice(TASKS if source.random() < 0.9 else desk.TASKS),
            (3.0, 3.0),  # not read
            source.choice((-1.0, 260.0, *[source.uniform(280.0, 440.0)] * 8)),
            10 ** source.uniform(3.0, 5.7),
            options=desk.Options(max_iterations=source.choice((0, 3, 500, 500, 500))),
            by_mass=source.random() < 0.3,
        )


class AsPlain(unittest.TestCase):
    """Each feed as by a call on its own, by calls."""

    def test_feeds_of_both_yards(self):
        numbers = []
        for book in (YARD.content, ALCOHOLS.content, SAMPLE_BOOK):
            n, source = desk.book.solvent_count(book), random.Random(7)
            with desk.Library(book) as library, desk.Core(book) as program:
                for question in questions(source):
                    feeds = feeds_of(source, n)
                    found = library.ask_feeds(question, feeds)
                    self.assertEqual(len(found), len(feeds))
                    if question.task in TASKS:
                        alone = [library.ask(replace(question, fractions=feed)) for feed in feeds]
                        self.assertEqual(found, alone, question)
                    few = feeds[:3]
                    self.assertEqual(library.ask_feeds(question, few), program.ask_feeds(question, few), question)
                    numbers += [blocks.refusal for blocks in found]
        self.assertGreater(numbers.count(0), 10 * COUNT)
        self.assertTrue({12, 13, 15, 16, 18, 20, 22, 36} <= set(numbers), set(numbers))

    def test_sixty_four_and_their_order(self):
        library, rows = desk.Library(SAMPLE_BOOK), [(k / 63, 1 - k / 63) for k in range(64)]
        for task in TASKS:
            found = library.ask_feeds(NINE[task.number], rows)
            self.assertEqual(found, [library.ask(replace(NINE[task.number], fractions=row)) for row in rows])
            turned = library.ask_feeds(NINE[task.number], rows[::-1])
            self.assertEqual(turned, found[::-1])

    def test_nothing_is_kept(self):
        """A call between two others, at another temperature, changes nothing."""
        library, rows = desk.Library(YARD.content), [(0.5, 0.5), (0.2, 0.3, 0.5)]
        due = library.ask_feeds(NINE[7], rows)
        library.ask_feeds(replace(NINE[7], temperature=300.0), rows)
        self.assertEqual(library.ask_feeds(NINE[7], rows), due)

    def test_refused_ahead_of_the_feeds(self):
        """The book's numbers, then 33: what ends the whole call."""
        for book, number in (*WRONG_BOOKS, (SAMPLE_BOOK, 33)):
            for feeds in ([], [(1.0, 0.0)] * 65, *([[(1.0, 0.0)]] if number != 33 else [])):
                for core in (desk.Library(book), desk.Core(book)):
                    with core, self.assertRaises(CallRefused) as refused:
                        core.ask_feeds(replace(NINE[7], temperature=-1.0), feeds)
                    self.assertEqual(refused.exception.number, number)


class Bytes(unittest.TestCase):
    """The call itself."""

    def setUp(self) -> None:
        self.call = ctypes.CDLL(str(LIBRARY)).zektonk_feeds
        self.call.argtypes = [ctypes.c_char_p, ctypes.c_size_t] * 4
        self.call.restype = ctypes.c_uint64

    def asked(self, question: bytes, feeds: bytes, length: int, book: bytes = SAMPLE_BOOK):
        """The number, and the answer slice."""
        room = ctypes.create_string_buffer(FILLED, len(FILLED))
        number = self.call(book, len(book), question, len(question), feeds, len(feeds), room, length)
        return number, room.raw

    def test_feeds_that_are_not_whole(self):
        """33 with every byte as it was, ahead of 10 and 11 and whatever the room."""
        whole = bytes_of([(0.5, 0.5)] * 65)
        for length in (0, 1, 63, 65, 127, 64 * 64 - 1, 64 * 64 + 1, 64 * 65):
            for question, room in ((NINE[7].block(), len(FILLED)), (b"", 0)):
                self.assertEqual(self.asked(question, whole[:length], room), (33, FILLED), length)
                self.assertEqual(self.asked(question, whole[:length], room, b"")[0], 1)

    def test_room(self):
        """4,608 bytes for each feed; 10 ahead of 11."""
        for count in (1, 2, 63, 64):
            feeds = bytes_of([(0.5, 0.5)] * count)
            self.assertEqual(self.asked(NINE[2].block(), feeds, PART * count)[0], 0)
            for question in (NINE[2].block(), b""):
                for short in (PART * count - 1, PART * (count - 1), 0):
                    self.assertEqual(self.asked(question, feeds, short), (10, FILLED))

    def test_every_byte(self):
        """Each feed's blocks at the front of its own bytes, a refusal's too; all others as they were."""
        rows = [(0.5, 0.5), (0.5, 0.4), (0.1, 0.9), (float("nan"), 1.0), (1.0, 0.0)]
        library = desk.Library(SAMPLE_BOOK)
        for task in TASKS:
            number, room = self.asked(NINE[task.number].block(), bytes_of(rows), PART * len(rows) + 100)
            due = FILLED
            for k, row in enumerate(rows):
                blocks = library.ask_bytes(replace(NINE[task.number], fractions=row).block())
                due = due[: PART * k] + blocks + due[PART * k + len(blocks) :]
            self.assertEqual(number, 0)
            self.assertTrue(room == due, task)

    def test_questions_that_no_feed_passes(self):
        """11 and 12 in a block with task 0; 36 and 13 with the question's."""
        two = bytes_of([(0.5, 0.5), (7.0, 7.0)])
        hot, mass = replace(NINE[7], temperature=-1.0), replace(NINE[7], by_mass=True)
        for question, task, number in (
            (b"", 0, 11),
            (NINE[7].block()[:-1], 0, 11),
            (NINE[7].block(Rule.RUNNING), 0, 11),
            (NINE[4].block(), 0, 12),
            (NINE[5].block(), 0, 12),
            (NINE[8].block(), 0, 12),
            (NINE[9].block(), 0, 12),
            (sealed([8, 10]), 0, 12),
            (mass.block(), 7, 36),
            (hot.block(), 7, 13),
        ):
            block = sealed([9, task, number])
            due = block + FILLED[BLOCK:PART] + block + FILLED[PART + BLOCK :]
            self.assertEqual(self.asked(question, two, 2 * PART), (0, due), number)

    def test_what_is_under_the_check(self):
        """Fractions of the question that aren't read count in its check; what stands behind the book's solvents in a
        feed is not read."""
        words, feeds = split(NINE[7].block())[0], bytes_of([(0.5, 0.5)])
        due = self.asked(NINE[7].block(), feeds, PART)
        self.assertEqual(self.asked(sealed(words[:4] + [7] * 8 + words[12:63]), feeds, PART), due)
        self.assertEqual(self.asked(NINE[7].block(), bytes_of([(0.5, 0.5, *[float("nan")] * 6)]), PART), due)
        broken = bytearray(NINE[7].block())
        broken[40] ^= 1
        self.assertEqual(split(self.asked(bytes(broken), feeds, PART)[1][:BLOCK])[0][:3], [9, 0, 11])

    def test_rules(self):
        """A version 3 book takes a question with running sums; blocks of answers and refusals have them too."""
        book = YARD.content
        self.assertEqual(rule_of(book), Rule.RUNNING)
        feeds = bytes_of([(0.5, 0.5), (0.5, 0.4)])
        number, room = self.asked(NINE[1].block(Rule.RUNNING), feeds, 2 * PART, book)
        self.assertEqual(number, 0)
        self.assertEqual(room[:BLOCK], desk.Library(book).ask_bytes(NINE[1].block(Rule.RUNNING)))
        self.assertEqual(room[PART : PART + BLOCK], sealed([9, 1, 18], Rule.RUNNING))
        _, room = self.asked(NINE[1].block(), feeds, 2 * PART, book)
        self.assertEqual(room[:BLOCK], sealed([9, 0, 11], Rule.RUNNING))

    def test_mass(self):
        """Word 27 of the question is that of all feeds."""
        book, rows = YARD.content, [(0.7, 0.3), (0.2, 0.8)]
        by_mass = replace(NINE[2], by_mass=True)
        self.assertEqual(split(by_mass.block())[0][27], MASS)
        found = desk.Library(book).ask_feeds(by_mass, rows)
        self.assertEqual(found, [desk.Library(book).ask(replace(by_mass, fractions=row)) for row in rows])
        self.assertNotEqual(found, desk.Library(book).ask_feeds(NINE[2], rows))

    def test_sizes(self):
        self.assertEqual((FEED_BYTES, MOST_FEEDS, PART), (64, 64, ANSWER_ROOM))


class Sheets(InFolder):
    """`./sheet` over the library, which takes 64 at a time, and over the program: the same sheet."""

    def test_one_sheet(self):
        source, lines = random.Random(2), ["label,water,ethanol,acetone,toluene"]
        for k in range(70):
            parts = [source.random() if source.random() < 0.6 else 0.0 for _ in range(4)]
            total = sum(parts) or 1.0
            lines.append(f"d{k}," + ",".join(repr(part / total) for part in parts))
        path = self.folder / "list.csv"
        path.write_text("\n".join(lines) + "\n", encoding="utf-8")
        for command in (("flash", "--pressure", "1bar"), ("stability",)):
            asked = (*command, "--drums", str(path), "--temperature", "72C", "--json", "--details")
            calls, real = [], desk.Library.ask_feeds

            def counted(library, question, feeds):
                calls.append(len(feeds))
                return real(library, question, feeds)

            with mock.patch.dict(os.environ, {"SOURCE_DATE_EPOCH": "1794821400"}):
                with mock.patch.object(desk.Library, "ask_feeds", counted):
                    found = sheet(*asked)
                self.assertEqual(calls, [64, 6])
                with mock.patch.dict(os.environ, {"ZEKTONK_LIB": str(self.folder)}):
                    self.assertEqual(sheet(*asked), found)


if __name__ == "__main__":
    unittest.main()
