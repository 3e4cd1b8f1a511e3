"""Where a book said no, and what is said of it: the calls with a place through the shared library, the program `still`,
which writes the sentence, and the package's own phrases. The same place and the same sentence."""

import ctypes
import random
import unittest
from dataclasses import replace

import desk
from desk import library, places, preview, refusals
from desk.batch import CallRefused
from desk.blocks import Rule, joined, packed, rule_of, sealed, split
from desk.places import NOWHERE, OFFERED, Place
from nine import NINE, SAMPLE_BOOK
from support import LIBRARY, ROOT

YARD = desk.encode(desk.open_yard(str(ROOT / "yard" / "yard.txt")).book)
ALCOHOLS = desk.encode(desk.open_yard(str(ROOT / "yard" / "alcohols.txt")).book)
INFINITY = 0x7FF0000000000000
COUNT = 150
ROOM = 4608
CALLS = ("answer", "pooled", "feeds", "preview", "queue", "distance")


def due(book: bytes, number: int) -> Place:
    """By the text of docs/FORMAT.md, a block at a time."""
    blocks, rule = split(book), rule_of(book)
    if number == 2:
        return Place(1, next(k for k, words in enumerate(blocks) if not desk.blocks.check_right(words, rule)))
    n = blocks[0][2]
    if number == 6:
        cas = [words[2] for words in blocks[1 : 1 + n]]
        return Place(2, *next((i, j) for i in range(n) for j in range(i + 1, n) if cas[i] == cas[j]))
    if number in (4, 5):
        return Place(1, next(k for k in range(1, 1 + n) if alone(blocks, k, n) == number))
    if number in (7, 8, 9):
        return Place(1, next(k for k in range(1 + n, len(blocks)) if alone(blocks, k, n) == number))
    return NOWHERE


def alone(blocks, k: int, n: int) -> int:
    """What the core says of a book in which block k alone is as here, all others being right."""
    whole = [list(words) for words in RIGHT[len(blocks)]]
    whole[0] = list(blocks[0])
    whole[k] = list(blocks[k])
    return desk.Library(joined(whole)).ask_block(b"").refusal


RIGHT = {len(split(book)): split(book) for book in (YARD, ALCOHOLS, SAMPLE_BOOK)}


def damaged(source: random.Random) -> bytes:
    """One to four words changed, the checks made right again or not; now and then a block more or less."""
    blocks = [list(words) for words in split(source.choice((YARD, ALCOHOLS, SAMPLE_BOOK)))]
    n, seal = blocks[0][2], source.random() < 0.8
    kept = [packed(words)[-8:] for words in blocks]
    for _ in range(source.choice((1, 1, 1, 2, 3, 4))):
        words = blocks[source.randrange(1, len(blocks))]
        solvent = words[0] == 2
        at, value = source.choice(
            [(0, 7), (1, 9), (3, INFINITY), (4, INFINITY)]
            + ([(2, blocks[source.randint(1, n)][2]), (5, 0)] if solvent else [(12, 1), (13, 1), (18, 3)])
        )
        words[at] = value
    if not seal:
        return b"".join(packed(words)[:-8] + check for words, check in zip(blocks, kept))
    return joined(blocks)


class Same(unittest.TestCase):
    def test_places_of_damaged_books(self):
        """By the library and by the program, and where a plain search finds it."""
        seen = dict.fromkeys(range(1, 10), 0)
        source = random.Random(14)
        for _ in range(COUNT):
            book = damaged(source)
            with desk.Library(book) as core, desk.Core(book) as program:
                found, other = core.ask(NINE[1]), program.ask(NINE[1])
            self.assertEqual(found, other)
            self.assertEqual(found.sentence, other.sentence)
            if found.refusal in seen:
                self.assertEqual(found.place, due(book, found.refusal), book.hex())
                seen[found.refusal] += 1
        self.assertTrue(all(seen[number] > 2 for number in (2, 4, 5, 6, 7, 8, 9)), seen)

    def test_each_call_gives_the_place(self):
        """As the plain call does."""
        source = random.Random(15)
        for _ in range(COUNT // 5):
            book = damaged(source)
            core, n = desk.Library(book), split(book)[0][2]
            plain = core.ask(NINE[7])
            if plain.refusal not in desk.batch.OF_THE_BOOK:
                continue
            feed = (1.0,) + (0.0,) * (n - 1)
            flash = replace(NINE[7], fractions=feed)
            self.assertEqual(core.ask_pooled(flash, [(1,) * 8]), plain)
            self.assertEqual(core.ask_preview(flash.block(core.rule), b""), plain)
            for call, more in ((core.ask_feeds, ([feed],)), (core.ask_queue, ()), (core.ask_distance, ())):
                with self.assertRaises(CallRefused) as caught:
                    call(*([[flash], 99] if call == core.ask_queue else [flash, *more]))
                refused = caught.exception
                self.assertEqual((refused.number, refused.place), (plain.refusal, plain.place))
                self.assertEqual(refused.said, plain.said)

    def test_offered_blocks(self):
        pair = split(SAMPLE_BOOK)[3]
        for at, value, number in ((1, 1, 7), (3, INFINITY, 8), (13, 1, 9), (0, 2, 7)):
            words = list(pair[:63])
            words[at] = value
            self.assert_offered(sealed(words), number)
        self.assert_offered(sealed(pair[:63], Rule.RUNNING), 2)
        self.assert_offered(b"", 1)
        self.assert_offered(sealed(pair[:63]) * 2, 1)

    def assert_offered(self, offered: bytes, number: int) -> None:
        with desk.Library(SAMPLE_BOOK) as core, desk.Core(SAMPLE_BOOK) as program:
            found = core.ask_preview(NINE[7].block(), offered)
            self.assertEqual((found.refusal, found.place), (number, OFFERED))
            self.assertEqual(program.ask_preview(NINE[7].block(), offered), found)
            self.assertEqual(program.ask_preview(NINE[7].block(), offered).sentence, found.sentence)
            self.assertEqual(found.sentence, f"{number}: {refusals.matter(number)} (the offered block).")
        self.assertEqual(preview.refusal_of(offered, SAMPLE_BOOK), number)

    def test_a_question_has_no_place(self):
        for question in (replace(NINE[7], pressure=1.0), replace(NINE[7], fractions=(0.5, 0.4))):
            with desk.Library(SAMPLE_BOOK) as core, desk.Core(SAMPLE_BOOK) as program:
                found = core.ask(question)
                self.assertEqual((found.place, found.said), (NOWHERE, refusals.sentence(found.refusal)))
                self.assertEqual(program.ask(question).said, found.said)
                for blocks in core.ask_feeds(question, [question.fractions]) + core.ask_queue([question], 9999):
                    self.assertEqual((blocks.place, blocks.said), (NOWHERE, found.said))


class Phrases(unittest.TestCase):
    """The package's phrases are the core's."""

    def test_every_number_and_place(self):
        every = [NOWHERE, OFFERED, *(Place(1, k) for k in (*range(41), 2**64 - 1))]
        every += [Place(2, i, j) for i in range(8) for j in range(i + 1, 8)]
        said = set()
        for number in refusals.REFUSALS:
            for place in every:
                found = library.sentence(number, place)
                kept = place if places.read(found) != NOWHERE else NOWHERE
                self.assertEqual(found, refusals.sentence(number, kept))
                self.assertEqual(places.read(found), kept)
                said.add(found)
        self.assertEqual(len(said), 39 + 6 * 42 + 28 + 5)

    def test_no_refusal(self):
        for number in (0, 40, 2**64 - 1):
            self.assertRaisesRegex(desk.DeskError, f"{number} is no refusal number", library.sentence, number)


class Bytes(unittest.TestCase):
    """The calls themselves."""

    def setUp(self) -> None:
        self.core = ctypes.CDLL(str(LIBRARY))

    def call(self, name: str, book: bytes, room: int, question: bytes = NINE[7].block()):
        """The number, and the words lent for the place afterwards."""
        size = ctypes.c_size_t
        words = (ctypes.c_uint64 * 6)(*range(100, 106))
        answer = (ctypes.c_uint64 * 4)() if name == "distance" else ctypes.create_string_buffer(ROOM)
        between = {"pooled": [(b"\1" + bytes(7)) * 8], "feeds": [bytes(64)]}.get(name, [])
        slices = [book, *([b""] if name == "preview" else []), question, *between]
        lent = [part for lent in slices for part in (lent, size(len(lent)))]
        lent += [ctypes.c_uint64(9)] if name == "queue" else []
        lent += [answer, size(4 if name == "distance" else ROOM), words, size(room)]
        call = self.core[f"zektonk_{name}_placed"]
        call.restype = ctypes.c_uint64
        return call(*lent), list(words)

    def test_words_that_stay(self):
        """The first three where three or more are lent, 0 0 0 with an answer and with a number of no place."""
        before = list(range(100, 106))
        blocks = split(SAMPLE_BOOK)
        blocks[3][15] = 2
        twice = [list(words) for words in split(SAMPLE_BOOK)]
        twice[2][2] = twice[1][2]
        offered = [3, 0, 0]
        for book, number, words in (
            (joined(blocks), 7, [1, 3, 0]),
            (joined(twice), 6, [2, 0, 1]),
            (b"", 1, [0, 0, 0]),
            (SAMPLE_BOOK, 0, [0, 0, 0]),
        ):
            for name in CALLS:
                of_offered = name == "preview" and number == 0
                for room in range(7):
                    found, after = self.call(name, book, room)
                    expected = (offered if of_offered else words) + before[3:] if room >= 3 else before
                    self.assertEqual((found, after), (1 if of_offered else number, expected), (name, room))

    def sentence(self, number: int, words, room: int):
        """The number, and the text and its length afterwards."""
        call, size = self.core.zektonk_sentence, ctypes.c_size_t
        call.restype = ctypes.c_uint64
        place = (ctypes.c_uint64 * len(words))(*words) if words else None
        text, length = ctypes.create_string_buffer(b"~" * 400, 400), ctypes.c_uint64(77)
        found = call(ctypes.c_uint64(number), place, size(len(words)), text, size(room), ctypes.byref(length))
        return found, text.raw, length.value

    def test_sentences(self):
        """1, then 10, with nothing written; fewer than three words and another kind are no place."""
        most = 2**64 - 1
        lent = ([], [1], [1, 5], [1, 5, 0], [1, 5, 0, 9], [2, 0, 3], [3, 0, 0], [0, 5, 5], [4, 5, 5], [most] * 3)
        for number in (*range(41), 2**32 + 7, most):
            for words in lent:
                place = Place(*words[:3]) if len(words) >= 3 and words[0] in (1, 2, 3) else NOWHERE
                for room in (0, 159, 160, 161, 400):
                    found = self.sentence(number, words, room)
                    if not 1 <= number <= 39 or room < 160:
                        self.assertEqual(found, (10 if 1 <= number <= 39 else 1, b"~" * 400, 77))
                        continue
                    said = library.sentence(number, place).encode("ascii")
                    self.assertEqual(found, (0, said + b"~" * (400 - len(said)), len(said)))

    def test_null_with_length_0(self):
        self.assertEqual(self.sentence(5, [], 160)[1][:3], b"5: ")
        answer = self.core.zektonk_answer_placed
        answer.restype = ctypes.c_uint64
        self.assertEqual(answer(*[None, ctypes.c_size_t(0)] * 4), 1)


if __name__ == "__main__":
    unittest.main()
