"""What the floor is shown of an answer and what the lab is: the core's readers through the shared library, beside those
of the package and beside the answer's own words."""

import ctypes
import os
import random
import unittest
from unittest import mock

import desk
from desk import library, readers
from desk.blocks import Rule, sealed, words_of
from nine import NINE, SAMPLE_BOOK
from support import ANSWER_ROOM, BLOCK, LIBRARY, ROOT, STILL, InFolder, sheet

PLACES = (*range(1, 6), 11, *range(14, 30))
COUNT = 3000


def due(content: bytes):
    """The floor's words and the lab's bytes by the text of docs/FORMAT.md; None for number 1."""
    blocks = [words_of(content[at : at + BLOCK]) for at in range(0, len(content) - BLOCK + 1, BLOCK)]
    if not blocks or blocks[0][0] != 9 or blocks[0][12] > 8:
        return None
    head, trials = blocks[0], blocks[1 : 1 + blocks[0][12]]
    if len(trials) < head[12] or any(trial[0] != 10 for trial in trials):
        return None
    words = tuple(0 if head[1] == 1 and at > 5 else head[at] for at in PLACES)
    return words, content[: BLOCK * (1 + head[12])]


def answers():
    """Of every task, and a refusal."""
    core = desk.Library(SAMPLE_BOOK)
    return [core.ask_bytes(question.block()) for question in NINE.values()] + [core.ask_bytes(b"")]


def slices(source: random.Random):
    """Whole, cut, damaged, with anything behind; and blocks with 0 to 10 trials."""
    written = answers()
    for _ in range(COUNT):
        content = bytearray(source.choice(written))
        if source.random() < 0.3:
            count = source.randint(0, 10)
            kinds = [9] + [10] * count
            blocks = [[kind, *(source.getrandbits(64) for _ in range(62))] for kind in kinds]
            blocks[0][1], blocks[0][12] = source.randint(0, 9), source.choice((count, count, count + 1, 9, 2**64 - 1))
            content = bytearray(b"".join(sealed(words, source.choice(list(Rule))) for words in blocks))
        change = source.random()
        if change < 0.2:
            del content[source.randint(0, len(content)) :]
        elif change < 0.4:
            content += source.randbytes(source.randint(0, 2000))
        elif change < 0.7:
            at = 8 * source.choice((0, 1, 12, 63, 64, 128, source.randrange(len(content) // 8)))
            word = source.choice((0, 1, 2, 8, 9, 10, 2**32 + 9, 2**64 - 1))
            if at < len(content):
                content[at : at + 8] = word.to_bytes(8, "little")
        yield bytes(content)


class Same(unittest.TestCase):
    def test_by_the_core_and_by_the_package(self):
        read, refused = 0, 0
        for content in slices(random.Random(5)):
            expected = due(content)
            for module in (library, readers, desk):
                if expected is None:
                    self.assertRaisesRegex(desk.NoAnswer, "number 1", module.floor, content)
                    self.assertRaises(desk.NoAnswer, module.lab, content)
                else:
                    self.assertEqual((module.floor(content).words, module.lab(content)), expected)
            read, refused = read + (expected is not None), refused + (expected is None)
        self.assertGreater(min(read, refused), COUNT // 5)

    def test_every_task(self):
        for task, content in zip(NINE, answers()):
            floor, head = desk.floor(content), words_of(content[:BLOCK])
            self.assertEqual((floor.task, floor.refusal, floor.outcome), (task, 0, head[3]))
            self.assertEqual(desk.lab(content + bytes(700)), content)
            shown = floor.blocks().head
            self.assertEqual([at for at in range(64) if shown[at] and at not in (0, *PLACES)], [])
            if task == 1:
                self.assertTrue(head[14] and not any(floor.words[5:]))
            else:
                self.assertEqual([shown[at] for at in PLACES], [head[at] for at in PLACES])
        stored = (STILL / "stdout").read_bytes()
        self.assertEqual(desk.lab(stored), stored)

    def test_refusals_and_what_is_put_off_are_read(self):
        core = desk.Library(SAMPLE_BOOK)
        question = desk.Question(desk.FLASH, (), temperature=351.44, pressure=90000.0)
        for blocks, number in zip(core.ask_feeds(question, [(0.5, 0.5), (0.5, 0.4)]), (0, 18)):
            self.assertEqual((desk.floor(blocks.content).refusal, desk.lab(blocks.content)), (number, blocks.content))
        for rule in Rule:
            self.assertEqual(desk.floor(sealed([9, 7, 0, 4], rule)).outcome, 4)


class Bytes(unittest.TestCase):
    """The calls themselves."""

    def setUp(self) -> None:
        self.core = ctypes.CDLL(str(LIBRARY))
        self.core.zektonk_floor.argtypes = [
            ctypes.c_char_p, ctypes.c_size_t, ctypes.POINTER(ctypes.c_uint64), ctypes.c_size_t
        ]
        self.core.zektonk_floor.restype = ctypes.c_uint64
        self.core.zektonk_lab.argtypes = [ctypes.c_char_p, ctypes.c_size_t]
        self.core.zektonk_lab.restype = ctypes.c_size_t

    def floor(self, content: bytes, room: int):
        """The number, and the words afterwards; the answer is the same."""
        words = (ctypes.c_uint64 * 30)(*range(100, 130))
        lent = ctypes.create_string_buffer(content, max(len(content), 1))
        number = self.core.zektonk_floor(lent, len(content), words, room)
        self.assertEqual(lent.raw[: len(content)], content)
        return number, list(words)

    def test_words_that_stay(self):
        before = list(range(100, 130))
        for content in (*answers(), b"", bytes(BLOCK), answers()[6][:-1]):
            expected = due(content)
            for room in range(31):
                number, after = self.floor(content, room)
                if expected is None:
                    self.assertEqual((number, after), (1, before))
                elif room < 22:
                    self.assertEqual((number, after), (10, before))
                else:
                    self.assertEqual((number, after), (0, [*expected[0], *before[22:]]))
            self.assertEqual(self.core.zektonk_lab(content, len(content)), len(expected[1]) if expected else 0)

    def test_null_with_length_0(self):
        self.assertEqual(self.core.zektonk_floor(None, 0, None, 0), 1)
        self.assertEqual(self.core.zektonk_lab(None, 0), 0)
        content = answers()[6]
        self.assertEqual(self.core.zektonk_floor(content, len(content), None, 0), 10)
        self.assertEqual(len(content), self.core.zektonk_lab(content, len(content)))
        self.assertLessEqual(len(content), ANSWER_ROOM)


class Sheets(InFolder):
    """`./sheet --floor` over the library's reader and over the package's: the same sheet."""

    def test_one_sheet(self):
        at = ("--temperature", "72C", "--pressure", "1bar")
        for asked in (
            ("flash", "--drum", "ethanol=0.5,water=0.3,acetone=0.2", *at),
            ("flash", "--drum", "ethanol=0.5,water=0.3,acetone=0.2", *at, "--json"),
            ("bubble-temperature", "--drum", "toluene=0.02,water=0.98", "--pressure", "1atm"),
            ("flash", "--drum", "ethanol=0.5,water=0.5", *at, "--try", str(ROOT / "yard" / "try.txt")),
        ):
            calls, real = [], library.floor

            def counted(content):
                calls.append(content)
                return real(content)

            with mock.patch.dict(os.environ, {"SOURCE_DATE_EPOCH": "1794821400"}):
                with mock.patch.object(library, "floor", counted):
                    found = sheet(*asked, "--floor")
                self.assertEqual(len(calls), 1)
                with mock.patch.dict(os.environ, {"ZEKTONK_LIB": str(self.folder)}):
                    self.assertEqual(sheet(*asked, "--floor"), found)


if __name__ == "__main__":
    unittest.main()
