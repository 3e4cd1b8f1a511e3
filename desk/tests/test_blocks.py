"""The encoder against the blocks of the reference, bit for bit, and reading back."""

import os
import random
import shutil
import subprocess
import unittest
from pathlib import Path
from typing import List, Tuple

from desk import book as books
from desk.blocks import BLOCK, Rule, bits_of, check_of, check_right, joined, rule_of, sealed, split, words_of
from desk.errors import DeskError
from desk.openbook import open_yard
from desk.question import Question
from desk.tasks import FLASH

from . import cases
from .support import GOLDEN, ROOT, STORE, SAMPLE

STORED = GOLDEN / "blocks.txt"
RUST = Path(os.environ.get("ZEKTONK_RUST", ROOT.parent / "shared" / "docs" / "src"))
REFERENCE = ROOT / "reference"


def books_by_version() -> List[Tuple[books.Book, int]]:
    """Each in version 1, and in all others that it has the numbers for; Wilson books in 2 and 3 by turns."""
    plain = [(book, version) for version in books.VERSIONS for book in cases.books() if version <= book.version]
    turns = (books.RUNNING_VERSION, books.MASS_VERSION)
    return plain + [(book, turns[place % 2]) for place, book in enumerate(cases.wilson_books())]


def questions_by_rule() -> List[Tuple[Question, Rule]]:
    return [(question, rule) for rule in Rule for question in cases.questions()]


def lines() -> List[str]:
    return (
        [cases.book_line(*book) for book in books_by_version()]
        + [cases.question_line(*question) for question in questions_by_rule()]
    )


def encoded() -> List[bytes]:
    return (
        [books.encode(book, version) for book, version in books_by_version()]
        + [question.block(rule) for question, rule in questions_by_rule()]
    )


def bytes_of(line: str) -> bytes:
    """A line of the reference: b and the count of bytes, then words; z and a count for zero words in a row."""
    count, *words = line.split()
    numbers: List[int] = []
    for word in words:
        numbers += [0] * int(word[1:]) if word.startswith("z") else [int(word, 16)]
    content = b"".join(number.to_bytes(8, "little") for number in numbers)
    assert count == f"b{len(content)}"
    return content


def reference_at_hand() -> bool:
    return shutil.which("cargo") is not None and (RUST / "crates").is_dir()


def from_reference() -> str:
    settings = {**os.environ, "ZEKTONK_RUST": str(RUST)}
    build = ["cargo", "build", "--quiet", "--manifest-path", str(REFERENCE / "Cargo.toml"), "--bin", "encode"]
    subprocess.run(build, check=True, env=settings, capture_output=True)
    program = REFERENCE / "target" / "debug" / "encode"
    return subprocess.run([program], input="\n".join(lines()) + "\n", check=True, capture_output=True, text=True).stdout


class Encoder(unittest.TestCase):
    def assert_equal_to(self, text: str) -> None:
        due_bytes = [bytes_of(line) for line in text.splitlines()]
        self.assertEqual(len(due_bytes), len(lines()))
        for line, due, found in zip(lines(), due_bytes, encoded()):
            self.assertEqual(due, found, line[:100])

    def test_stored_blocks_of_the_reference(self):
        self.assert_equal_to(STORED.read_text())

    @unittest.skipUnless(
        reference_at_hand(), "cargo or the Rust source is not at hand; the stored blocks are compared all the same"
    )
    def test_blocks_of_the_reference(self):
        text = from_reference()
        if STORE:
            STORED.write_text(text)
        self.assert_equal_to(text)
        self.assertEqual(text, STORED.read_text())

    def test_sample_of_the_program(self):
        still = ROOT / "crates" / "still"
        book = books.encode(open_yard(str(SAMPLE)).book, books.VERSION)
        self.assertEqual(book, (still / "data" / "book.bin").read_bytes())
        self.assertEqual(Question(FLASH, (0.5, 0.5), 351.44, 90000.0).block(), (still / "stdin").read_bytes())


class Reading(unittest.TestCase):
    def test_books_read_back(self):
        for book in cases.books():
            again = books.decode(books.encode(book))
            self.assertEqual(repr(again), repr(book))  # repr tells -0.0 from 0.0
            self.assertEqual(books.encode(again), books.encode(book))

    def test_not_a_book(self):
        good = books.encode(cases.books()[0])
        head = split(good)[0]
        damaged = [b"", good[:-1], good + b"\0" * BLOCK, good[:BLOCK]]
        damaged += [
            sealed(words) + good[BLOCK:]
            for words in (
                [2] + head[1:],
                head[:1] + [0] + head[2:],
                head[:1] + [4] + head[2:],
                head[:2] + [9] + head[3:],
                head[:2] + [0] + head[3:],
            )
        ]
        for content in damaged:
            with self.assertRaises(DeskError):
                books.decode(content)

    def test_words(self):
        self.assertEqual(bits_of(float("nan")), 0x7FF8000000000000)
        self.assertEqual(bits_of(-float("nan")), 0x7FF8000000000000)
        block = words_of(sealed([2**64 - 1, 2**64 - 1]))
        self.assertTrue(check_right(block))
        self.assertEqual(block[63], 2**64 - 2)
        self.assertFalse(check_right([1] + block[1:]))


class Checks(unittest.TestCase):
    """Plain sums and running sums, and which book asks for which."""

    def test_by_hand(self):
        head = [1, 3, 2] + [0] * 60
        self.assertEqual((check_of(head), check_of(head, Rule.RUNNING)), (6, 63 + 3 * 62 + 2 * 61))
        self.assertEqual(check_of([1] * 63, Rule.RUNNING), 63 * 64 // 2)
        rng = random.Random(3)
        for _ in range(100):
            words = [rng.getrandbits(64) for _ in range(63)]
            due = sum((63 - k) * word for k, word in enumerate(words)) % 2**64
            self.assertEqual(check_of(words, Rule.RUNNING), due)

    def test_rule_of_a_book(self):
        for book, version in books_by_version():
            content = books.encode(book, version)
            rule = Rule.RUNNING if version == 3 else Rule.PLAIN
            self.assertEqual(rule_of(content), rule)
            self.assertTrue(all(check_right(words, rule) for words in split(content)))
            self.assertEqual(joined(split(content)), content)
            for cut in (b"", content[:-1], content[:100]):
                self.assertEqual(rule_of(cut), Rule.PLAIN)
            for words in ([2, 3], [1, 0], [1, 4], [2**32 + 1, 3]):
                self.assertEqual(rule_of(sealed(words) + content[BLOCK:]), Rule.PLAIN)

    def test_an_exchange_is_seen(self):
        rng = random.Random(5)
        words = [rng.getrandbits(64) for _ in range(63)]
        for place in range(62):
            other = words[:place] + [words[place + 1], words[place]] + words[place + 2 :]
            self.assertEqual(check_of(words), check_of(other))
            self.assertNotEqual(check_of(words, Rule.RUNNING), check_of(other, Rule.RUNNING))

    def test_unknown_versions_in_words(self):
        good = split(books.encode(cases.books()[0]))
        for version in (0, 4, 2**64 - 1):
            with self.assertRaisesRegex(DeskError, f"gives version {version}, and this desk knows 1 to 3"):
                books.decode(joined([[1, version] + good[0][2:]] + good[1:]))
