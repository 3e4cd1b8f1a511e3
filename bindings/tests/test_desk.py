"""The package desk/ over the shared library and over the program `still`: the same answers, to a bit."""

import os
import random
import re
import subprocess
import sys
import threading
import unittest
from dataclasses import replace
from unittest import mock

import desk
from desk.blocks import Rule, rule_of, sealed, split
from nine import NINE, SAMPLE_BOOK
from support import LIBRARY, ROOT, STILL, InFolder

BOOK = desk.open_yard(str(ROOT / "yard" / "yard.txt")).book
YARD, SOLVENTS = desk.encode(BOOK), len(BOOK.solvents)
ALCOHOLS = desk.encode(desk.open_yard(str(ROOT / "yard" / "alcohols.txt")).book)
COUNT = 150


def drum(source: random.Random, n: int):
    """Mole fractions, a third of the solvents absent."""
    parts = [source.random() if source.random() < 0.7 else 0.0 for _ in range(n)]
    return tuple(part / (sum(parts) or 1.0) for part in parts)


def questions(source: random.Random, n: int):
    """Of all tasks, about one in three refused."""
    for _ in range(COUNT):
        yield desk.Question(
            source.choice(desk.TASKS),
            drum(source, n),
            source.uniform(260.0, 460.0),
            10 ** source.uniform(3.0, 6.0),
            tuple(10 ** source.uniform(-1.0, 1.0) for _ in range(n)),
            desk.Options(max_iterations=source.choice((3, 500))),
            source.random() < 0.3,
        )


class SameAnswers(unittest.TestCase):
    def assert_same(self, book: bytes, blocks) -> int:
        refused = 0
        with desk.Library(book) as library, desk.Core(book) as program:
            for block in blocks:
                found = library.ask_block(block)
                self.assertEqual(found, program.ask_block(block), block.hex())
                refused += not found.accepted
        return refused

    def test_tasks(self):
        self.assertEqual(self.assert_same(SAMPLE_BOOK, [question.block() for question in NINE.values()]), 0)

    def test_drums_of_both_yards(self):
        for book, n in ((YARD, SOLVENTS), (ALCOHOLS, 5)):
            asked = [question.block(rule_of(book)) for question in questions(random.Random(1), n)]
            refused = self.assert_same(book, asked)
            self.assertTrue(COUNT // 10 < refused < COUNT - COUNT // 10, refused)

    def test_refused_books_and_questions(self):
        block = NINE[7].block()
        damaged = [b"", block[:-1], block + b"\0", block + block, sealed([8, 10]), sealed([9, 1]), bytes(512)]
        self.assertEqual(self.assert_same(SAMPLE_BOOK, damaged), len(damaged))
        head = split(SAMPLE_BOOK)[0]
        books = [b"", SAMPLE_BOOK[:-1], SAMPLE_BOOK + bytes(512), SAMPLE_BOOK + sealed([3]), SAMPLE_BOOK * 20]
        for version in (0, 3, 4):
            books += [sealed(head[:1] + [version] + head[2:], rule) for rule in Rule]
        for book in books:
            self.assertEqual(self.assert_same(book, [block]), 1)

    def test_refused_by_mass(self):
        """34 to 36, with task 0 in the block of 35 alone."""
        by_mass = replace(NINE[7], by_mass=True)
        sample = desk.open_yard(str(ROOT / "yard" / "sample.txt")).book

        def of(mass: float) -> bytes:
            return desk.encode(replace(sample, solvents=tuple(replace(s, molar_mass=mass) for s in sample.solvents)))

        for book, question, number, task in (
            (SAMPLE_BOOK, by_mass, 36, 7), (of(-1.0), NINE[7], 35, 0), (of(5e-324), by_mass, 34, 7)
        ):
            self.assertEqual(self.assert_same(book, [question.block(rule_of(book))]), 1)
            head = desk.Library(book).ask(question).head
            self.assertEqual((head[desk.answer.REFUSAL], head[desk.answer.TASK]), (number, task))

    def test_versions(self):
        """Each book's questions by its own rule are answered alike, by the other rule they are 11; 38 has task 0."""
        sample = desk.open_yard(str(ROOT / "yard" / "sample.txt")).book
        for version in (1, 2, 3):
            book = desk.encode(sample, version)
            self.assertEqual(rule_of(book), Rule.RUNNING if version == 3 else Rule.PLAIN)
            right = [question.block(rule_of(book)) for question in NINE.values()]
            wrong = [question.block(rule) for question in NINE.values() for rule in Rule if rule != rule_of(book)]
            self.assertEqual((self.assert_same(book, right), self.assert_same(book, wrong)), (0, 9))
            self.assertEqual(desk.Library(book).ask_block(wrong[0]).head[:3], [9, 0, 11])
            found, due = (desk.Library(content).ask(NINE[7]).head for content in (book, SAMPLE_BOOK))
            self.assertEqual(found[:63], due[:63])
        unknown = sealed([1, 4] + split(SAMPLE_BOOK)[0][2:]) + SAMPLE_BOOK[512:]
        self.assertEqual(desk.Library(unknown).ask(NINE[7]).head[:3], [9, 0, 38])

    def test_models(self):
        """37 has task 0, in every version."""
        for content in (YARD, ALCOHOLS, SAMPLE_BOOK):
            head, rest = split(content)[0], content[512:]
            for version, model in ((1, 1), (2, 2), (3, 2**64 - 1)):
                rule = Rule.RUNNING if version == 3 else Rule.PLAIN
                blocks = [words[:63] for words in split(rest)]
                book = b"".join(sealed(words, rule) for words in [[1, version, head[2], model], *blocks])
                self.assertEqual(self.assert_same(book, [NINE[7].block(rule)]), 1)
                self.assertEqual(desk.Library(book).ask(NINE[7]).head[:3], [9, 0, 37])

    def test_stored_answer(self):
        found = desk.Library(SAMPLE_BOOK).ask_bytes((STILL / "stdin").read_bytes())
        self.assertEqual(found, (STILL / "stdout").read_bytes())


class Package(InFolder):
    def test_the_library_where_it_is_built(self):
        with desk.open_core(SAMPLE_BOOK) as core:
            self.assertIsInstance(core, desk.Library)
            self.assertEqual(core.path, LIBRARY)

    def test_the_program_where_not(self):
        with mock.patch.dict(os.environ, {"ZEKTONK_LIB": str(self.folder)}):
            with desk.open_core(SAMPLE_BOOK) as core:
                self.assertIsInstance(core, desk.Core)
                self.assertEqual(core.ask(NINE[7]), desk.Library(SAMPLE_BOOK, LIBRARY).ask(NINE[7]))
            with self.assertRaisesRegex(desk.DeskError, "scripts/shared-library builds it"):
                desk.Library(SAMPLE_BOOK)

    def test_no_library(self):
        path = self.folder / "libzektonk.so"
        path.write_bytes(b"no library")
        with self.assertRaisesRegex(desk.DeskError, "can't be called"):
            desk.Library(SAMPLE_BOOK, path)

    def test_threads_share_one(self):
        library, due = desk.Library(SAMPLE_BOOK), {}
        with desk.Core(SAMPLE_BOOK) as program:
            due = {task: program.ask(question) for task, question in NINE.items()}
        wrong = []

        def ask() -> None:
            for task, question in [*NINE.items()] * 50:
                if library.ask(question) != due[task]:
                    wrong.append(task)

        threads = [threading.Thread(target=ask) for _ in range(8)]
        for thread in threads:
            thread.start()
        for thread in threads:
            thread.join()
        self.assertEqual(wrong, [])

    def test_the_example_of_the_package(self):
        """In a folder of its own process, as another program imports it."""
        example = re.search(r"^    import desk\n(?:    .*\n|\n)*", desk.__doc__, re.MULTILINE).group(0)
        lines = [line[4:] for line in example.splitlines()] + ["print(blocks.accepted, type(core).__name__)"]
        settings = {**os.environ, "PYTHONPATH": str(ROOT), "ZEKTONK_LIB": str(LIBRARY.parent)}
        command = [sys.executable, "-B", "-c", "\n".join(lines)]
        run = subprocess.run(command, cwd=ROOT, env=settings, capture_output=True, text=True)
        self.assertEqual((run.stdout, run.stderr), ("True Library\n", ""))
