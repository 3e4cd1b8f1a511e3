"""Books of version 3: exchanged words are found, questions and answers go by the book's rule; what is no version."""

import unittest

from desk import answer, tasks
from desk import book as books
from desk.blocks import BLOCK, Rule, joined, rule_of, sealed, split, words_of
from desk.core import Core
from desk.errors import DeskError
from desk.openbook import open_yard
from desk.question import Question

from .support import SAMPLE, YARD, InFolder, sheet

ASKED = ("--drum", "64-17-5=0.5,7732-18-5=0.5", "--temperature", "70C")


def exchanged(content: bytes, block: int, place: int) -> bytes:
    """Two neighbouring words of a block, and nothing else."""
    at = BLOCK * block + 8 * place
    return content[:at] + content[at + 8 : at + 16] + content[at : at + 8] + content[at + 16 :]


class Exchanged(InFolder):
    def setUp(self) -> None:
        super().setUp()
        book = open_yard(str(SAMPLE)).book
        self.by_version = {version: books.encode(book, version) for version in books.VERSIONS}

    def numbers(self, version: int):
        """What each exchange of unequal neighbours comes to."""
        content = self.by_version[version]
        question = Question(tasks.EXCESS, (0.5, 0.5), 343.15)
        for block, words in enumerate(split(content)):
            for place in range(62):
                if words[place] != words[place + 1]:
                    with Core(exchanged(content, block, place)) as core:
                        yield block, place, core.ask(question).refusal

    def test_each_is_refused_in_version_3(self):
        found = list(self.numbers(3))
        self.assertGreater(len(found), 60)
        # kind and version, or version and count, change the rule too
        odd = {(0, 0): (2, 3), (0, 1): (2, 3)}
        for block, place, number in found:
            self.assertIn(number, odd.get((block, place), (2,)), (block, place))

    def test_some_pass_in_version_2(self):
        found = [number for _, _, number in self.numbers(2)]
        self.assertNotIn(2, found)
        self.assertIn(0, found)

    def test_on_a_sheet(self):
        for version, number in ((2, 0), (3, 2)):
            # the vapor pressure's first two coefficients
            book = self.file("book.bin", exchanged(self.by_version[version], 1, 8))
            run = sheet("bubble-pressure", "--book", book, *ASKED)
            self.assertEqual(f"REFUSED, number {number}: " in run.out, number != 0, run.out)
        self.assertIn("or, in a book of version 3, exchanged", run.err)

    def test_an_unknown_version_is_said_in_words(self):
        blocks = split(self.by_version[3])
        blocks[0][1] = 4
        run = sheet("bubble-pressure", "--book", self.file("book.bin", joined(blocks)), *ASKED)
        self.assertEqual(run.status, 2)
        self.assertIn("its first block gives version 4, and this desk knows 1 to 3", run.err)


class Rules(unittest.TestCase):
    def setUp(self) -> None:
        self.yard = open_yard(str(YARD)).book
        self.by_version = {version: books.encode(self.yard, version) for version in books.VERSIONS}

    def written(self, content: bytes, block: bytes) -> bytes:
        with Core(content) as core:
            return core._run(block)[0]

    def test_answers_are_those_of_version_2(self):
        drum = (0.3, 0.2, 0.5, 0.0, 0.0, 0.0)
        for task in tasks.TASKS:
            for by_mass in (False, True):
                k_values = (2.0, 0.5, 1.5, 1.0, 1.0, 1.0) if task.takes_k else None
                question = Question(task, drum, 345.0, 101325.0, k_values, by_mass=by_mass)
                second = self.written(self.by_version[2], question.block())
                third = self.written(self.by_version[3], question.block(Rule.RUNNING))
                self.assertEqual([words[:63] for words in split(second)], [words[:63] for words in split(third)])
                answer.read(second)
                answer.read(third, Rule.RUNNING)
                with self.assertRaises(DeskError):
                    answer.read(third)

    def test_a_question_by_the_other_rule_is_11(self):
        question = Question(tasks.EXCESS, (1.0,) + (0.0,) * 5, 345.0)
        for version, content in self.by_version.items():
            rule, other = (Rule.RUNNING, Rule.PLAIN) if version == 3 else (Rule.PLAIN, Rule.RUNNING)
            with Core(content) as core:
                self.assertEqual(core.rule, rule)
                self.assertEqual(core.ask(question).refusal, 0)
                self.assertEqual(core.ask_block(question.block(other)).refusal, 11)

    def test_38(self):
        """Task 0 and a plain sum, ahead of 2 and 3; other kinds are 3."""
        question = Question(tasks.EXCESS, (1.0,) + (0.0,) * 5, 345.0)
        third = self.by_version[3]
        for kind, version, n, number in (
            (1, 0, 6, 38), (1, 4, 6, 38), (1, 2**32 + 3, 6, 38), (1, 4, 9, 38), (2, 3, 6, 2), (1, 3, 5, 3)
        ):
            head = [kind, version, n] + words_of(third[:BLOCK])[3:]
            content = sealed(head, Rule.RUNNING) + third[BLOCK:]
            rule = Rule.RUNNING if (kind, version) == (1, 3) else Rule.PLAIN
            self.assertEqual(rule_of(content), rule)
            for block in (question.block(), question.block(Rule.RUNNING), b""):
                found = answer.read(self.written(content, block), rule)
                self.assertEqual(found.head[:3], [9, 0, number], (kind, version, n))
