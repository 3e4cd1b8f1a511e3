"""The table of tasks in docs/FORMAT.md: the words that a task uses and fills, by calls."""

import unittest
from typing import Dict, List, Tuple

import desk
from nine import NINE, SAMPLE_BOOK
from pages import spans, tables
from support import BLOCK, answered, call, words_of

from desk.blocks import bits_of, sealed
from desk.question import PRESSURE

TESTED = range(12, 19)  # in tasks 3 to 7
GARBAGE = 0xFFF7_0123_4567_89AB  # a count that no limit allows, and a NaN
# a refusal, and the word and value that bring it: T, p and a K value of -0, a fraction that is a NaN, below 0 or too
# large, a tolerance of 2, a feed by mass with a book of version 1, or by nothing
BROKEN = (
    (12, 1, 10),
    (13, 2, bits_of(-0.0)),
    (14, 3, bits_of(-0.0)),
    (15, 4, bits_of(float("nan"))),
    (16, 4, bits_of(-1.0)),
    (17, 19, bits_of(-0.0)),
    (18, 4, bits_of(2.0)),
    (19, 15, bits_of(2.0)),
    (20, 14, 0),
    (21, 12, 1_000_001),
    (36, 27, 1),
    (36, 27, 2),
)


def apart() -> bytes:
    """Two liquids that part, and boil where water does."""
    record = desk.Correlation(647.0, 2.2e7, 273.16, 640.0, ((-7.5, 1.0),))
    pair = desk.Pair((4.0, 0.0, 0.0, 0.0), (4.0, 0.0, 0.0, 0.0), (0.2, 0.0))
    return desk.encode(desk.Book((desk.Solvent(1, record, record), desk.Solvent(2, record, record)), (pair,)))


# a word with a value that questions 19 to 21 allow, and the book and the pressure (Pa) that are asked
ALLOWED = (
    (12, 1, SAMPLE_BOOK, 90000.0),
    (13, bits_of(1e-6), SAMPLE_BOOK, 90000.0),
    (14, 1, SAMPLE_BOOK, 90000.0),
    (15, bits_of(1e-7), SAMPLE_BOOK, 90000.0),
    (16, bits_of(-10.0), apart(), 400000.0),  # all liquid
    (17, bits_of(330.0), SAMPLE_BOOK, 90000.0),
    (18, bits_of(380.0), SAMPLE_BOOK, 90000.0),
)


def table() -> Dict[int, Tuple[List[int], List[int]]]:
    """Of each task the words of the question that it uses and those of the answer that it fills."""
    (rows,) = [rows for _, heads, rows in tables() if heads[-1] == "answer's words"]
    return {int(row[0]): (spans(row[3]), spans(row[4])) for row in rows}


class Tasks(unittest.TestCase):
    def test_options_used(self):
        """Other options that are allowed change an answer where the table says that they are used, and only there."""
        function = call()
        for word, value, book, pressure in ALLOWED:
            for task in range(3, 8):
                words = words_of(NINE[task].block())
                words[PRESSURE] = bits_of(pressure)
                due = answered(function, book, sealed(words))
                words[word] = value
                changed = answered(function, book, sealed(words)) != due
                self.assertEqual(changed, word in table()[task][0], (task, word))

    def test_what_is_not_used_is_not_read(self):
        function = call()
        for task, question in NINE.items():
            due = answered(function, SAMPLE_BOOK, question.block())
            self.assertEqual(due[0], 0, task)
            read = {0, 1, 63, *table()[task][0], *(TESTED if 3 <= task <= 7 else ())}
            for word in set(range(64)) - read:
                words = words_of(question.block())
                words[word] = GARBAGE
                self.assertEqual(answered(function, SAMPLE_BOOK, sealed(words)), due, (task, word))

    def test_what_is_used_or_tested_counts(self):
        function = call()
        for task, question in NINE.items():
            due = answered(function, SAMPLE_BOOK, question.block())
            beyond = {6, 7, 8, 9, 10, 11, *range(21, 27)}  # of solvents that this book doesn't have
            for word in {*table()[task][0], *(TESTED if 3 <= task <= 7 else ())} - beyond:
                words = words_of(question.block())
                words[word] = GARBAGE
                self.assertNotEqual(answered(function, SAMPLE_BOOK, sealed(words)), due, (task, word))

    def test_refused_by_the_tasks_that_ask(self):
        """The column of tasks in the table of refusals, for what a question alone can be refused with."""
        function = call()
        (rows,) = [rows for _, heads, rows in tables() if heads[2:3] == ["tasks"]]
        asked = {int(row[0]): range(1, 10) if row[2] == "all" else spans(row[2]) for row in rows}
        for number, word, value in BROKEN:
            for task, question in NINE.items():
                words = words_of(question.block())
                words[word] = value
                found = answered(function, SAMPLE_BOOK, sealed(words))[0]
                self.assertEqual(found == number, task in asked[number], (number, task))

    def test_filled(self):
        """Nothing but what the table has; and all of it, but for zeros that these questions give: no interval is
        inferred, a bubble pressure takes no iterations, and two residuals are 0."""
        function = call()
        beyond = {*range(16, 22), *range(24, 30)}  # of solvents that this book doesn't have
        zeros = {1: {36}, 2: {8}, 4: {9}, 8: {9}}
        for task, question in NINE.items():
            words = words_of(answered(function, SAMPLE_BOOK, question.block())[1][:BLOCK])
            filled = {word for word in range(2, 63) if words[word]}
            self.assertEqual(filled, set(table()[task][1]) - beyond - zeros.get(task, set()), task)
