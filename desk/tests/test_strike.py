"""Striking: the shorter sheet equals the longer one, and the comparison sees every difference."""

import json
import random
import unittest

from desk import question as places
from desk import tasks
from desk.answer import Blocks
from desk.blocks import Rule, bits_of, split
from desk.book import due_pairs
from desk.core import Core
from desk.openbook import open_book
from desk.question import Question
from desk.strike import compare, kept_places, same, shorter_book, shorter_question

from .support import YARD, InFolder, sheet


def drums():
    """Drums of two to four of the six solvents."""
    rng = random.Random(3)
    for _ in range(12):
        parts = [0.0] * 6
        for place in rng.sample(range(6), rng.randint(2, 4)):
            parts[place] = rng.uniform(0.1, 1.0)
        total = sum(parts)
        yield tuple(part / total for part in parts)


def asked(task: tasks.Task, fractions) -> Question:
    k_values = tuple(0.4 + 0.5 * place for place in range(6)) if task.takes_k else None
    return Question(
        task, fractions, 345.0 if task.takes_temperature else None, 101325.0 if task.takes_pressure else None, k_values
    )


class Striking(InFolder):
    def test_drums(self):
        book = open_book(str(YARD))
        compared = dict.fromkeys(tasks.BY_COMMAND, 0)
        with Core(book.content) as longer:
            for fractions in drums():
                kept = kept_places(fractions)
                with Core(shorter_book(book.content, kept)) as shorter:
                    for task in tasks.TASKS:
                        question = asked(task, fractions)
                        long = longer.ask(question)
                        short = shorter.ask_block(shorter_question(question.words(), kept, shorter.rule))
                        self.assertEqual(long.refusal, short.refusal)
                        if long.accepted:
                            self.assertEqual(
                                [group for group in compare(long, short, kept) if group.differing],
                                [],
                                (task, fractions),
                            )
                            compared[task.command] += 1
        self.assertTrue(all(count > 3 for count in compared.values()), compared)

    def test_command(self):
        run = sheet("strike", "stability", "--drum", "acetone=0.2,methanol=0.8", "--temperature", "50C", "--json")
        found = json.loads(run.out)["strike"]
        self.assertEqual((run.status, found["equal"], found["kept"]), (0, True, ["methanol", "acetone"]))
        flag = sheet("stability", "--strike", "--drum", "acetone=0.2,methanol=0.8", "--temperature", "50C", "--json")
        self.assertEqual(flag.out, run.out)

    def test_every_word_is_listed(self):
        asked = (
            "strike",
            "flash",
            "--drum",
            "ethanol=0.5,water=0.5",
            "--temperature",
            "78C",
            "--pressure",
            "1bar",
            "--words",
        )
        groups = json.loads(sheet(*asked, "--json").out)["strike"]["compared"]
        self.assertEqual([len(group["each"]) for group in groups], [group["count"] for group in groups])
        run = sheet(*asked)
        rows = [
            line.split()
            for line in run.out.splitlines()
            if line.endswith("yes") and len(line.split()) == 6 and line.split()[0].isdigit()
        ]
        self.assertEqual(len(rows), sum(group["count"] for group in groups))
        self.assertTrue(all(row[3] == row[4] for row in rows if row[1] != "1" or row[0] == "0"))

    def test_difference_is_shown(self):
        """A program that answers with the size of its book can't keep the promise."""
        answered = "words = [9, 1, 0, 0, os.path.getsize('book.bin')] + [0] * 58"
        program = self.program(
            [
                "import os",
                "from itertools import accumulate",
                "sys.stdin.buffer.read()",
                answered,
                "sys.stdout.buffer.write(struct.pack('<64Q', *words, sum(accumulate(words))))",
            ]
        )
        run = sheet("strike", "excess", "--drum", "ethanol=1", "--temperature", "50C", "--program", program)
        self.assertEqual((run.status, run.err), (1, "sheet: the two sheets differ\n"))
        self.assertIn("THE TWO SHEETS DIFFER", run.out)
        self.assertRegex(run.out, r"0 +4 +4 +0000000000002c00 +0000000000000400 +NO")

    def test_whole_drum(self):
        parts = (
            ",".join(f"{name}=0.125" for name in ("water", "ethanol", "methanol", "acetone"))
            + ",2-propanol=0.25,toluene=0.25"
        )
        run = sheet("strike", "excess", "--drum", parts, "--temperature", "50C")
        self.assertIn("from 22 to 22 blocks", run.out)
        self.assertIn("equal, word by word", run.out)

    def test_a_refused_sheet_is_not_compared(self):
        asked = ("flash", "--temperature", "900C", "--pressure", "1bar", "--drum", "ethanol=0.5,water=0.5")
        found = json.loads(sheet("strike", *asked, "--json").out)["strike"]
        self.assertEqual((found["equal"], found["compared"]), (None, []))
        self.assertTrue(found["reason"])

    def test_negative_zero_is_absent(self):
        self.assertEqual(kept_places((0.5, -0.0, 0.0, 0.5)), [0, 3])
        self.assertTrue(same(bits_of(0.0), bits_of(-0.0)))
        self.assertFalse(same(bits_of(0.0), 1))


class Comparing(unittest.TestCase):
    kept = [1, 3]

    def blocks(self):
        """An answer with two trials about solvents 1 and 3 of 4, and the shorter one."""
        longer = [[100 * block + word for word in range(64)] for block in range(3)]
        shorter = [words[:] for words in longer]
        for at in (14, 22):
            for place, i in enumerate(self.kept):
                shorter[0][at + place] = longer[0][at + i]
        for trial, component in enumerate(self.kept):
            longer[1 + trial][1], shorter[1 + trial][1] = component, trial
            for place, i in enumerate(self.kept):
                shorter[1 + trial][5 + place] = longer[1 + trial][5 + i]
        return longer, shorter

    def differing(self, longer, shorter) -> int:
        groups = compare(Blocks(longer[0], tuple(longer[1:])), Blocks(shorter[0], tuple(shorter[1:])), self.kept)
        return sum(len(group.differing) for group in groups)

    def test_equal(self):
        self.assertEqual(self.differing(*self.blocks()), 0)

    def test_every_word_counts(self):
        seen = 0
        for block in range(3):
            for word in range(63):
                longer, shorter = self.blocks()
                shorter[block][word] += 1000
                seen += self.differing(longer, shorter) > 0
        # the entries behind the kept solvents are free: six of 14 to 21 and of 22 to 29, six of each trial's 5 to 12
        self.assertEqual(seen, 3 * 63 - 4 * 6)

    def test_missing_trial(self):
        longer, shorter = self.blocks()
        self.assertEqual(self.differing(longer, shorter[:2]), 1)


class Shorter(unittest.TestCase):
    def test_book(self):
        book = open_book(str(YARD)).content
        before, after = split(book), split(shorter_book(book, [1, 4]))
        self.assertEqual(len(after), 4)
        self.assertEqual(
            [words[:3] for words in after], [[1, 3, 2], [2, 0, before[2][2]], [2, 1, before[5][2]], [3, 0, 1]]
        )
        pair = before[7 + due_pairs(6).index((1, 4))]
        self.assertEqual((after[1][3:63], after[3][3:63]), (before[2][3:63], pair[3:63]))

    def test_question(self):
        words = asked(tasks.BY_COMMAND["rachford-rice"], (0.0, 0.25, 0.0, 0.0, 0.75, 0.0)).words()
        (after,) = split(shorter_question(words, [1, 4], Rule.PLAIN))
        self.assertEqual(after[places.FRACTIONS : places.FRACTIONS + 2], [bits_of(0.25), bits_of(0.75)])
        self.assertEqual(
            after[places.K_VALUES : places.K_VALUES + 2], [words[places.K_VALUES + 1], words[places.K_VALUES + 4]]
        )
        self.assertEqual(after[12:19], words[12:19])
