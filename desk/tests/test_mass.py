"""Drums by mass: molar masses in texts and books, weights and mass fractions, the core's conversion and the desk's."""

import json
import math
import random
import re
import unittest
from dataclasses import replace
from fractions import Fraction
from typing import List, Tuple

from desk import answer, refusals, tasks, units
from desk import book as books
from desk.blocks import bits_of, joined, sealed, split
from desk.book import Book
from desk.core import Core
from desk.errors import DeskError
from desk.feed import ByMass, Feed, by_mass, moles_of, normalized
from desk.openbook import feed_of, named, open_book, open_yard
from desk.question import FEED, Question
from desk.sheet import feed_words
from desk.strike import compare, kept_places, shorter_book, shorter_question
from desk.yardtext import parse
from desk.yardwrite import write

from . import cases
from .support import ROOT, SAMPLE, YARD, InFolder, sheet

TINY, HUGE, INFINITY = 5e-324, 1.7976931348623157e308, math.inf
WEIGHED = ("--drum", "ethanol=40kg,water=12kg,acetone=8500g")
FLASH = ("--temperature", "76C", "--pressure", "1bar")
ATOMS = {"H": Fraction("1.00794"), "C": Fraction("12.0107"), "O": Fraction("15.9994")}  # g/mol
FORMULAS = {
    "water": "H2O", "ethanol": "C2H6O", "methanol": "CH4O", "acetone": "C3H6O", "2-propanol": "C3H8O", "toluene": "C7H8"
}
STORED = ROOT / "crates" / "still" / "data" / "book.bin"  # of version 1


def with_masses(book: Book, masses) -> Book:
    return replace(book, solvents=tuple(replace(s, molar_mass=m) for s, m in zip(book.solvents, masses)))


def without(*names: str) -> str:
    """The sample yard without the molar masses of some solvents."""
    text = YARD.read_text(encoding="utf-8")
    for name in names:
        text = re.sub(rf"(\[solvent {name}\]\ncas .*\n)molar mass .*\n", r"\1", text)
    return text


def damaged(content: bytes, block: int, word: int, value: int) -> bytes:
    blocks = split(content)
    blocks[block][word] = value
    return joined(blocks)


class Books(unittest.TestCase):
    def test_version_2_adds_the_masses_and_nothing_else(self):
        rng = random.Random(5)
        for book in cases.books():
            masses = [rng.choice((TINY, HUGE, 0.018, rng.uniform(0.001, 1))) for _ in book.solvents]
            plain, found = (split(books.encode(with_masses(book, masses), version)) for version in (1, 2))
            self.assertEqual(plain, split(books.encode(book, 1)))
            for place, (before, after) in enumerate(zip(plain, found)):
                changed = {k: after[k] for k in range(63) if before[k] != after[k]}
                solvent = 1 <= place <= len(masses)
                due = {1: 2} if place == 0 else {45: bits_of(masses[place - 1])} if solvent else {}
                self.assertEqual(changed, due)
            self.assertEqual(books.molar_masses(joined(found)), tuple(masses))
            self.assertIsNone(books.molar_masses(joined(plain)))
            self.assertEqual(repr(books.decode(joined(found))), repr(with_masses(book, masses)))

    def test_version_3_is_version_2_with_other_checks(self):
        for book in cases.books():
            if book.version != 1:
                second, third = (split(books.encode(book, version)) for version in (2, None))
                self.assertEqual((second[0][1], third[0][1]), (2, 3))
                self.assertEqual([words[2:63] for words in second], [words[2:63] for words in third])
                self.assertEqual(books.molar_masses(joined(second)), books.molar_masses(joined(third)))

    def test_version_1_where_one_is_missing(self):
        book = open_yard(str(SAMPLE)).book
        self.assertEqual(book.version, 3)
        for masses in ((None, 0.018), (0.046, None), (None, None)):
            lacking = with_masses(book, masses)
            self.assertEqual((lacking.version, books.encode(lacking)), (1, books.encode(book, 1)))
        self.assertEqual(books.encode(book, 1), STORED.read_bytes())

    def test_question(self):
        for question in cases.questions():
            before, after = (replace(question, by_mass=kind).words() for kind in (False, True))
            self.assertEqual((before[FEED], after[FEED]), (0, 1))
            self.assertEqual(before[:FEED] + before[FEED + 1 :], after[:FEED] + after[FEED + 1 :])

    def test_struck_books_keep_the_masses(self):
        content = open_book(str(YARD)).content
        masses = books.molar_masses(content)
        self.assertEqual(books.molar_masses(shorter_book(content, [1, 4])), (masses[1], masses[4]))


class Texts(InFolder):
    def test_units(self):
        for text, due in (
            ("46.06844 g/mol", 0.04606844),
            ("0.04606844 kg/mol", 0.04606844),
            ("46.06844kg/kmol", 0.04606844),
            ("5e-324 kg/mol", TINY),
            ("1.7976931348623157e308 kg/mol", HUGE),
            ("1e311 g/mol", 1e308),
        ):
            self.assertEqual(units.molar_mass(text), due, text)
        self.assertNotEqual(units.molar_mass("74.121 g/mol"), 74.121 / 1000)  # rounded once
        for text, words in (
            ("46.06844", "has no unit; write kg/mol, g/mol or kg/kmol, as in 46.06844 g/mol"),
            ("46.06844 g", "unit 'g' in '46.06844 g' is not kg/mol, g/mol or kg/kmol"),
            ("46.06844 G/MOL", "did you mean g/mol?"),
            ("0 g/mol", "isn't positive"),
            ("-0 kg/mol", "isn't positive"),
            ("-46 g/mol", "isn't positive"),
            ("1e-330 kg/mol", "isn't positive"),
            ("1e312 g/mol", "is too large"),
            ("nan g/mol", "is not a number with a unit"),
            ("heavy", "is not a number with a unit"),
        ):
            with self.assertRaisesRegex(DeskError, re.escape(words), msg=text):
                units.molar_mass(text)

    def test_weights(self):
        self.assertEqual([units.weight(text) for text in ("12kg", "12 kg", "12000 g", "0.012t")], [12] * 4)
        self.assertEqual(units.weight("0.1kg"), Fraction(1, 10))
        for text in ("", "kg", "12", "12 lb", "12 KG", "12mol", "1e309kg", "12kg kg", "1,2kg"):
            with self.assertRaises(DeskError, msg=text):
                units.weight(text)

    def test_key_of_a_solvent(self):
        text = SAMPLE.read_text(encoding="utf-8")
        line = re.search(r"molar mass +=.*\n", text).group(0)
        for value, words in (
            ("46.06844", "[solvent ethanol] molar mass: '46.06844' has no unit"),
            ("-1 g/mol", "[solvent ethanol] molar mass: '-1 g/mol' isn't positive"),
            ("46.06844 g/mol\nmolar mass = 46 g/mol", "[solvent ethanol]: 'molar mass' stands there 2 times"),
        ):
            path = self.file("yard.txt", text.replace(line, f"molar mass = {value}\n", 1))
            run = sheet("show", path)
            self.assertEqual((run.status, run.out), (2, ""))
            self.assertIn(f"{path} is not a book: {words}", run.err)
        run = sheet("show", self.file("yard.txt", text.replace("molar mass  ", "molarmass", 1)))
        self.assertIn("has no key 'molarmass'; did you mean molar mass?", run.err)

    def test_written_texts_read_back(self):
        for masses in ((TINY, HUGE), (0.04606844, None), (1 / 3, 0.018)):
            yard = open_yard(str(SAMPLE))
            yard = replace(yard, book=with_masses(yard.book, masses))
            again = parse(write(yard))
            self.assertEqual(repr(again.book), repr(yard.book))
            self.assertEqual(again.lacking, yard.lacking)

    def test_masses_of_the_sample_yards(self):
        """Sums of the atomic weights that the yard names, and a source for each."""
        for path in (YARD, SAMPLE):
            yard = open_yard(str(path))
            for name, solvent in zip(yard.names, yard.book.solvents):
                atoms = re.findall(r"([A-Z])(\d*)", FORMULAS[name])
                due = sum(ATOMS[atom] * int(count or 1) for atom, count in atoms) / 1000
                self.assertEqual(solvent.molar_mass, float(due), name)
                self.assertIn("IUPAC", yard.sources[name,])
        said = YARD.read_text(encoding="utf-8")
        self.assertIn(", ".join(f"{atom} {float(weight)}" for atom, weight in ATOMS.items()), said)

    def test_book_command(self):
        yard = open_yard(str(YARD)).book
        run = sheet("book", str(YARD), "-o", "0.bin", cwd=self.folder)
        self.assertIn("6 solvents, 15 pairs, NRTL, 11264 bytes, version 3, SHA-256", run.out)
        self.assertEqual((self.folder / "0.bin").read_bytes(), books.encode(yard, 3))
        for version in (1, 2, 3):
            run = sheet("book", str(YARD), "-o", "1.bin", "--book-version", str(version), cwd=self.folder)
            self.assertIn(f"bytes, version {version}, SHA-256", run.out)
            self.assertEqual((self.folder / "1.bin").read_bytes(), books.encode(yard, version))
            words = f"6 solvents, a book of version {version}, NRTL\n"
            self.assertIn(words, sheet("show", "1.bin", cwd=self.folder).out)
        lacking = self.file("yard.txt", without("methanol", "toluene"))
        run = sheet("book", lacking, "-o", "3.bin", cwd=self.folder)
        self.assertIn("version 1 (no molar mass of methanol, toluene), SHA-256", run.out)
        self.assertEqual((self.folder / "3.bin").read_bytes(), books.encode(yard, 1))
        for version in ("2", "3"):
            run = sheet("book", lacking, "-o", "4.bin", "--book-version", version, cwd=self.folder)
            self.assertEqual(run.status, 2)
            self.assertIn(f"version {version} needs the molar mass of every solvent", run.err)
            self.assertIn("the text lacks that of methanol, toluene\n", run.err)
            self.assertFalse((self.folder / "4.bin").exists())
        self.assertEqual(sheet("book", str(YARD), "-o", "5.bin", "--book-version", "4", cwd=self.folder).status, 2)

    def test_show(self):
        out = sheet("show", str(YARD)).out
        self.assertIn("6 solvents, a book of version 3, NRTL\n", out)
        self.assertRegex(out, r"  ethanol +64-17-5 +46.06844 +273.15 to 510")
        self.assertIn("IUPAC", out)
        self.assertIn("a book of version 1, NRTL\n", sheet("show", str(STORED)).out)
        self.assertRegex(sheet("show", str(STORED)).out, r"64-17-5 +none +")


class Feeds(InFolder):
    @classmethod
    def setUpClass(cls) -> None:
        cls.book = open_book(str(YARD))

    def test_weights_are_divided_by_their_sum(self):
        for words, due in (
            ("ethanol=40kg,water=12kg", {"ethanol": 40 / 52, "water": 12 / 52}),
            ("ethanol=0.04t,water=12000 g", {"ethanol": 40 / 52, "water": 12 / 52}),
            ("ethanol=0.1kg,water=0.2kg,toluene=0kg", {"ethanol": 1 / 3, "water": 2 / 3}),
            ("ethanol=7kg,water=-0 kg", {"ethanol": 1.0}),
            ("ethanol=1e-300kg,water=1e-300kg", {"ethanol": 0.5, "water": 0.5}),
            ("ethanol=1e305t,water=1e305t,acetone=1e305t", dict.fromkeys(("ethanol", "water", "acetone"), 1 / 3)),
        ):
            feed = feed_of(self.book, [words], None)
            self.assertEqual(feed.fractions, tuple(due.get(name, 0.0) for name in self.book.names), words)
            self.assertTrue(feed.by_mass and feed.given is None and feed.kilograms)
            self.assertLessEqual(abs(sum(feed.fractions) - 1), 1e-15)

    def test_normalize_leaves_weights(self):
        words = ["ethanol=40kg", "water=12kg"]
        self.assertEqual(feed_of(self.book, words, None, True), feed_of(self.book, words, None))

    def test_fractions(self):
        feed = feed_of(self.book, None, ["ethanol=70", "water=20"], True)
        self.assertEqual((feed.by_mass, feed.kilograms), (True, None))
        self.assertEqual(feed.fractions[:2], (20 / 90, 70 / 90))
        self.assertEqual(feed.given[:2], (20.0, 70.0))
        self.assertFalse(feed_of(self.book, ["ethanol=0.5,water=0.5"], None).by_mass)
        absent = feed_of(self.book, None, ["ethanol=1,water=-0"])
        self.assertEqual(str(absent.fractions[0]), "-0.0")

    def test_words_to_paste_read_back(self):
        for drum, mass in (
            (["ethanol=40kg,water=0.1kg"], None), (None, ["ethanol=0.7,water=0.3"]), (["ethanol=0.7,water=0.3"], None)
        ):
            feed = feed_of(self.book, drum, mass)
            option, words = feed_words(self.book, feed).split(" ")
            again = feed_of(self.book, *(([words], None) if option == "--drum" else (None, [words])))
            self.assertEqual(again, feed)

    def test_a_book_without_molar_masses(self):
        text = self.file("yard.txt", without("toluene", "methanol"))
        book = self.file("book.bin", STORED.read_bytes())
        for drum in (("--mass", "64-17-5=0.5,7732-18-5=0.5"), ("--drum", "64-17-5=1kg,7732-18-5=1kg")):
            for command in ("flash", "layers"):
                run = sheet(command, *drum, *FLASH, "--book", text)
                self.assertEqual((run.status, run.out), (2, ""))
                self.assertIn(
                    f"a drum by mass needs the molar mass of every solvent of {text}, which lacks that of methanol, "
                    "toluene: add 'molar mass = ... g/mol' there, or give mole fractions\n",
                    run.err,
                )
                run = sheet(command, *drum, *FLASH, "--book", book)
                self.assertEqual((run.status, run.out), (2, ""))
                self.assertIn(f"{book} is a book of version 1, which has none", run.err)
        self.assertEqual(sheet("flash", "--drum", "ethanol=0.5,water=0.5", *FLASH, "--book", text).status, 0)


class Conversions(unittest.TestCase):
    def test_borders(self):
        self.assertEqual(moles_of((0.018, 0.046), (0.0, 1.0)), (0.0, 1.0))
        self.assertEqual(str(moles_of((0.018, 0.046), (-0.0, 1.0))), "(-0.0, 1.0)")
        self.assertEqual(moles_of((2.0, 2.0), (TINY, 1.0)), (0.0, 1.0))  # kept, and 0 of the moles
        self.assertIsNone(moles_of((TINY, 0.018), (1.0, 0.0)))
        self.assertIsNone(moles_of((1e-308, 1e-308), (1.0, 1.0)))  # finite terms, infinite sum
        self.assertIsNone(moles_of((0.018, 0.018), (0.0, 0.0)))
        self.assertEqual(moles_of((HUGE,), (1.0,)), (1.0,))

    def test_there_and_back(self):
        rng = random.Random(9)
        masses = open_book(str(YARD)).molar_masses
        for _ in range(200):
            given = normalized(tuple(rng.choice((0.0, rng.random())) for _ in masses))
            if not any(given):
                continue
            drum = ByMass(masses, moles_of(masses, given), 52.0)
            for a, b, kg in zip(drum.fractions(drum.moles), given, drum.kilograms(drum.moles, 1.0)):
                self.assertAlmostEqual(a, b, delta=1e-15)
                self.assertAlmostEqual(kg, 52 * b, delta=1e-13)

    def test_no_mass_of_a_drum_by_moles(self):
        self.assertIsNone(by_mass((0.018,), Feed((1.0,))))
        self.assertIsNone(by_mass(None, Feed((1.0,), True)))
        self.assertIsNone(by_mass((TINY,), Feed((1.0,), True)))


class OfTheCore(InFolder):
    """What the core makes of a feed by mass."""

    @classmethod
    def setUpClass(cls) -> None:
        cls.book = open_book(str(YARD))
        cls.core = Core(cls.book.content)

    @classmethod
    def tearDownClass(cls) -> None:
        cls.core.__exit__()

    def drums(self, count: int) -> List[Tuple[float, ...]]:
        rng = random.Random(13)
        parts = [[rng.choice((0.0, -0.0, rng.random(), rng.random())) for _ in self.book.names] for _ in range(count)]
        return [normalized(tuple(part)) for part in parts if sum(part) > 0]

    def asked(self, task: tasks.Task, fractions, **more) -> Question:
        k_values = tuple(0.4 + 0.5 * place for place in range(6)) if task.takes_k else None
        kelvin, pascals = 345.0 if task.takes_temperature else None, 101325.0 if task.takes_pressure else None
        return Question(task, fractions, kelvin, pascals, k_values, **more)

    def test_conversion_is_the_desk_s_bit_for_bit(self):
        """Where an answer has the feed itself, as the liquid of a bubble point or the vapor of a dew point."""
        seen = 0
        for drum in self.drums(30):
            due = [bits_of(x) for x in moles_of(self.book.molar_masses, drum)]
            for task, at in ((tasks.BUBBLE_PRESSURE, answer.LIQUID), (tasks.DEW_PRESSURE, answer.VAPOR)):
                blocks = self.core.ask(self.asked(task, drum, by_mass=True))
                if blocks.accepted:
                    seen += 1
                    self.assertEqual(blocks.head[at : at + 6], due)
        self.assertGreater(seen, 30)

    def test_answers_are_those_of_the_mole_feed(self):
        accepted = dict.fromkeys(tasks.BY_COMMAND, 0)
        for drum in self.drums(8):
            moles = moles_of(self.book.molar_masses, drum)
            for task in tasks.TASKS:
                found = self.core.ask(self.asked(task, drum, by_mass=True))
                self.assertEqual(found, self.core.ask(self.asked(task, moles)), (task.command, drum))
                accepted[task.command] += found.accepted
        self.assertTrue(all(accepted.values()), accepted)

    def test_striking(self):
        compared = 0
        for drum in self.drums(6):
            kept = kept_places(drum)
            with Core(shorter_book(self.book.content, kept)) as shorter:
                for task in tasks.TASKS:
                    question = self.asked(task, drum, by_mass=True)
                    long = self.core.ask(question)
                    if long.accepted and task is not tasks.DEW_TEMPERATURE:
                        short = shorter.ask_block(shorter_question(question.words(), kept, shorter.rule))
                        groups = compare(long, short, kept)
                        self.assertEqual([group for group in groups if group.differing], [], (task.command, drum))
                        compared += 1
        self.assertGreater(compared, 20)

    def test_mole_questions_are_answered_as_in_version_1(self):
        with Core(books.encode(open_yard(str(YARD)).book, 1)) as first:
            for drum in self.drums(4):
                for task in tasks.TASKS:
                    question = self.asked(task, drum)
                    found, due = self.core.ask(question), first.ask(question)
                    self.assertEqual(found.head[:63], due.head[:63])
                    self.assertEqual([words[:63] for words in found.trials], [words[:63] for words in due.trials])


class Numbers(InFolder):
    """34, 35, 36 and 38, by the program: which number, ahead of which others, and the task in its block."""

    def refused(self, book: bytes, question: Question, **words: int) -> Tuple[int, int]:
        asked = question.words()
        for name, value in words.items():
            asked[int(name[1:])] = value
        with Core(book) as core:
            head = core.ask_block(sealed(asked, core.rule)).head
        return head[answer.REFUSAL], head[answer.TASK]

    def setUp(self) -> None:
        super().setUp()
        self.yard = open_yard(str(SAMPLE)).book
        self.second = books.encode(self.yard, 2)
        self.flash = Question(tasks.FLASH, (0.5, 0.5), 351.44, 90000.0)
        self.weighed = replace(self.flash, by_mass=True)

    def of(self, *masses: float) -> bytes:
        return books.encode(with_masses(self.yard, masses), 2)

    def test_35(self):
        for mass in (0.0, -0.0, -0.018, INFINITY, -INFINITY, math.nan):
            for masses in ((mass, 0.018), (0.046, mass)):
                for question in (self.flash, self.weighed):
                    self.assertEqual(self.refused(self.of(*masses), question), (35, 0), masses)
        for mass in (TINY, HUGE):
            self.assertEqual(self.refused(self.of(0.046, mass), self.flash), (0, 7))

    def test_35_stands_between_5_and_6(self):
        bad = self.of(0.046, 0.0)
        infinity = bits_of(INFINITY)
        self.assertEqual(self.refused(damaged(bad, 1, 3, infinity), self.flash), (5, 0))
        self.assertEqual(self.refused(damaged(bad, 2, 2, split(bad)[1][2]), self.flash), (35, 0))  # one CAS number
        self.assertEqual(self.refused(damaged(bad, 3, 4, infinity), self.flash), (35, 0))
        self.assertEqual(self.refused(bad, self.flash, w1=10), (35, 0))

    def test_word_45_of_version_1_is_not_read(self):
        first = books.encode(self.yard, 1)
        for word in (bits_of(math.nan), bits_of(-1.0), 1):
            self.assertEqual(self.refused(damaged(first, 1, 45, word), self.flash), (0, 7))

    def test_versions(self):
        for version, number in ((0, 38), (1, 0), (2, 0), (3, 0), (4, 38), (2**64 - 1, 38)):
            found, _ = self.refused(damaged(self.second, 0, 1, version), self.flash)
            self.assertEqual(found, number, version)

    def test_36(self):
        first = books.encode(self.yard, 1)
        for task in tasks.TASKS:
            question = Question(task, (0.5, 0.5), 351.44, 90000.0, (2.0, 0.5))
            self.assertEqual(self.refused(first, replace(question, by_mass=True)), (36, task.number))
            for word in (2, 2**63, bits_of(1.0), 2**64 - 1):
                for book in (first, self.second):
                    self.assertEqual(self.refused(book, question, w27=word), (36, task.number))

    def test_36_stands_between_12_and_13(self):
        self.assertEqual(self.refused(self.second, self.flash, w1=10, w27=2), (12, 0))
        self.assertEqual(self.refused(self.second, self.flash, w2=bits_of(-1.0), w27=2), (36, 7))
        self.assertEqual(self.refused(self.second, self.weighed, w2=bits_of(-1.0)), (13, 7))

    def test_15_to_18_are_put_to_the_mass_fractions(self):
        for fractions, number in (
            ((math.nan, 1.0), 15), ((INFINITY, 0.0), 15), ((-0.5, 1.5), 16), ((0.5, 0.4), 18), ((0.0, 0.0), 18)
        ):
            asked = replace(self.weighed, fractions=fractions)
            self.assertEqual(self.refused(self.second, asked), (number, 7), fractions)
            self.assertEqual(self.refused(self.of(TINY, TINY), asked), (number, 7), fractions)
        split_by_k = Question(tasks.SPLIT, (1.0, 0.0), k_values=(0.0, 1.0), by_mass=True)
        self.assertEqual(self.refused(self.of(TINY, 0.018), split_by_k), (17, 8))

    def test_34(self):
        alone = (1.0, 0.0)
        for task in tasks.TASKS:
            question = Question(task, alone, 351.44, 90000.0, (2.0, 0.5), by_mass=True)
            self.assertEqual(self.refused(self.of(TINY, 0.018), question), (34, task.number))
        flash = replace(self.weighed, fractions=alone)
        self.assertEqual(self.refused(self.of(TINY, 0.018), flash, w12=0), (34, 7))  # ahead of 20
        self.assertEqual(self.refused(self.of(TINY, 0.018), replace(flash, fractions=(0.0, 1.0)))[0], 0)
        self.assertEqual(self.refused(self.of(1e-308, 1e-308), self.weighed)[0], 0)  # 0.5e308 twice
        self.assertEqual(self.refused(self.of(1e-309, 1e-309), self.weighed), (34, 7))

    def test_words_of_a_sheet(self):
        book = self.file("book.bin", self.of(0.046, -1.0))
        run = sheet("flash", "--book", book, "--names", str(SAMPLE), "--drum", "water=1", *FLASH)
        self.assertEqual(run.status, 1)
        said = "a solvent's molar mass is not finite and positive. Here: water -1 kg/mol."
        self.assertIn(said, " ".join(run.out.split()))
        self.assertIn("number 35: a solvent's molar mass is not finite and positive: water -1 kg/mol\n", run.err)
        book = self.file("book.bin", self.of(TINY, 0.018))
        run = sheet("flash", "--book", book, "--names", str(SAMPLE), "--mass", "ethanol=1", *FLASH, "--json")
        found = json.loads(run.out)
        self.assertEqual((found["refusal"]["number"], found["by_mass"]), (34, None))
        self.assertEqual(found["refusal"]["detail"], "the moles of ethanol at 4.94066e-324 kg/mol")
        listed = sheet("refusals", "34", "35", "36").out
        self.assertIn("or a drum by mass, can't be brought to fractions that sum to 1", listed)
        self.assertIn("or a molar mass is far too small", listed)
        self.assertIn("add 'molar mass = ... g/mol' to every solvent", listed)


class Sheets(InFolder):
    def json(self, *arguments: str):
        return json.loads(sheet(*arguments, "--json").out)

    def test_kg_of_the_phases(self):
        found = self.json("flash", *WEIGHED, *FLASH)
        mass = found["by_mass"]
        given = found["question"]["kilograms"]
        self.assertEqual(given, {"water": 12.0, "ethanol": 40.0, "acetone": 8.5})
        for name, kg in given.items():
            both = mass["liquid"]["kilograms"][name] + mass["vapor"]["kilograms"][name]
            self.assertAlmostEqual(both, kg, delta=1e-11)
        for phase in ("liquid", "vapor"):
            fractions, kilograms = mass[phase]["mass_fractions"], mass[phase]["kilograms"]
            self.assertAlmostEqual(sum(fractions.values()), 1.0, delta=1e-14)
            for name in given:
                self.assertAlmostEqual(kilograms[name] / sum(kilograms.values()), fractions[name], delta=1e-14)
        moles = sum(kg / mass["molar_masses_kg_per_mol"][name] for name, kg in mass["vapor"]["kilograms"].items())
        total = sum(kg / mass["molar_masses_kg_per_mol"][name] for name, kg in given.items())
        self.assertAlmostEqual(moles / total, found["answer"]["vapor_fraction"], delta=1e-13)
        self.assertIn("this tool", mass["reckoned_by"])

    def test_kg_of_layers(self):
        found = self.json("layers", "--drum", "toluene=40kg,water=12kg", "--temperature", "25C")
        first, second = (found["by_mass"][layer]["kilograms"] for layer in ("layer_1", "layer_2"))
        for name, kg in (("toluene", 40.0), ("water", 12.0)):
            self.assertAlmostEqual(first[name] + second[name], kg, delta=1e-9)
        self.assertGreater(first["water"], 11.9)
        self.assertIsNone(found["by_mass"]["vapor"]["kilograms"])
        one = self.json("layers", "--drum", "ethanol=40kg,water=12kg", "--temperature", "25C")["by_mass"]
        self.assertEqual((one["layer_1"], one["vapor"]), (None, None))

    def test_the_answer_is_that_of_the_moles(self):
        """Sheets by weight, by mass fraction and by the core's own mole fractions have one answer, bit for bit."""
        for command, more in (("bubble-temperature", ("--pressure", "1bar")), ("flash", FLASH), ("layers", FLASH)):
            weighed = self.json(command, "--drum", "ethanol=30kg,water=10kg", *more, "--details")
            by_mass = self.json(command, "--mass", "ethanol=0.75,water=0.25", *more, "--details")
            moles = weighed["by_mass"]["drum_mole_fractions"]
            drum = ",".join(f"{name}={moles[name]['value']!r}" for name in ("ethanol", "water"))
            by_moles = self.json(command, "--drum", drum, *more, "--details")
            key = "layers" if command == "layers" else "answer"
            self.assertEqual(weighed[key], by_moles[key], command)
            self.assertEqual(by_mass[key], by_moles[key], command)
            kinds = [found["question"]["feed"] for found in (weighed, by_mass, by_moles)]
            self.assertEqual(kinds, ["mass", "mass", "moles"])
            self.assertIsNone(by_moles["by_mass"])
            self.assertIsNone(by_mass["question"]["kilograms"])

    def test_an_ordinary_sheet_has_no_masses(self):
        out = sheet("flash", "--drum", "ethanol=0.5,water=0.5", *FLASH).out
        self.assertNotIn("kg", out)
        self.assertNotIn("mass fractions", out)

    def test_no_kg_without_weights(self):
        out = sheet("flash", "--mass", "ethanol=0.8,water=0.2", *FLASH).out
        self.assertIn("mass fractions", out)
        self.assertNotRegex(out, r"(?m)^  kg ")
        out = sheet("bubble-temperature", *WEIGHED, "--pressure", "1bar").out
        self.assertIn("first bubble", out)
        self.assertNotRegex(out, r"(?m)^  kg ")

    def test_no_kg_of_a_negative_split(self):
        asked = ("rachford-rice-negative", "--drum", "ethanol=40kg,water=12kg", "--k", "ethanol=4,water=0.9")
        run = sheet(*asked)
        self.assertEqual(run.status, 3)
        self.assertNotRegex(run.out, r"(?m)^  kg ")
        self.assertIsNone(self.json(*asked)["by_mass"]["vapor"]["kilograms"])

    def test_advice_pastes_what_was_given(self):
        run = sheet("bubble-temperature", "--drum", "toluene=10kg,water=90kg", "--pressure", "101325Pa")
        (command,) = re.findall(r"\./sheet (layers .*)", run.out)
        self.assertEqual(command, "layers --drum water=90kg,toluene=10kg --pressure 101325Pa")
        self.assertIn("first bubble water 0.55730, toluene 0.44270 (mole fractions).", " ".join(run.out.split()))
        self.assertEqual(sheet(*command.split()).status, 0)
        run = sheet("stability", "--mass", "toluene=0.6,water=0.4", "--temperature", "25C")
        self.assertIn("./sheet layers --mass water=0.4,toluene=0.6 --temperature 298.15K", run.out)

    def test_sums_are_the_core_s_to_refuse(self):
        run = sheet("excess", "--mass", "ethanol=0.7,water=0.2", "--temperature", "70C")
        self.assertEqual(run.status, 1)
        self.assertNotIn("mole fractions", run.out)
        (pasted,) = re.findall(r"    (--mass \S+)", run.out)
        self.assertIn(f": as given they sum to 0.9; add --normalize, or paste {pasted}\n", run.err)
        self.assertEqual(sheet("excess", *pasted.split(), "--temperature", "70C").status, 0)
        for more in (("--temperature", "25C"), ("--pressure", "1bar")):
            run = sheet("layers", "--mass", "ethanol=0.7,water=0.2", *more)
            self.assertEqual(run.status, 1)
            self.assertIn(f"number 18: {refusals.matter(18)}; add --normalize, or paste {pasted}\n", run.err)
            self.assertIn("number 16", sheet("layers", "--mass", "ethanol=1.2,water=-0.2", *more).err)

    def test_names_of_a_book_of_version_2(self):
        path = self.file("book.bin", named(open_yard(str(YARD)), "").content)
        run = sheet("flash", "--book", path, "--names", str(YARD), *WEIGHED, *FLASH)
        due = sheet("flash", *WEIGHED, *FLASH)
        self.assertEqual(run.out.split("-" * 78)[1], due.out.split("-" * 78)[1])
