"""Several drums in one charge: amounts in mol and kg as micromoles, the pool, and the sheet of it."""

import json
import random
import re
import unittest
from fractions import Fraction

from desk import units
from desk.charge import PER_MOLE
from desk.core import Core
from desk.openbook import feed_of, open_book
from desk.pool import MOST_DRUMS, MOST_TOTAL, bytes_of, fractions_of, pool_of, refusal_of
from desk.question import Question
from desk.sheet import feed_words
from desk.tasks import FLASH

from .support import ROOT, YARD, InFolder, sheet
from .test_mass import damaged, without

STORED = str(ROOT / "crates" / "still" / "data" / "book.bin")  # of version 1: no molar masses
CHARGE = (
    "--drum", "ethanol=40kg,water=12kg", "--drum", "ethanol=300mol,acetone=25mol", "--drum", "water=3kg,acetone=8500g"
)
TP = ("--temperature", "76C", "--pressure", "1bar")
CASES = {
    "pool-flash": ("flash", *CHARGE, *TP, "--label", "spring charge"),
    "pool-bubble": ("bubble-temperature", "--drum", "ethanol=2mol,water=3mol", "--pressure", "1atm"),
    "pool-rachford-rice": (
        "rachford-rice", "--drum", "ethanol=3umol,water=1umol", "--drum", "ethanol=1umol,water=3umol", "--k",
        "ethanol=2,water=0.5"
    ),
    "marked-pool": ("bubble-temperature", "--drum", "toluene=10kg", "--drum", "water=90kg", "--pressure", "101325Pa"),
    "refused-32": ("excess", "--drum", "ethanol=9007199254.740992mol", "--drum", "water=1umol", "--temperature", "70C"),
    "strike-pool": ("strike", "bubble-pressure", *CHARGE, "--temperature", "343.15K"),
}
AMOUNTS = "(mol, kmol, mmol, umol, kg, g or t)"
# what is said, and the drums
BAD = {
    f"--drum stands there 2 times: several drums are pooled by what they hold, with units {AMOUNTS}": (
        "ethanol=0.5", "water=0.5"
    ),
    "--drum 2: ethanol, water has no unit: fractions don't say how much a drum holds, so that it can't be pooled; "
    f"give amounts of all {AMOUNTS}": ("water=3kg", "ethanol=0.5,water=0.5"),
    "--drum: water has no unit": ("ethanol=3mol,water=0.5",),
    "--drum 2: ethanol stands there twice": ("water=1kg", "ethanol=1kg,64-17-5=1kg"),
    "--drum 2: 'ethanol' is not NAME=NUMBER": ("water=1kg", "ethanol"),
    "'wine' is no solvent": ("water=1kg", "wine=1kg"),
    "--drum 1: water: 'abc' is not a number with a unit": ("water=abc", "water=1kg"),
    "--drum 1: water: unit 'mole' in '3 mole' is not mol, kmol, mmol, umol, kg, g or t; did you mean mol?": (
        "water=3 mole", "water=1kg"
    ),
    "--drum 2: water -1kg: no drum holds less than nothing": ("water=2kg", "water=-1kg"),
    "--drum 2: water -1umol: no drum holds less than nothing": ("water=2kg", "water=-1umol"),
    "--drum 2: water 0.5umol is half a micromole or less, and would be absent unseen": ("ethanol=2kg", "water=0.5umol"),
    "--drum 1: ethanol 1e-400kg is half a micromole or less": ("ethanol=1e-400kg", "water=1kg"),
    "--drum 1: ethanol 18446744073709551616umol is more than a drum's count can say": (
        "ethanol=18446744073709551616umol", "water=1kg"
    ),
    "--drum 1: ethanol: '1e309mol' is too large": ("ethanol=1e309mol", "water=1kg"),
}


def drums(*words: str):
    return [option for word in words for option in ("--drum", word)]


class Counts(unittest.TestCase):
    def test_fractions_are_the_nearest_floats(self):
        """Sums up to 2^53 are exact, so that each is one rounded division."""
        rng = random.Random(3)
        for _ in range(500):
            n = rng.randint(1, 8)
            most = rng.choice((1, 7, 10**9, MOST_TOTAL // (n * MOST_DRUMS)))
            held = [tuple(rng.randint(0, most) for _ in range(n)) for _ in range(rng.randint(1, MOST_DRUMS))]
            pool = pool_of(held, n)
            total = sum(map(sum, held))
            self.assertEqual(sum(pool), total)
            if refusal_of(held, n) == 0:
                self.assertEqual(fractions_of(pool), tuple(float(Fraction(count, total)) for count in pool))
                rng.shuffle(held)
                self.assertEqual(pool_of(held, n), pool)
        self.assertEqual(fractions_of((MOST_TOTAL - 1, 1)), (1 - 2.0**-53, 2.0**-53))
        self.assertEqual(fractions_of((0, 0)), (0.0, 0.0))

    def test_refusals(self):
        for held, number in (
            ([], 31),
            ([(0, 0)], 32),
            ([(0, 0, 1)], 32),
            ([(1, 0)], 0),
            ([(MOST_TOTAL, 0)], 0),
            ([(MOST_TOTAL, 0), (0, 1)], 32),
            ([(2**64 - 1, 0), (2, 0)], 32),
            ([(0, 0)] * 65, 31),
            ([(0, 0)] * 63 + [(1, 0)], 0),
        ):
            self.assertEqual(refusal_of(held, 2), number, held[:3])

    def test_bytes(self):
        self.assertEqual(bytes_of([(1, 2), (2**64 - 1,)]), b"".join(
            count.to_bytes(8, "little") for count in (1, 2, *[0] * 6, 2**64 - 1, *[0] * 7)
        ))

    def test_the_program_is_asked_plainly(self):
        """Its question has the pool's fractions, and of refused drums none."""
        asked = []
        with Core(open_book(str(YARD)).content) as core:
            real = core.ask
            core.ask = lambda question: asked.append(question) or real(question)
            question = Question(FLASH, (), 350.0, 1e5)
            self.assertTrue(core.ask_pooled(question, [(3, 1), (1, 3)]).accepted)
            self.assertEqual(core.ask_pooled(question, []).head[:3], [9, 7, 31])
        self.assertEqual([question.fractions for question in asked], [(0.5, 0.5, 0.0, 0.0, 0.0, 0.0), ()])


class Amounts(unittest.TestCase):
    def test_units(self):
        for text in ("1.5mol", "0.0015 kmol", "1500mmol", "1500000 umol"):
            self.assertEqual(units.moles(text, "", None), Fraction(3, 2), text)
        self.assertEqual(units.moles("27 g", "", 0.018), Fraction(27, 1000) / Fraction(0.018))
        self.assertEqual([units.in_moles(text) for text in ("1mol", "1 kg", "1", "mol", "1e3umol")], [1, 0, 0, 0, 1])
        self.assertEqual([units.spaced(text) for text in ("40kg", " 40  kg ", "1e3 g")], ["40 kg", "40 kg", "1e3 g"])

    def test_weights_to_the_nearest_micromole(self):
        book = open_book(str(YARD))
        rng = random.Random(8)
        for _ in range(50):
            grams = Fraction(rng.randint(1, 10**8), 1000)
            name = rng.choice(book.names)
            place = book.names.index(name)
            feed = feed_of(book, [f"{name}={float(grams)!r}g", "water=1mol"], None)
            exact = Fraction(repr(float(grams))) / 1000 / Fraction(book.molar_masses[place]) * PER_MOLE
            self.assertLessEqual(abs(feed.charge.drums[0].counts[place] - exact), Fraction(1, 2))
            self.assertEqual(feed.charge.drums[1].counts[0], PER_MOLE)

    def test_halfway_goes_to_the_even_one(self):
        book = open_book(str(YARD))
        for text, count in (("1.5umol", 2), ("2.5umol", 2), ("0.6umol", 1), ("2.500001umol", 3)):
            self.assertEqual(feed_of(book, [f"water={text}"], None).charge.pool[0], count)

    def test_a_single_drum_in_fractions_or_kg_is_no_pool(self):
        book = open_book(str(YARD))
        for drum, by_mass in (("ethanol=0.5,water=0.5", False), ("ethanol=40kg,water=12kg", True)):
            feed = feed_of(book, [drum], None)
            self.assertEqual((feed.charge, feed.by_mass), (None, by_mass))
        self.assertEqual(feed_of(book, ["ethanol=2mol,water=3 mol"], None).fractions[:2], (0.6, 0.4))

    def test_the_option_that_gives_it_again(self):
        book = open_book(str(YARD))
        feed = feed_of(book, [word for word in CHARGE if word != "--drum"], None)
        again = feed_words(book, feed).split(" ")
        self.assertEqual(feed_of(book, again[1::2], None), feed)


class Sheets(InFolder):
    def test_stored(self):
        for name, arguments in CASES.items():
            with self.subTest(name):
                run, as_json, details = (sheet(*arguments, *options) for options in ((), ("--json",), ("--details",)))
                status = {"refused": 1, "marked": 3}.get(name.split("-")[0], 0)
                self.assertEqual((run.status, as_json.status, details.status), (status,) * 3, run.err)
                self.assert_golden(f"{name}.txt", run.out)
                self.assert_golden(f"{name}.json", as_json.out)
                self.assert_golden(f"{name}.details.txt", details.out)

    def test_layers(self):
        run = sheet("layers", *drums("toluene=40kg", "water=12kg"), "--temperature", "25C")
        self.assertEqual((run.status, run.err), (0, ""))
        self.assert_golden("layers-pool.txt", run.out)
        found = json.loads(sheet("layers", *drums("toluene=40kg", "water=12kg"), "--temperature", "25C", "--json").out)
        self.assertEqual(found["question"]["pool"]["total_micromoles"], 1100230654)
        refused = sheet("layers", *drums("toluene=0kg", "water=0kg"), "--temperature", "25C")
        self.assertEqual(refused.status, 1)
        self.assertIn("number 32", refused.err)

    def answers(self, *arguments: str):
        run = sheet(*arguments, "--json", "--details")
        self.assertIn(run.status, (0, 3), run.err)
        return json.loads(run.out)["answer"]

    def test_as_the_drum_of_these_fractions(self):
        """3 and 1, then 1 and 3: as much of both; in any order, and as one drum."""
        for task, options in (
            ("excess", ("--temperature", "70C")),
            ("bubble-pressure", ("--temperature", "70C")),
            ("dew-pressure", ("--temperature", "70C")),
            ("bubble-temperature", ("--pressure", "1bar")),
            ("dew-temperature", ("--pressure", "1bar")),
            ("stability", ("--temperature", "70C")),
            ("flash", ("--temperature", "79C", "--pressure", "1bar")),
            ("rachford-rice", ("--k", "ethanol=2,water=0.5")),
            ("rachford-rice-negative", ("--k", "ethanol=4,water=0.9")),
        ):
            due = self.answers(task, "--drum", "ethanol=0.5,water=0.5", *options)
            first, second = "ethanol=3mol,water=1mol", "ethanol=1mol,water=3mol"
            for held in ((first, second), (second, first), ("ethanol=4mol,water=4mol",)):
                self.assertEqual(self.answers(task, *drums(*held), *options), due, (task, held))

    def test_absent_is_in_no_drum(self):
        run = sheet("excess", *drums("ethanol=1mol,acetone=0mol", "ethanol=1mol,water=1umol"), "--temperature", "70C")
        self.assertIn("  Absent   methanol, acetone, 2-propanol, toluene\n", run.out)
        self.assertIn("  Drum 1   ethanol 1 mol, acetone 0 mol\n", run.out)

    def test_kilograms_where_there_are_molar_masses(self):
        run = sheet("flash", *CHARGE, *TP)
        self.assertRegex(run.out, r"(?m)^  kg +15 +53\.8205 +9\.95198 +78\.7725$")
        found = json.loads(sheet("flash", *CHARGE, *TP, "--json").out)
        weighed = sum(found["by_mass"][phase]["kilograms"]["water"] for phase in ("liquid", "vapor"))
        self.assertAlmostEqual(weighed, 15, places=6)
        self.assertEqual(found["question"]["pool"]["drums"][1]["given"], {"ethanol": "300 mol", "acetone": "25 mol"})
        book = ("--book", STORED)
        run = sheet("excess", *book, *drums("64-17-5=1mol", "7732-18-5=1mol"), "--temperature", "70C")
        self.assertEqual(run.status, 0, run.err)
        self.assertNotIn("kg", run.out)
        refused = sheet("excess", *book, *drums("64-17-5=1kg", "7732-18-5=1mol"), "--temperature", "70C")
        self.assertEqual(refused.status, 2)
        self.assertIn("is a book of version 1, which has none", refused.err)
        self.assertIn("or give amounts in mol", refused.err)
        lacking = self.file("lacking.txt", without("toluene"))
        self.assertIn("lacks that of toluene", sheet("excess", "--book", lacking, *CHARGE, "--temperature", "70C").err)

    def test_a_molar_mass_that_is_none(self):
        content = damaged(open_book(str(YARD)).content, 1, 45, 0)
        path = self.file("book.bin", content)
        weighed = sheet("excess", "--book", path, *drums("64-17-5=1kg", "7732-18-5=1kg"), "--temperature", "70C")
        self.assertEqual((weighed.status, weighed.out), (1, ""))
        self.assertIn("refused, number 35", weighed.err)
        run = sheet("excess", "--book", path, *drums("64-17-5=1mol", "7732-18-5=0mol"), "--temperature", "70C")
        self.assertIn("REFUSED, number 35: ", run.out)


class Refused(InFolder):
    def test_in_words(self):
        for words, held in BAD.items():
            with self.subTest(words):
                run = sheet("excess", *drums(*held), "--temperature", "70C", cwd=self.folder)
                self.assertEqual((run.status, run.out), (2, ""), run.err)
                self.assertIn(words, run.err)
                self.assertEqual(run.err.count("\n"), 1)

    def test_too_many(self):
        run = sheet("excess", *drums(*["water=1mol"] * 65), "--temperature", "70C")
        self.assertEqual(run.status, 1)
        self.assertIn("REFUSED, number 31: ", run.out)
        self.assertIn("refused, number 31: there are not 1 to 64 whole drums to pool: 65 were given\n", run.err)
        self.assertEqual(sheet("excess", *drums(*["water=1mol"] * 64), "--temperature", "70C").status, 0)

    def test_totals(self):
        most = f"{MOST_TOTAL}umol"
        for held, total in ((("water=0mol", "ethanol=0kg"), 0), ((f"water={most}", "ethanol=1umol"), MOST_TOTAL + 1)):
            run = sheet("excess", *drums(*held), "--temperature", "70C")
            self.assertEqual(run.status, 1)
            words = "the drums hold nothing at all, or more than 2^53 micromoles"
            self.assertIn(f"refused, number 32: {words}: {total} in all\n", run.err)
            found = json.loads(sheet("excess", *drums(*held), "--temperature", "70C", "--json").out)
            self.assertEqual((found["refusal"]["number"], found["answer"], found["by_mass"]), (32, None, None))
            self.assertEqual(found["question"]["pool"]["total_micromoles"], total)
            self.assertIsNone(found["question"]["fractions"])
        self.assertEqual(sheet("excess", "--drum", f"water={most}", "--temperature", "70C").status, 0)

    def test_ahead_of_the_temperature(self):
        """31 and 32 stand ahead of 13, and behind what the book is asked."""
        asked = ("excess", *drums("water=0mol", "ethanol=0mol"), "--temperature", "-300C")
        self.assertIn("number 32", sheet(*asked).err)
        self.assertIn("number 13", sheet("excess", *drums("water=1mol", "ethanol=0mol"), "--temperature", "-300C").err)

    def test_numbers_are_explained(self):
        out = sheet("refusals", "31", "32").out
        self.assertTrue(re.match(r"31  .*\n    what to do: .*\n32  .*\n    what to do: ", out), out)


if __name__ == "__main__":
    unittest.main()
