"""The yard text: round trips, and what is said of a text that isn't a book."""

import random
import unittest

from desk.book import decode, encode
from desk.errors import DeskError
from desk.openbook import open_yard
from desk.yard import Yard
from desk.yardtext import parse
from desk.yardwrite import write

from . import cases
from .support import SAMPLE, YARD

SMALL = """
[solvent a]
cas = 64-17-5
vapor t_r = 500 K
vapor reducing = 50 bar
vapor range = 0 C to 480 K
vapor term = -7 : 1

[solvent b]
cas = 7732-18-5
vapor t_r = 600 K
vapor reducing = 5000000 Pa
vapor range = 273.15 K to 550 K
vapor term = -7 : 1
density range = 270 K to 500 K

[pair b a]
tau b a = t0 1, t1 2 K
tau a b = t3 4e-3, t2 -3
alpha = a0 0.2, a1 0.0001
interval = 300 K to 350 K
inferred = yes
"""

# what is put in place of what, and the words that the complaint has
BAD = (
    ("[solvent b]", "[solvent A]", "solvent A stands there twice"),
    ("7732-18-5", "64-17-5", "one CAS number"),
    ("64-17-5", "64-17-6", "last digit"),
    ("64-17-5", "abc", "'abc' is not a whole number"),
    ("64-17-5", "0", "CAS number is 0"),
    ("cas = 64-17-5\n", "", "[solvent a]: 'cas' is missing"),
    ("vapor t_r = 500 K", "vapor t_r = 500", "has no unit"),
    ("vapor t_r = 500 K", "vapor t_r = 400 K", "doesn't lie between 0 and t_r"),
    ("vapor t_r = 500 K", "vapor t_r = 500 K\nvapor t_r = 500 K", "2 times"),
    ("50 bar", "50", "has no unit"),
    ("50 bar", "-1 bar", "isn't positive"),
    ("50 bar", "many bar", "is not a number"),
    ("0 C to 480 K", "480 K", "is not 'LOW to HIGH'"),
    ("vapor term = -7 : 1\n\n[solvent b]", "\n[solvent b]", "has 0 terms"),
    ("vapor term = -7 : 1\n\n[solvent b]", "vapor term = 1 : 1\n" * 9 + "\n[solvent b]", "has 9 terms"),
    ("-7 : 1\n\n[solvent b]", "-7\n\n[solvent b]", "is not 'n : exponent'"),
    ("-7 : 1\n\n[solvent b]", "x : 1\n\n[solvent b]", "'x' is not a number"),
    ("[pair b a]", "[pair b c]", "names c, which is no solvent"),
    ("[pair b a]", "[pair b b]", "names one solvent twice"),
    ("[pair b a]", "[pair b]", "neither [solvent NAME] nor [pair NAME NAME]"),
    ("[pair b a]", "[pears b a]", "neither [solvent NAME] nor [pair NAME NAME]"),
    ("tau b a = t0 1, t1 2 K\n", "", "'tau b a' is missing"),
    ("t1 2 K", "t1 2 Pa", "unit 'Pa'"),
    ("t0 1,", "t0 1 K,", "unit 'K' of t0"),
    ("t0 1,", "t7 1,", "is not a term"),
    ("t0 1,", "t0 one,", "'one' is not a number"),
    ("t0 1,", "t0 1e999,", "too large"),
    ("t0 1,", "t1 1,", "t1 stands there twice"),
    ("alpha = a0 0.2, a1 0.0001\n", "", "'alpha' is missing"),
    ("inferred = yes", "inferred = maybe", "neither yes nor no"),
    ("interval = 300 K to 350 K\n", "", "without an interval"),
    ("inferred = yes", "colour = blue", "has no key 'colour'"),
    ("inferred = yes", "infered = yes", "has no key 'infered'; did you mean inferred?"),
    ("alpha = a0 0.2, a1 0.0001", "alhpa = a0 0.2", "'alpha' is missing; line 20 has 'alhpa'"),
    ("vapor t_r = 500 K", "vapour t_r = 500 K", "'vapor t_r' is missing; line 4 has 'vapour t_r'"),
    ("tau b a = t0 1, t1 2 K", "tua b a = t0 1, t1 2 K", "'tau b a' is missing; line 18 has 'tua b a'"),
    ("[pair b a]", "[pairs b a]", "did you mean pair?"),
    ("50 bar", "50 Bar", "did you mean bar?"),
    ("inferred = yes", "inferred = yes\nsolubility = c 0.5 in a at 25 C", "is not 'NAME x in NAME at T'"),
    ("inferred = yes", "inferred = yes\nheteroazeotrope = a 0.5, 350 at 1 bar", "has no unit"),
    ("inferred = yes", "no equals sign", "is not 'key = value'"),
    ("[solvent a]", "cas = 1\n[solvent a]", "before the first heading"),
    ("cas = 64-17-5", "cas = 64-17-5\nboiling point = 350 K at 1 bar within 0.5 C", "is not 'T at P within D K'"),
    ("inferred = yes", "inferred = yes\nazeotrope = c 0.5, 350 K at 1 bar", "is not 'NAME x, T at P'"),
    ("inferred = yes", "inferred = yes\nazeotrope = a 0.5, 350 K at 1 bar within 0.02", "'0.02' is not 'D K and d'"),
    ("inferred = yes", "inferred = yes\nazeotrope = a 0.5, 350 K at 1 bar within 1 K and much", "is not a number"),
    ("[solvent a]", "[solvent a_b,c]", "can't be a name"),
    ("[solvent a]", "[solvent 64-17-5]", "can't be a name"),
    (SMALL[SMALL.index("[pair") :], "", "[pair a b] is missing"),
    (SMALL, SMALL + SMALL[SMALL.index("[pair") :], "stands there twice"),
    (SMALL, "", "0 solvents"),
    (SMALL, "".join(f"[solvent s{k}]\ncas = {k}\n" for k in range(1, 10)), "9 solvents"),
)


class Text(unittest.TestCase):
    def test_small_book(self):
        book = parse(SMALL).book
        pair = book.pairs[0]  # written as b a, stored as a b
        self.assertEqual(pair.tau_ij, (0.0, 0.0, -3.0, 4e-3))
        self.assertEqual(pair.tau_ji, (1.0, 2.0, 0.0, 0.0))
        self.assertEqual((pair.alpha, pair.interval.low, pair.interval.inferred), ((0.2, 0.0001), 300.0, True))
        first, second = book.solvents
        self.assertEqual((first.cas, first.vapor_pressure.low, first.vapor_pressure.reducing), (64175, 273.15, 5e6))
        self.assertEqual((first.density.low, first.density.high, second.density.low), (273.15, 480.0, 270.0))

    def test_large_and_small_letters(self):
        text = SMALL.replace("[pair b a]", "[pair B A]").replace("cas =", "CAS =")
        self.assertEqual(parse(text).book, parse(SMALL).book)

    def test_energies_are_divided_by_the_gas_constant(self):
        text = SMALL.replace("t1 2 K", "t1 8.31446261815324 J/mol").replace("t3 4e-3", "t1 1.98720425864083 cal/mol")
        pair = parse(text).book.pairs[0]
        self.assertEqual((pair.tau_ij[1], pair.tau_ji[1]), (1.0, 1.0))

    def test_round_trips(self):
        for path in (SAMPLE, YARD):
            yard = open_yard(str(path))
            content = encode(yard.book)
            self.assertEqual(decode(content), yard.book)
            again = parse(write(Yard(yard.names, decode(content), yard.sources)))
            self.assertEqual((again.names, again.book, again.sources), (yard.names, yard.book, yard.sources))
            self.assertEqual(encode(again.book), content)

    def test_generated_books_round_trip_through_text(self):
        for book in cases.books():
            names = tuple(f"s{place}" for place in range(len(book.solvents)))
            self.assertEqual(encode(parse(write(Yard(names, book))).book), encode(book))

    def test_bad_texts(self):
        for old, new, words in BAD:
            with self.subTest(new=new[:60], words=words):
                self.assertIn(old, SMALL)
                with self.assertRaises(DeskError) as caught:
                    parse(SMALL.replace(old, new, 1))
                self.assertIn(words, str(caught.exception))

    def test_damaged_texts(self):
        """A text with a few characters changed is refused in one line, or is a book that reads back."""
        rng = random.Random(17)
        counts = {True: 0, False: 0}
        for _ in range(800):
            characters = list(SMALL)
            for _ in range(rng.randint(1, 2)):
                place = rng.randrange(len(characters))
                characters[place : place + rng.randint(0, 2)] = rng.choice("0123456789.eE+-=:[], #KC\n")
            try:
                book = parse("".join(characters)).book
            except DeskError as error:
                self.assertNotIn("\n", str(error))
                counts[False] += 1
            else:
                self.assertEqual(decode(encode(book)), book)
                counts[True] += 1
        self.assertTrue(min(counts.values()) > 20, counts)
