"""Wilson books: their text, their blocks, what is said of a wrong one, and sheets that name the model. Nothing here
needs an answer by Wilson's equation; test_alcohols.py does."""

import json
import math
import random
import unittest
from dataclasses import replace

from desk import book as books
from desk.answer import NOTE_WORDS, Blocks
from desk.blocks import Rule, bits_of, check_right, joined, rule_of, split
from desk.book import Interval, Model, Pair, WilsonPair
from desk.errors import DeskError
from desk.openbook import open_book, open_yard
from desk.ranges import pairs_of
from desk.sheet import NamedBook, checksum
from desk.strike import shorter_book
from desk.yard import Yard
from desk.yardtext import parse
from desk.yardwrite import write

from . import cases
from .support import ALCOHOLS, SAMPLE, YARD, InFolder, sheet

SOLVENT = """
[solvent {name}]
cas          = {cas}
molar mass   = {mass} g/mol
molar volume = {volume} cm3/mol
vapor t_r = 500 K
vapor reducing = 50 bar
vapor range = 273.15 K to 480 K
vapor term = -7 : 1
"""
SMALL = "model = wilson\n" + "".join(
    SOLVENT.format(name=name, cas=cas, mass=mass, volume=volume)
    for name, cas, mass, volume in (("p", "67-63-0", 60.09502, 76.92), ("w", "7732-18-5", 18.01528, 18.07))
) + """
[pair w p]
wilson w p = b 345.6 K, a -0.12
wilson p w = a 2.5
interval = 300 K to 350 K
inferred = yes
"""
NRTL = SMALL.replace("model = wilson\n", "").replace("wilson w p = b 345.6 K, a -0.12", "tau w p = t0 1")
NRTL = NRTL.replace("wilson p w = a 2.5", "tau p w = t0 2\nalpha = 0.3")
MASS = "molar mass   = 60.09502 g/mol\n"
CALORIES = 1.98720425864083  # gas constant, cal/(mol K)

# what is put in place of what, and the words that the complaint has
BAD = (
    ("model = wilson", "model = willson", "line 1: model 'willson' is none of nrtl, wilson; did you mean wilson?"),
    ("model = wilson", "model = wilson\nmodel = nrtl", "line 2: 'model' stands there twice"),
    ("model = wilson", "modle = wilson", "before the first heading, [solvent NAME]; only 'model = NAME' may"),
    ("model = wilson", "model =", "is not 'key = value'"),
    ("cas          = 67-63-0", "cas = 67-63-0\nmodel = wilson", "no key 'model'; it stands before the first heading"),
    ("model = wilson\n", "", "line 21: [pair w p] has 'wilson w p', which is of Wilson, and the text's model is NRTL"),
    ("model = wilson\n", "", "'model = wilson' before the first heading changes it"),
    ("interval =", "alpha = 0.3\ninterval =", "line 24: [pair w p] has 'alpha', which is of NRTL, and the text's"),
    ("wilson w p = b 345.6 K, a -0.12", "tau w p = t0 1", "line 22: [pair w p] has 'tau w p', which is of NRTL"),
    (MASS, "", "a Wilson book has the molar mass of every solvent: add 'molar mass = ... g/mol' to [solvent p]"),
    ("wilson p w = a 2.5\n", "", "[pair w p]: 'wilson p w' is missing"),
    ("wilson p w = a 2.5", "wilsno p w = a 2.5", "'wilson p w' is missing; line 23 has 'wilsno p w'"),
    ("wilson p w = a 2.5", "wilson p w = a 2.5\nwilson p w = a 2.5", "stands there 2 times"),
    ("a 2.5", "c 2.5", "'c 2.5' is not a term (a, b) and its number"),
    ("a 2.5", "a 2.5, a 1", "a stands there twice"),
    ("a 2.5", "a 2.5 K", "unit 'K' of a is one too many"),
    ("b 345.6 K", "b 345.6 Pa", "unit 'Pa' of b is none of K"),
    ("b 345.6 K", "b 345.6 cal/mol", "goes in as 'energy 345.6 cal/mol', with molar volumes"),
    ("a 2.5", "energy 437.98", "'energy 437.98' has no unit; write J/mol or cal/mol"),
    ("a 2.5", "energy 437.98 K", "unit 'K' of energy is none of J/mol, cal/mol"),
    ("a 2.5", "energy 437.98 cal/mol, a 1", "is not a term (energy) and its number"),
    ("a 2.5", "energy many cal/mol", "'many' is not a number"),
    ("molar volume = 76.92 cm3/mol", "molar volume = 76.92 cm3", "unit 'cm3' in '76.92 cm3' is not m3/mol"),
    ("molar volume = 76.92 cm3/mol", "molar volume = 0 cm3/mol", "isn't positive"),
    ("molar volume = 76.92 cm3/mol", "molar volume = 76.92", "has no unit"),
)


class Text(unittest.TestCase):
    def test_small_book(self):
        book = parse(SMALL).book
        self.assertIs(book.model, Model.WILSON)
        # written as w p, stored as p w
        self.assertEqual(book.pairs, (WilsonPair((2.5, 0.0), (-0.12, 345.6), Interval(300.0, 350.0, True)),))

    def test_the_model_is_nrtl_where_nothing_is_said(self):
        self.assertIs(parse(NRTL).book.model, Model.NRTL)
        for text in (NRTL, YARD.read_text(encoding="utf-8"), SAMPLE.read_text(encoding="utf-8")):
            for line in ("model = nrtl\n", "# a comment\n\nMODEL = NRTL   # and another\n"):
                self.assertEqual(books.encode(parse(line + text).book), books.encode(parse(text).book))
        # as before there was a choice
        self.assertEqual(checksum(books.encode(open_yard(str(YARD)).book))[:12], "50fdcd83a60d")

    def test_energies_and_molar_volumes(self):
        """Lambda_ij = (V_j/V_i) exp(-(lambda_ij - lambda_ii)/(R T))."""
        text = SMALL.replace("wilson p w = a 2.5", "wilson p w = energy 437.98 cal/mol")
        text = text.replace("b 345.6 K, a -0.12", "energy 1238.00 cal/mol")
        pair = parse(text).book.pairs[0]
        self.assertEqual(pair.ij[1], -437.98 / CALORIES)
        self.assertEqual(pair.ji[1], -1238.0 / CALORIES)
        self.assertAlmostEqual(pair.ij[0], math.log(18.07 / 76.92), delta=1e-15)
        self.assertEqual(pair.ij[0], -pair.ji[0])
        # Smith, Van Ness and Abbott's example of 2-propanol and water: 0.1258 and 0.7292 at 353.15 K
        self.assertAlmostEqual(math.exp(pair.ij[0] + pair.ij[1] / 353.15), 0.1258, delta=1e-4)
        self.assertAlmostEqual(math.exp(pair.ji[0] + pair.ji[1] / 353.15), 0.7292, delta=2e-4)
        joules = parse(text.replace("437.98 cal/mol", "8.31446261815324 J/mol")).book.pairs[0]
        self.assertEqual(joules.ij, (pair.ij[0], -1.0))
        for unit, factor in (("m3/mol", "e-6"), ("m3/kmol", "e-3"), ("L/mol", "e-3"), ("mL/mol", "")):
            other = text.replace("76.92 cm3/mol", f"76.92{factor} {unit}")
            self.assertEqual(parse(other).book.pairs[0], pair, unit)
        equal = parse(text.replace("18.07 cm3", "76.92 cm3").replace("437.98", "0").replace("1238.00", "0"))
        self.assertEqual(repr(equal.book.pairs[0].ij), "(0.0, 0.0)")
        self.assertTrue(equal.book.pairs[0].ideal)

    def test_energies_without_a_molar_volume(self):
        text = SMALL.replace("molar volume = 18.07 cm3/mol\n", "")
        self.assertEqual(parse(text).book, parse(SMALL).book)  # a and b need none
        with self.assertRaisesRegex(DeskError, r"wilson p w: an energy needs a 'molar volume = ... cm3/mol' of w"):
            parse(text.replace("a 2.5", "energy 437.98 cal/mol"))

    def test_bad_texts(self):
        for old, new, words in BAD:
            with self.subTest(new=new[:60], words=words):
                self.assertIn(old, SMALL)
                with self.assertRaises(DeskError) as caught:
                    parse(SMALL.replace(old, new, 1))
                self.assertIn(words, str(caught.exception))
                self.assertNotIn("\n", str(caught.exception))

    def test_wilson_lines_in_an_nrtl_text(self):
        with self.assertRaisesRegex(DeskError, r"line \d+: \[pair w p\] has 'wilson w p', which is of Wilson"):
            parse(NRTL.replace("interval =", "wilson w p = a 1\ninterval ="))

    def test_round_trips(self):
        yard = open_yard(str(ALCOHOLS))
        content = books.encode(yard.book)
        self.assertEqual(books.decode(content), yard.book)
        again = parse(write(Yard(yard.names, books.decode(content), yard.sources)))
        self.assertEqual((again.names, again.book, again.sources), (yard.names, yard.book, yard.sources))

    def test_generated_books_round_trip(self):
        for book in cases.wilson_books():
            content = books.encode(book)
            self.assertEqual(repr(books.decode(content)), repr(book))  # repr tells -0.0 from 0.0
            names = tuple(f"s{place}" for place in range(len(book.solvents)))
            self.assertEqual(books.encode(parse(write(Yard(names, book))).book), content)

    def test_damaged_texts(self):
        """A text with a few characters changed is refused in one line, or is a book that reads back."""
        rng = random.Random(29)
        counts = {True: 0, False: 0}
        for _ in range(800):
            characters = list(SMALL)
            for _ in range(rng.randint(1, 2)):
                place = rng.randrange(len(characters))
                characters[place : place + rng.randint(0, 2)] = rng.choice("0123456789.eE+-=:[], #KC\n")
            try:
                book = parse("".join(characters)).book
            except DeskError as error:
                self.assertNotIn("\n", str(error))
                counts[False] += 1
            else:
                self.assertEqual(books.decode(books.encode(book)), book)
                counts[True] += 1
        self.assertTrue(min(counts.values()) > 20, counts)


class WilsonBlocks(unittest.TestCase):
    def test_words_by_hand(self):
        book = parse(SMALL).book
        for version in (2, 3):
            content = books.encode(book, version)
            head, _, _, pair = split(content)
            self.assertEqual(head[:5], [1, version, 2, 1, 0])
            floats = [2.5, 0.0, -0.12, 345.6]
            self.assertEqual(pair[:7], [3, 0, 1] + [bits_of(value) for value in floats])
            self.assertEqual(pair[7:15], [0] * 8)
            self.assertEqual(pair[15:19], [1, bits_of(300.0), bits_of(350.0), 1])
            self.assertEqual(pair[19:63], [0] * 44)
            self.assertEqual(rule_of(content), Rule.RUNNING if version == 3 else Rule.PLAIN)
            self.assertTrue(all(check_right(words, rule_of(content)) for words in split(content)))
        self.assertEqual(books.encode(book), books.encode(book, 3))

    def test_all_but_the_pairs_is_as_in_nrtl(self):
        for wilson in cases.wilson_books():
            pairs = tuple(Pair((0.0,) * 4, (0.0,) * 4, (0.3, 0.0), pair.interval) for pair in wilson.pairs)
            nrtl = split(books.encode(replace(wilson, pairs=pairs, model=Model.NRTL)))
            n = len(wilson.solvents)
            for place, (ours, theirs) in enumerate(zip(split(books.encode(wilson)), nrtl)):
                same = set(range(63)) - ({3} if place == 0 else set(range(3, 15)) if place > n else set())
                self.assertEqual([ours[k] for k in same], [theirs[k] for k in same])

    def test_a_book_of_one_solvent_says_its_model(self):
        first = parse(SMALL[: SMALL.index("[solvent w]")]).book
        self.assertEqual(split(books.encode(first))[0][:4], [1, 3, 1, 1])
        self.assertEqual(books.decode(books.encode(first)), first)

    def test_version_1_has_nrtl_alone(self):
        book = parse(SMALL).book
        with self.assertRaisesRegex(DeskError, "a Wilson book is of version 2 or 3"):
            books.encode(book, 1)
        bare = replace(book, solvents=tuple(replace(solvent, molar_mass=None) for solvent in book.solvents))
        with self.assertRaisesRegex(DeskError, "a Wilson book is of version 2 or 3"):
            books.encode(bare)

    def test_pairs_are_of_the_book_s_model(self):
        book = parse(SMALL).book
        for pairs, model in ((book.pairs, Model.NRTL), (parse(NRTL).book.pairs, Model.WILSON)):
            with self.assertRaisesRegex(DeskError, f"a pair is not one of a {model.title} book"):
                books.Book(book.solvents, pairs, model)

    def test_other_models_aren_t_read(self):
        blocks = split(books.encode(parse(SMALL).book))
        for version, model in ((3, 2), (2, 2**64 - 1), (1, 1), (1, 7)):
            content = joined([[1, version, 2, model] + blocks[0][4:]] + blocks[1:])
            self.assertIsNone(books.model_of(content))
            with self.assertRaisesRegex(DeskError, f"gives model {model}; there are 0, NRTL, and 1, Wilson"):
                books.decode(content)

    def test_words_that_are_unread_there(self):
        """7 to 14 of a Wilson pair."""
        book = parse(SMALL).book
        blocks = split(books.encode(book))
        blocks[3][7:15] = [bits_of(float("nan")), 1, 2**64 - 1] + [5] * 5
        self.assertEqual(books.decode(joined(blocks)), book)

    def test_the_shorter_book_keeps_the_model(self):
        content = books.encode(open_yard(str(ALCOHOLS)).book)
        shorter = shorter_book(content, [0, 2, 4])
        head = split(shorter)[0]
        self.assertEqual(head[:4], [1, 3, 3, 1])
        long, short = books.decode(content), books.decode(shorter)
        due = dict(zip(books.due_pairs(5), long.pairs))
        self.assertEqual(short.pairs, (due[0, 2], due[0, 4], due[2, 4]))
        self.assertEqual(short.model, Model.WILSON)
        alone = books.decode(shorter_book(content, [3]))
        self.assertEqual((alone.model, alone.pairs), (Model.WILSON, ()))

    def test_ideal_pairs(self):
        book = open_book(str(ALCOHOLS))
        found = {names: pair.ideal for names, pair in pairs_of(book.content, book.names, (0.2,) * 5)}
        self.assertEqual(len(found), 10)
        for names, ideal in found.items():
            self.assertEqual(ideal, "water" not in names, names)


class Commands(InFolder):
    def test_book(self):
        run = sheet("book", str(ALCOHOLS), "-o", "book.bin", cwd=self.folder)
        self.assertEqual((run.status, run.err), (0, ""))
        self.assertIn("book.bin: 5 solvents, 10 pairs, Wilson, 8192 bytes, version 3, SHA-256", run.out)
        written = (self.folder / "book.bin").read_bytes()
        self.assertEqual(written, books.encode(open_yard(str(ALCOHOLS)).book))
        run = sheet("book", str(ALCOHOLS), "-o", "book.bin", "--book-version", "2", cwd=self.folder)
        self.assertIn("Wilson, 8192 bytes, version 2, SHA-256", run.out)
        self.assertEqual(books.decode((self.folder / "book.bin").read_bytes()), books.decode(written))

    def test_version_1_in_words(self):
        run = sheet("book", str(ALCOHOLS), "-o", "book.bin", "--book-version", "1", cwd=self.folder)
        words = "sheet: --book-version: version 1 has NRTL alone, and the text's model is Wilson\n"
        self.assertEqual((run.status, run.err, list(self.folder.iterdir())), (2, words, []))

    def test_a_text_that_lacks_molar_masses(self):
        run = sheet("show", self.file("yard.txt", SMALL.replace(MASS, "")))
        self.assertEqual(run.status, 2)
        self.assertIn("is not a book: a Wilson book has the molar mass of every solvent", run.err)

    def test_show(self):
        out = sheet("show", str(ALCOHOLS)).out
        self.assertIn("5 solvents, a book of version 3, Wilson\n", out)
        row = "water and methanol 0.812712 -236.287 -0.812712 -54.0357 337 to 374 yes"
        self.assertIn(row, " ".join(out.split()))
        content = books.encode(open_yard(str(ALCOHOLS)).book)
        text = sheet("show", self.file("book.bin", content), "--text").out
        self.assertTrue(text.startswith("model = wilson\n\n[solvent "), text[:40])
        self.assertEqual(books.encode(parse(text).book), content)
        self.assertNotIn("model", sheet("show", str(YARD), "--text").out)

    def test_show_of_another_model(self):
        blocks = split(books.encode(parse(SMALL).book))
        blocks[0][3] = 2
        run = sheet("show", self.file("book.bin", joined(blocks)))
        self.assertEqual(run.status, 2)
        self.assertIn("is not a book: its first block gives model 2", run.err)

    def test_37_is_explained(self):
        out = sheet("refusals", "37").out
        self.assertIn("the book's model is neither NRTL nor, from version 2 on, Wilson", out)
        self.assertIn("'model = wilson' and the molar mass of every solvent", out)


class Named(InFolder):
    """Sheets of a stand-in for the program, which answers with the task and nothing else, or refuses."""

    def answering(self, number: int = 0) -> str:
        return self.program(
            [
                "task = struct.unpack('<64Q', sys.stdin.buffer.read())[1]",
                f"words = [9, task if {number} == 0 else 0, {number}] + [0] * 60",
                "words[37] = 1",
                "kind, version = struct.unpack('<2Q', open('book.bin', 'rb').read(16))",
                "check = sum((63 - k) * word if version == 3 else word for k, word in enumerate(words))",
                "sys.stdout.buffer.write(struct.pack('<64Q', *words, check % 2**64))",
            ]
        )

    def asked(self, book: str, number: int = 0):
        asked = ("excess", "--book", book, "--drum", "67-63-0=0.5,7732-18-5=0.5", "--temperature", "70C")
        asked += ("--program", self.answering(number))
        return sheet(*asked), json.loads(sheet(*asked, "--json").out)

    def test_sheets(self):
        assumed = "assumed (Wilson's equation can't show two)"
        for text, model, words, known in ((NRTL, "NRTL", "yes", True), (SMALL, "Wilson", assumed, None)):
            run, found = self.asked(self.file("yard.txt", text))
            self.assertEqual(run.status, 0, run.err)
            self.assertRegex(run.out, rf"  Book +\S+, 2 solvents, {model}, SHA-256\s")
            self.assertIn(f"  one liquid layer: {words}\n", run.out)
            self.assertEqual((found["book"]["model"], found["one_liquid_layer"]), (model, known))

    def test_layers_of_wilson(self):
        book = self.file("yard.txt", SMALL)
        for drum in (("--drum", "p=0.5,w=0.5"), ("--pair", "p,w")):
            asked = ("layers", "--book", book, *drum, "--temperature", "70C", "--program", self.answering())
            out = sheet(*asked).out
            self.assertIn("  one liquid layer: assumed (Wilson's equation can't show two)\n", out)
            self.assertIn("question for a handbook, or for a book by NRTL.\n", out)
            found = json.loads(sheet(*asked, "--json").out)
            self.assertEqual((found["book"]["model"], found["one_liquid_layer"]), ("Wilson", None))

    def test_refused_with_37(self):
        blocks = split(books.encode(parse(SMALL).book))
        for version, model in ((3, 7), (1, 1)):
            head = [1, version, 2, model] + blocks[0][4:]
            run, found = self.asked(self.file("book.bin", joined([head] + blocks[1:])), 37)
            self.assertEqual(run.status, 1)
            self.assertRegex(run.out, rf"2 solvents, model {model}, SHA-256\s")
            self.assertIn("REFUSED, number 37: ", run.out)
            detail = f"word 3 of its first block is {model}, in version {version}"
            self.assertIn(detail, " ".join(run.out.split()))
            self.assertEqual((found["book"]["model"], found["refusal"]["detail"]), (None, detail))

    def test_notes(self):
        blocks = Blocks([0] * 13 + [0b111] + [0] * 50, ())
        self.assertEqual(blocks.notes(), list(NOTE_WORDS))
        self.assertEqual(blocks.notes(Model.NRTL), list(NOTE_WORDS))
        names, words = zip(*blocks.notes(Model.WILSON))
        self.assertEqual(names, tuple(name for name, _ in NOTE_WORDS))
        self.assertEqual(words[0], "Wilson liquid with an ideal-gas vapor")
        self.assertEqual(words[1], NOTE_WORDS[1][1])
        self.assertIn("they can't tell whether a real one splits", words[2])

    def test_37_is_put_before_a_feed_by_mass_is_converted(self):
        asked = ("excess", "--book", self.file("yard.txt", SMALL), "--mass", "p=0.5,w=0.5", "--temperature", "70C")
        self.assertNotIn("By moles", sheet(*asked, "--program", self.answering(37)).out)
        self.assertIn("By moles", sheet(*asked, "--program", self.answering(25)).out)

    def test_words_of_a_model(self):
        for text, words in ((NRTL, "NRTL"), (SMALL, "Wilson")):
            content = books.encode(parse(text).book)
            self.assertEqual(NamedBook(content, ("p", "w"), (1, 2), "book.bin").model_words, words)


class Solvents(unittest.TestCase):
    def test_those_of_both_yards_are_the_same(self):
        ours, theirs = (open_yard(str(path)) for path in (ALCOHOLS, YARD))
        common = [name for name in ours.names if name in theirs.names]
        self.assertEqual(common, ["water", "methanol", "ethanol", "2-propanol"])
        for name in common:
            records = [yard.book.solvents[yard.names.index(name)] for yard in (ours, theirs)]
            self.assertEqual(*records)
            self.assertEqual(ours.sources[name,], theirs.sources[name,])
            self.assertEqual(ours.boiling[name], theirs.boiling[name])
