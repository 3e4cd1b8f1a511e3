"""A refusal in words: the core's phrases, where the book said no, and whose that is."""

import json
import re
import unittest
from dataclasses import replace
from pathlib import Path

from desk import answer, places, refusals
from desk.batch import CallRefused
from desk.blocks import joined, packed, sealed, split
from desk.book import block_count, due_pairs, encode, pair_place
from desk.core import Core
from desk.openbook import open_yard
from desk.places import NOWHERE, OFFERED, Place
from desk.question import Question
from desk.tasks import FLASH

from .support import ROOT, YARD, InFolder, sheet

PHRASES = ROOT / "crates" / "sentences" / "specs" / "Sentence.antt"
INFINITY = 0x7FF0000000000000
ASKED = ("--drum", "ethanol=0.5,water=0.5", "--temperature", "72C", "--pressure", "1bar")
EVERY = [NOWHERE, OFFERED, *(Place(places.A_BLOCK, k) for k in (*range(41), 2**64 - 1))]
EVERY += [Place(places.A_PAIR, i, j) for i, j in due_pairs(8)]


class Phrases(unittest.TestCase):
    def test_matters_are_the_definitions(self):
        found = re.findall(r'^ +∷ codes "(.*)"$', PHRASES.read_text(encoding="utf-8"), re.MULTILINE)
        self.assertEqual([refusals.matter(number) for number in range(1, len(found) + 1)], found)
        self.assertEqual(set(refusals.REFUSALS), set(range(1, len(found) + 1)))

    def test_places_are_the_definitions(self):
        text = PHRASES.read_text(encoding="utf-8")
        for case, place in (("Block k", Place(1, 5)), ("Pair i j", Place(2, 5, 5)), ("Offered", OFFERED)):
            codes = re.search(rf"^where_of \(?{case}\)? = (.*)$", text, re.MULTILINE).group(1)
            written = re.sub(r"decimal \w", '"5"', codes)
            self.assertEqual("".join(re.findall(r'"(.*?)"', written)), f" ({place.words})")
        self.assertIn('sentence_of r p = decimal r ++ codes ": " ++ matter r ++ where_of p ++ codes "."', text)

    def test_each_has_a_place_that_is_read_back(self):
        found = [refusals.sentence(number, place) for number in refusals.REFUSALS for place in EVERY]
        self.assertTrue(all(sentence.isascii() and len(sentence) <= 160 for sentence in found))
        self.assertEqual([places.read(sentence) for sentence in found], EVERY * len(refusals.REFUSALS))
        ordered = sorted(found)
        self.assertFalse([a for a, b in zip(ordered, ordered[1:]) if b.startswith(a)])

    def test_what_is_no_sentence_has_no_place(self):
        for text in ("", "4: wrong (block 3)", "4: wrong (block 3). ", "4: wrong (block x).", "4: wrong (solvents 1)."):
            self.assertEqual(places.read(text), NOWHERE)


class Names(unittest.TestCase):
    def test_whose_a_block_is(self):
        for n in range(1, 9):
            self.assertEqual(Place(1, 0).solvents(n), ())
            for i in range(n):
                self.assertEqual(Place(1, 1 + i).solvents(n), (i,))
            for pair in due_pairs(n):
                self.assertEqual(Place(1, pair_place(n, *pair)).solvents(n), pair)
            for k in (block_count(n), 2**64 - 1):
                self.assertEqual(places.named(Place(1, k), ["x"] * n), "")

    def test_words(self):
        names = ("water", "ethanol", "acetone")
        for place, words in (
            (NOWHERE, ""),
            (Place(1, 0), "block 0 is the head of the book"),
            (Place(1, 3), "block 3 is that of acetone"),
            (Place(1, 5), "block 5 is that of water and acetone"),
            (Place(2, 1, 2), "solvents 1 and 2 are ethanol and acetone"),
            (OFFERED, ""),
        ):
            self.assertEqual(places.named(place, names), words)
        whose = "the offered block is that of water and acetone"
        self.assertEqual(places.named(OFFERED, names, ("water", "acetone")), whose)


class Sheets(InFolder):
    """Of a book whose blocks are changed, by the program."""

    def setUp(self) -> None:
        super().setUp()
        self.blocks = split(encode(open_yard(str(YARD)).book))

    def book(self, *changes, sealed_first: bool = False) -> str:
        """With these words in place of its own, and the checks of either."""
        changed = [list(words) for words in self.blocks]
        for block, word, value in changes:
            changed[block][word] = value
        content = joined(changed)
        if sealed_first:
            checks = [words[63] for words in split(joined(self.blocks))]
            content = b"".join(packed([*words[:63], check]) for words, check in zip(changed, checks))
        return self.file("book.bin", content)

    def asked(self, command: str, book: str, *more: str):
        return sheet(command, "--book", book, "--names", str(YARD), *ASKED, *more)

    def test_places(self):
        cas = self.blocks[1][2]
        for number, place, whose, changes in (
            (2, "block 5", "block 5 is that of 2-propanol", [(9, 5, 1), (5, 9, 1)]),
            (4, "block 2", "block 2 is that of ethanol", [(6, 0, 1), (2, 0, 1), (3, 0, 1)]),
            (5, "block 3", "block 3 is that of methanol", [(3, 3, INFINITY), (4, 3, INFINITY)]),
            (6, "solvents 0 and 3", "solvents 0 and 3 are water and water", [(4, 2, cas), (6, 2, cas)]),
            (7, "block 8", "block 8 is that of water and methanol", [(8, 18, 2), (20, 0, 1)]),
            (8, "block 7", "block 7 is that of water and ethanol", [(7, 3, INFINITY), (8, 4, INFINITY)]),
            (9, "block 21", "block 21 is that of 2-propanol and toluene", [(21, 13, 1)]),
            (37, "", "word 3 of its first block is 9, in version 3", [(0, 3, 9)]),
        ):
            with self.subTest(number):
                path = self.book(*changes, sealed_first=number == 2)
                said = f"{number}: {refusals.matter(number)}{f' ({place})' if place else ''}."
                run = self.asked("flash", path)
                self.assertEqual((run.status, run.err), (1, f"sheet: refused, number {said[:-1]}: {whose}\n"))
                shown = " ".join(run.out.split())
                self.assertIn(f"REFUSED, number {said} Here: {whose}. What to do: ", shown)
                found = json.loads(self.asked("flash", path, "--json").out)["refusal"]
                self.assertEqual((found["number"], found["sentence"], found["detail"]), (number, said, whose))
                self.assertEqual(found["place"] is None, not place)
                self.assertIn(f"REFUSED, number {said}", " ".join(self.asked("flash", path, "--floor").out.split()))
                self.assertIn(f"REFUSED, number {said}", " ".join(self.asked("distance", path).out.split()))

    def test_places_for_programs(self):
        for changes, place in (
            ([(8, 18, 2)], {"block": 8, "solvents": None, "offered": False, "names": ["water", "methanol"]}),
            ([(5, 0, 1)], {"block": 5, "solvents": None, "offered": False, "names": ["2-propanol"]}),
            (
                [(5, 2, self.blocks[4][2])],
                {"block": None, "solvents": [3, 4], "offered": False, "names": ["acetone", "acetone"]},
            ),
        ):
            run = self.asked("flash", self.book(*changes), "--json")
            self.assertEqual(json.loads(run.out)["refusal"]["place"], place)
            floor = self.asked("flash", self.book(*changes), "--json", "--floor")
            self.assertEqual(json.loads(floor.out)["refusal"], json.loads(run.out)["refusal"])

    def test_lists_end_in_one_line(self):
        """A book that is refused ends the whole call, and has no sheet."""
        path, week = self.book((8, 18, 2)), str(ROOT / "yard" / "week.csv")
        run = sheet("flash", "--drums", week, "--book", path, "--names", str(YARD), *ASKED[2:])
        said = f"refused, number {refusals.sentence(7, Place(1, 8))[:-1]}"
        self.assertEqual((run.status, run.err), (1, f"sheet: {said}: block 8 is that of water and methanol\n"))
        shift = str(ROOT / "yard" / "shift.csv")
        run = sheet("queue", "--questions", shift, "--allowance", "9999", "--book", path, "--names", str(YARD))
        self.assertEqual((run.status, run.err), (1, f"sheet: {said}: block 8 is that of water and methanol\n"))


class Programs(InFolder):
    """What a program writes to standard error."""

    def found(self, number: int, *lines: str) -> answer.Blocks:
        stored = self.file("answer.bin", sealed([9, 0, number]))
        body = ["sys.stdin.buffer.read()", *lines, f"sys.stdout.buffer.write(open({stored!r}, 'rb').read())"]
        with Core(b"", Path(self.program(body))) as core:
            return core.ask(Question(FLASH, (1.0,), 300.0, 1e5))

    def test_its_sentence(self):
        said = refusals.sentence(5, Place(1, 4))
        blocks = self.found(5, f"sys.stderr.write({said + chr(10)!r})")
        self.assertEqual((blocks.sentence, blocks.place), (said, Place(1, 4)))
        other = "5: said otherwise by a later core (solvents 2 and 3)."
        blocks = self.found(5, f"sys.stderr.write({other!r})")
        self.assertEqual((blocks.sentence, blocks.place), (other, Place(2, 2, 3)))

    def test_none(self):
        """Of an earlier program, or of one that says something else there."""
        odd = ("5: \x07.", "\udcff\n", "x" * 9999)
        for text in ("", "5", "5: unended", "6: of another number.", "5: two.\n5: lines.", *odd):
            blocks = self.found(5, f"sys.stderr.buffer.write({text.encode('utf-8', 'surrogateescape')!r})")
            self.assertEqual((blocks.sentence, blocks.place), (refusals.sentence(5), NOWHERE), text)

    def test_too_much(self):
        flood = "sys.stderr.write('x' * 70000)"
        self.assertRaisesRegex(Exception, "wrote more than an answer", self.found, 5, flood)

    def test_an_answer_has_none(self):
        blocks = self.found(0, "sys.stderr.write('5: a warning of the machine (block 1).')")
        self.assertEqual((blocks.said, blocks.place), ("", NOWHERE))

    def test_a_call_that_is_refused(self):
        blocks = replace(answer.Blocks([9, 0, 8, *[0] * 61], ()), place=Place(1, 3))
        refused, line = CallRefused.by(blocks), f"refused, number {refusals.sentence(8, Place(1, 3))[:-1]}"
        self.assertEqual((str(refused), refused.place), (line, Place(1, 3)))
        self.assertEqual(str(refused.of(["a", "b"])), f"{line}: block 3 is that of a and b")


if __name__ == "__main__":
    unittest.main()
