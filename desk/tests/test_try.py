"""A pair that is tried: read from a text, a line or a block, shown as a preview beside the book's own, and nothing
written."""

import json
import os
import re
import unittest
from dataclasses import replace
from unittest import mock

from desk import refusals
from desk.blocks import Rule, bits_of, rule_of, sealed, words_of
from desk.book import Interval, Pair, WilsonPair, encode, pair_place
from desk.core import Core
from desk.library import NAME, offers
from desk.openbook import open_book, open_yard
from desk.parameters import GAS_CONSTANT
from desk.preview import Preview, copy_of, refusal_of
from desk.question import Question
from desk.tasks import BUBBLE_PRESSURE
from desk.tried import offered_of, trying

from .support import ALCOHOLS, ROOT, YARD, InFolder, contents, sheet

TRY = str(ROOT / "yard" / "try.txt")
DRUM = ("--drum", "ethanol=0.5,water=0.3,acetone=0.2")
PAIR = ("--drum", "ethanol=0.5,water=0.5")
SPLITS = "pair toluene water: tau toluene water = t1 1000 K; tau water toluene = t1 1500 K; alpha = 0.2"
MIXES = "pair toluene water: tau toluene water = t1 100 K; tau water toluene = t1 150 K; alpha = 0.2"
WILSON = "pair ethanol water: wilson ethanol water = energy 300 cal/mol; wilson water ethanol = energy 900 cal/mol"
TP, T, P = ("--temperature", "72C", "--pressure", "1bar"), ("--temperature", "72C"), ("--pressure", "101325Pa")
TOLUENE = ("--drum", "toluene=0.02,water=0.98")
CASES = {
    "try-flash": (0, ("flash", *DRUM, *TP, "--try", TRY, "--label", "drum 17")),
    "try-bubble": (0, ("bubble-temperature", *TOLUENE, *P, "--try", MIXES)),
    "try-marked": (3, ("bubble-temperature", *TOLUENE, *P, "--try", SPLITS)),
    "try-dew": (0, ("dew-pressure", "--drum", "ethanol=4kg,water=1kg", *T, "--try", TRY)),
    "try-excess": (0, ("excess", "--drum", "ethanol=1", *T, "--try", TRY)),
    "try-stability": (3, ("stability", "--drum", "toluene=0.4,water=0.6", *T, "--try", SPLITS)),
    "try-absent": (0, ("bubble-pressure", "--drum", "ethanol=0.5,acetone=0.5", *T, "--try", TRY)),
    "try-k": (0, ("rachford-rice", *PAIR, "--k", "ethanol=2,water=0.5", "--try", TRY)),
    "try-pool": (0, ("flash", "--drum", "ethanol=4mol", "--drum", "water=1mol", *TP, "--try", TRY)),
    "try-wilson": (0, ("bubble-pressure", "--book", str(ALCOHOLS), *PAIR, *T, "--try", WILSON)),
    "try-layers": (0, ("layers", "--drum", "toluene=0.4,water=0.6", "--temperature", "25C", "--try", SPLITS)),
    "try-drums": (1, ("flash", "--drums", str(ROOT / "yard" / "week.csv"), *TP, "--try", TRY)),
    "try-strike": (0, ("strike", "bubble-pressure", *PAIR, *T, "--try", TRY)),
}
BAD = {
    "--try: nowhere: No such file or directory (a file, or 'pair NAME NAME: key = value; key = value')": "nowhere",
    "--try: yard/yard.txt is no pair to try: it has 21 headings, and one is due, [pair NAME NAME]": str(YARD),
    "--try: [pair ethanol water]: 'tau ethanol water' is missing": "pair ethanol water: alpha = 3",
    "names wine, which is no solvent of this book": "pair ethanol wine: alpha = 3",
    "[pair ethanol Ethanol] names one solvent twice": "[pair ethanol Ethanol] alpha = 3",
    "line 3: [pair ethanol water] has no key 'tua ethanol water'; did you mean tau ethanol water?": (
        "pair ethanol water: alpha = 0.3; tua ethanol water = t0 1; tau ethanol water = t0 1; "
        "tau water ethanol = t0 1"
    ),
    "line 2: [pair ethanol water] has 'wilson ethanol water', which is of Wilson, and the book's model is NRTL": WILSON,
    "line 1: the model is Wilson, and that of the book NRTL": "wilson.txt",
    "--try: [pair ethanol water] alpha a0: 'x' is not a number": (
        "pair ethanol water: tau ethanol water = t0 1; tau water ethanol = t0 1; alpha = x"
    ),
    "is neither a text in UTF-8 nor a block of 512 bytes": "bytes.txt",
    "empty.txt is no pair to try: it has 0 headings": "empty.txt",
}
OFFERED = {1: (None, 511), 2: (63, 0), 7: (2, 0), 8: (4, bits_of(float("inf"))), 9: (13, bits_of(0.3))}


def own_pair(content: bytes) -> bytes:
    """Of water and ethanol."""
    return content[512 * pair_place(6, 0, 1) :][:512]


def damaged(number: int) -> bytes:
    """The yard's own pair, so that the core refuses it when it is offered."""
    content, (at, value) = open_book(str(YARD)).content, OFFERED[number]
    if at is None:
        return own_pair(content)[:value]
    words = words_of(own_pair(content))
    words[at] = value
    return sealed(words[:63], Rule.PLAIN if number == 2 else rule_of(content))


class Offered(InFolder):
    def test_a_pair_as_many_hands_write_it(self):
        book = open_book(str(YARD))
        section = (ROOT / "yard" / "try.txt").read_text(encoding="utf-8")
        turned = (
            "pair Water Ethanol: tau ethanol water = t1 -57.9601 cal/mol;tau WATER ethanol = t1 1241.7396 cal/mol;\n"
            "alpha = 0.2937; interval = 298.15 K to 373.15 K"
        )
        due = offered_of(book, TRY).block
        for given in (
            turned,
            "[" + turned.replace(":", "]", 1),
            self.file("dos.txt", b"\xef\xbb\xbf" + section.replace("\n", "\r\n").encode("utf-8")),
            self.file("nrtl.txt", "model = nrtl\n" + section),
            self.file("block.bin", due),
        ):
            self.assertEqual(offered_of(book, given).block, due, given)
        t1 = [energy / GAS_CONSTANT["cal/mol"] for energy in (1241.7396, -57.9601)]
        taus = [(0.0, term, 0.0, 0.0) for term in t1]
        pair = Pair(*taus, (0.2937, 0.0), Interval(298.15, 373.15, False))
        yard = open_yard(str(YARD))
        self.assertEqual(copy_of(book.content, due), encode(replace(yard.book, pairs=(pair, *yard.book.pairs[1:]))))

    def test_wilson_with_the_texts_molar_volumes(self):
        book, yard = open_book(str(ALCOHOLS)), open_yard(str(ALCOHOLS))
        text = ALCOHOLS.read_text(encoding="utf-8")
        changed = text.replace("325.0757", "300").replace("953.2792", "900").replace(
            "[pair ethanol water]", "[pair ethanol water]\n#"
        )
        changed = re.sub(r"(\[pair ethanol water\](?:\n.+)*?)\ninterval .*\ninferred .*", r"\1", changed)
        due = encode(open_yard(self.file("changed.txt", changed)).book)
        self.assertEqual(copy_of(book.content, offered_of(book, WILSON).block), due)
        plain = "pair ethanol water: wilson ethanol water = a 1, b 2 K; wilson water ethanol = a 3, b 4 K"
        pair = WilsonPair((3.0, 4.0), (1.0, 2.0))
        place = pair_place(5, *sorted(map(yard.names.index, ("ethanol", "water")))) - 6
        pairs = [*yard.book.pairs[:place], pair, *yard.book.pairs[place + 1 :]]
        found = copy_of(book.content, offered_of(book, plain).block)
        self.assertEqual(found, encode(replace(yard.book, pairs=tuple(pairs))))

    def test_refused_in_words(self):
        self.file("wilson.txt", "model = wilson\n[pair ethanol water]\nalpha = 1\n")
        self.file("bytes.txt", b"\xff\xfe[pair")
        self.file("empty.txt", "# nothing\n")
        for words, given in BAD.items():
            with self.subTest(words):
                run = sheet("excess", *PAIR, *T, "--try", given, "--program", "nowhere", cwd=self.folder)
                self.assertEqual((run.status, run.out), (2, ""), run.err)
                self.assertIn(words, run.err)
                self.assertEqual(run.err.count("\n"), 1)

    def test_numbers_as_the_core_puts_them(self):
        """The desk's own 1, 2, 7, 8 and 9, which it puts where the program is asked."""
        content = open_book(str(YARD)).content
        self.assertEqual(refusal_of(own_pair(content), content), 0)
        words, infinity = words_of(own_pair(content)), bits_of(float("inf"))
        for number, at, value in (
            *((7, at, 2) for at in (0, 1, 15, 18)),
            (7, 2, 6),
            *((8, at, infinity) for at in (*range(3, 15), 16, 17)),
            *((9, at, bits_of(0.31)) for at in range(11, 15)),
            (0, 12, bits_of(-0.0)),
            (0, 18, 0),
            (0, 15, 0),
            (0, 19, infinity),
        ):
            block = sealed(words[:at] + [value] + words[at + 1 : 63], rule_of(content))
            self.assertEqual(refusal_of(block, content), number, (at, value))
        for number in OFFERED:
            self.assertEqual(refusal_of(damaged(number), content), number)
            with Preview(Core(content), damaged(number)) as preview:
                self.assertEqual(preview.refusal, number)
                self.assertEqual(preview.ask(Question(BUBBLE_PRESSURE, (), 300.0)).head[:3], [9, 0, number])


class Sheets(InFolder):
    def test_stored(self):
        for name, (status, arguments) in CASES.items():
            with self.subTest(name):
                for ending in ("txt", "json", "details.txt"):
                    options = [] if ending == "txt" else [f"--{ending.split('.')[0]}"]
                    run = sheet(*arguments, *options)
                    self.assertEqual(run.status, status, run.err)
                    self.assert_golden(f"{name}.{ending}", run.out)

    def test_every_sheet_says_that_it_is_a_preview(self):
        for name, (_, arguments) in CASES.items():
            out = sheet(*arguments).out
            self.assertTrue(out.startswith("PREVIEW, "), name)
            self.assertIn("\n*** PREVIEW: ", out)
            self.assertIn("nothing is written into the book", " ".join(out.split()))
            found = json.loads(sheet(*arguments, "--json").out)
            self.assertEqual(len(found["preview"]["pair"]), 2)
            without = [word for k, word in enumerate(arguments) if "--try" not in (word, arguments[k - 1])]
            self.assertNotIn("preview", json.loads(sheet(*without, "--json").out))
            self.assertNotIn("PREVIEW", sheet(*without).out)

    def test_answers_are_those_of_the_changed_book(self):
        """The same bits as from a text with that pair in it; and beside them those of the book itself."""
        text = YARD.read_text(encoding="utf-8").replace("-91.29 cal", "-57.9601 cal").replace("1294.62", "1241.7396")
        text = re.sub(r"351\.44 K to 373\.12 K\ninferred .*\n", "298.15 K to 373.15 K\n", text)
        changed = ("--book", self.file("changed.txt", text))
        for command, options in (
            ("excess", T), ("bubble-pressure", T), ("dew-pressure", T), ("bubble-temperature", P),
            ("dew-temperature", P), ("stability", T), ("flash", TP)
        ):
            exact = (*DRUM, *options, "--json", "--details")
            tried = json.loads(sheet(command, *exact, "--try", TRY).out)
            due, own = (json.loads(sheet(command, *exact, *book).out) for book in (changed, ()))
            for name in ("answer", "one_liquid_layer", "warning", "refusal", "pairs", "question"):
                self.assertEqual(tried[name], due[name], (command, name))
            for name in ("answer", "one_liquid_layer", "refusal"):
                self.assertEqual(tried["preview"]["by_the_book"][name], own[name], (command, name))
            self.assertEqual(tried["book"], own["book"])
            self.assertNotEqual(tried["answer"], own["answer"], command)

    def test_side_by_side(self):
        out = sheet("flash", *DRUM, *TP, "--try", TRY).out
        self.assertRegex(out, r"(?m)^  pair of water and ethanol +in the book +as tried$")
        self.assertRegex(out, r"(?m)^  tau ethanol water t1, K +-45\.9389 +-29\.1667$")
        self.assertNotIn("alpha", out)
        self.assertRegex(out, r"(?m)^  vapor fraction +0\.44753 +0\.46154$")
        words = json.loads(sheet("flash", *DRUM, *TP, "--try", TRY, "--json").out)["preview"]["words"]
        self.assertEqual(words["inferred"], {"in_the_book": True, "as_tried": False})
        self.assertEqual(words["interval to, K"], {"in_the_book": 373.12, "as_tried": 373.15})
        self.assertEqual(len(words), 5)
        marked = sheet("bubble-temperature", *TOLUENE, *P, "--try", MIXES).out
        self.assertRegex(marked, r"(?m)^  temperature +\(4\.05 °C\) +99\.76 °C$")
        self.assertIn("In brackets: numbers of one liquid", marked)

    def test_the_books_own_pair(self):
        path = self.file("own.bin", own_pair(open_book(str(YARD)).content))
        tried, own = (sheet("flash", *DRUM, *TP, "--json", *words).out for words in (("--try", path), ()))
        tried, own = json.loads(tried), json.loads(own)
        self.assertEqual((tried["answer"], tried["preview"]["words"]), (own["answer"], {}))
        out = sheet("flash", *DRUM, *TP, "--try", path).out
        self.assertIn("the pair tried, water and ethanol, is the book's own, word by word", out)

    def test_a_pair_that_does_not_show(self):
        out = " ".join(sheet(*CASES["try-absent"][1]).out.split())
        self.assertIn("The drum holds no water: the pair doesn't show in what it holds, and all is as by the", out)
        self.assertIn("only in coefficients at infinite dilution", " ".join(sheet(*CASES["try-excess"][1]).out.split()))
        self.assertIn("A split by given K values reads no pair", sheet(*CASES["try-k"][1]).out)
        found = json.loads(sheet(*CASES["try-absent"][1], "--json").out)
        self.assertEqual(found["answer"], found["preview"]["by_the_book"]["answer"])

    def test_the_command_to_paste_tries_the_pair_too(self):
        out = sheet("bubble-temperature", *TOLUENE, *P, "--try", SPLITS).out
        self.assertIn(f"./sheet layers --drum water=0.98,toluene=0.02 --pressure 101325Pa --try '{SPLITS}'\n", out)

    def test_nothing_is_written(self):
        path = self.file("yard.txt", YARD.read_bytes())
        sheet("book", path, "-o", "book.bin", cwd=self.folder)
        before = contents(self.folder)
        for book in ("yard.txt", "book.bin"):
            names = ("--names", "yard.txt") if book == "book.bin" else ()
            run = sheet("flash", "--book", book, *names, *DRUM, *TP, "--try", TRY, cwd=self.folder)
            self.assertEqual(run.status, 0, run.err)
        self.assertEqual(contents(self.folder), before)

    def test_diagram(self):
        drawn = ("diagram", "txy", "--pair", "ethanol,water", "--pressure", "101325Pa", "--points", "21")
        run = sheet(*drawn, "-o", "a.svg", "--try", TRY, cwd=self.folder)
        self.assertEqual(run.status, 0, run.err)
        said = "PREVIEW: water and ethanol as tried, from yard/try.txt, not as in the book"
        self.assertIn(f"a.svg: PREVIEW, txy of ethanol and water at 101.325 kPa, NRTL\n  {said}\n", run.out)
        self.assertIn("azeotrope x = 0.8804 at 78.05 °C", run.out)
        picture = (self.folder / "a.svg").read_text(encoding="utf-8")
        self.assertIn("PREVIEW, T-x-y of ethanol and water", picture)
        self.assertIn("as tried", picture)
        run = sheet(*drawn, "-o", "b.svg", "--try", SPLITS, cwd=self.folder)
        self.assertIn("that pair doesn't show here\n  azeotrope x = 0.8940 at 78.11 °C", run.out)

    def test_a_list_of_drums(self):
        out = sheet("bubble-pressure", "--drums", "yard/week.csv", *T, "--try", TRY, "--csv").out
        lines = out.splitlines()
        self.assertTrue(lines[0].startswith("preview,line,label,status,"))
        for line in lines[1:]:
            self.assertTrue(line.startswith('"water and ethanol as tried, not as in the book",'), line)
        out = sheet("flash", "--drums", "yard/week.csv", *TP, "--try", TRY).out
        self.assertIn("--pressure 100000Pa --try yard/try.txt\n", out)


class Refused(InFolder):
    """Numbers of the offered block, as distinct from the book's."""

    def test_each_number(self):
        for number in OFFERED:
            path = self.file("pair.bin", damaged(number))
            run = sheet("flash", *DRUM, *TP, "--try", path)
            said = f"{number}: {refusals.matter(number)} (the offered block)."
            named = ["water", "ethanol"] if number in (2, 8, 9) else None
            whose = ": the offered block is that of water and ethanol" if named else ""
            line = f"sheet: refused, number {said[:-1]}{whose}\n"
            self.assertEqual((run.status, run.err), (1, line))
            self.assertIn(f"REFUSED, number {said}", " ".join(run.out.split()))
            self.assertEqual("Here: the offered block is that of water and ethanol." in run.out, bool(named))
            self.assertNotIn("side by side", run.out)
            found = json.loads(sheet("flash", *DRUM, *TP, "--try", path, "--json").out)
            self.assertEqual((found["refusal"]["number"], found["refusal"]["sentence"]), (number, said))
            place = {"block": None, "solvents": None, "offered": True, "names": named or []}
            self.assertEqual(found["refusal"]["place"], place)
            self.assertEqual((found["preview"]["refused"], found["preview"]["words"]), (number, None))
            self.assertIsNone(found["answer"])
            for command in (
                ("layers", *DRUM, *T),
                ("diagram", "txy", "--pair", "ethanol,water", *P, "-o", "a.svg"),
                ("flash", "--drums", str(ROOT / "yard" / "week.csv"), *TP),
            ):
                run = sheet(*command, "--try", path, cwd=self.folder)
                self.assertEqual((run.status, run.out, run.err), (1, "", line))
            self.assertEqual(list(contents(self.folder)), ["pair.bin"])

    def test_the_books_numbers_come_first(self):
        content = open_book(str(YARD)).content
        book = self.file("book.bin", content[:600] + b"\1" + content[601:])
        for number in OFFERED:
            path = self.file("pair.bin", damaged(number))
            asked = ("--book", book, "--drum", "64-17-5=1", *TP, "--try", path)
            run = sheet("flash", *asked)
            self.assertIn("REFUSED, number 2: ", run.out)
            whose = "block 1 is that of 7732-18-5"
            self.assertEqual(run.err, f"sheet: refused, number 2: {refusals.matter(2)} (block 1): {whose}\n")
            found = json.loads(sheet("flash", *asked, "--json").out)
            self.assertEqual((found["preview"]["refused"], found["preview"]["by_the_book"]), (None, None))

    def test_what_the_core_says_of_the_copy(self):
        """A pair that passes, and that the calculation refuses: 24 is no number of the offered block."""
        given = "pair ethanol water: tau ethanol water = t0 1; tau water ethanol = t0 1; alpha = -1"
        run = sheet("flash", *DRUM, *TP, "--try", given)
        self.assertIn("REFUSED, number 24: ", run.out)
        self.assertRegex(run.out, r"(?m)^  refused +- +number 24$")
        self.assertTrue(run.err.startswith("sheet: refused, number 24: "), run.err)

    def test_numbers_are_explained(self):
        out = sheet("refusals", "7", "10").out
        self.assertEqual(out.count("of a pair that is tried: "), 1)
        self.assertEqual(set(refusals.OFFERED), set(OFFERED))


class WhoIsAsked(InFolder):
    def test_the_program_where_no_library_has_the_call(self):
        with mock.patch.dict(os.environ, {"ZEKTONK_LIB": str(self.folder)}):
            self.assertFalse(offers("zektonk_preview"))
            (self.folder / NAME).write_bytes(b"no library")
            self.assertFalse(offers("zektonk_preview"))
            self.assertEqual(sheet("flash", *DRUM, *TP, "--try", TRY).status, 0)

    def test_copies_are_closed_with_the_book(self):
        book = open_book(str(YARD))
        with Core(book.content) as core:
            asked, copy, tried = trying(core, book, offered_of(book, TRY))
            asked.ask(Question(BUBBLE_PRESSURE, (0.5, 0.5), 350.0))
            folders = [core._folder.name, *(other._folder.name for other in core._copies.values())]
            self.assertEqual((len(folders), tried.book, copy.trying), (2, book, "--try yard/try.txt"))
            self.assertTrue(all(map(os.path.isdir, folders)))
        self.assertFalse(any(map(os.path.isdir, folders)))


if __name__ == "__main__":
    unittest.main()
