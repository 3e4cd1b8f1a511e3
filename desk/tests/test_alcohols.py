"""What the core answers by Wilson's equation: the alcohol yard against the world, its document and its fits; an
independent calculation; striking; number 37."""

import contextlib
import io
import itertools
import json
import math
import random
import subprocess

from desk import answer, core, tasks
from desk import book as books
from desk.blocks import BLOCK, bits_of, joined, split
from desk.core import Core
from desk.judgement import judged
from desk.openbook import named, open_yard
from desk.question import Question
from desk.sheet import NamedBook
from desk.sweep import Setting, Sweep, azeotropes
from desk.yardcheck import check, markdown
from desk.yardtext import parse

from . import wilson
from .support import ALCOHOLS, ROOT, YARD, InFolder, sheet
from .test_wilson import NRTL, SMALL

ATMOSPHERE = 101325.0
BOOK = ("--book", "yard/alcohols.txt")
DRUM = ("--drum", "ethanol=0.5,water=0.3,1-propanol=0.2")
CASES = {
    "wilson-excess": ("excess", *BOOK, *DRUM, "--temperature", "80C"),
    "wilson-flash": ("flash", *BOOK, *DRUM, "--temperature", "82C", "--pressure", "1bar", "--label", "drum 20"),
    "wilson-bubble": ("bubble-temperature", *BOOK, "--drum", "2-propanol=30kg,water=20kg", "--pressure", "1atm"),
    "wilson-dew": ("dew-temperature", *BOOK, *DRUM, "--pressure", "1atm"),
    "wilson-stability": ("stability", *BOOK, *DRUM, "--temperature", "80C"),
    "wilson-layers": ("layers", *BOOK, *DRUM, "--temperature", "25C"),
}


class AlcoholYard(InFolder):
    @classmethod
    def setUpClass(cls) -> None:
        with contextlib.redirect_stderr(io.StringIO()):  # its progress line
            cls.findings = check(str(ALCOHOLS), core.PROGRAM)

    def test_boiling_points_and_azeotropes(self):
        self.assertEqual([finding for finding in self.findings if not finding.passed], [])
        kinds = [finding.kind for finding in self.findings]
        self.assertEqual([kinds.count(kind) for kind in ("pure", "mixture", "azeotrope")], [5, 6, 3])
        limits = {finding.what: finding.within for finding in self.findings if finding.within}
        self.assertEqual(limits, {"1-propanol and water": (0.5, 0.025), "2-propanol and water": (0.5, 0.04)})

    def test_the_textbook_s_azeotrope(self):
        """Of 2-propanol and water at 353.15 K, with its vapor pressures: 0.7173 at 92.59 and 47.38 kPa."""
        yard = open_yard(str(ALCOHOLS))
        places = [yard.names.index(name) for name in ("2-propanol", "water")]
        x = tuple(dict(zip(places, (0.7173, 1 - 0.7173))).get(place, 0.0) for place in range(5))
        with Core(books.encode(yard.book)) as program:
            blocks = program.ask(Question(tasks.EXCESS, x, 353.15))
        propanol, water = (blocks.real(answer.LIQUID + place) for place in places)
        self.assertAlmostEqual(water - propanol, math.log(92.59 / 47.38), delta=2e-4)

    def test_infinite_dilution_in_water(self):
        """As the document has them."""
        text = (ROOT / "docs" / "ALCOHOLS.md").read_text(encoding="utf-8")
        yard = open_yard(str(ALCOHOLS))
        with Core(books.encode(yard.book)) as program:
            for name in ("methanol", "ethanol", "1-propanol", "2-propanol"):
                pure, place = (1.0,) + (0.0,) * 4, answer.LIQUID + yard.names.index(name)
                logs = [program.ask(Question(tasks.EXCESS, pure, kelvin)).real(place) for kelvin in (373.12, 298.15)]
                self.assertIn(f"| {name} | {math.exp(logs[0]):.1f} | {math.exp(logs[1]):.1f} |\n", text)

    def test_no_other_azeotropes(self):
        """At 101325 Pa methanol and water have none, as published, nor have two of these alcohols."""
        yard = open_yard(str(ALCOHOLS))
        book = named(yard, str(ALCOHOLS))
        known = {frozenset(pair) for pair in yard.azeotropes}
        others = [pair for pair in itertools.combinations(yard.names, 2) if frozenset(pair) not in known]
        self.assertEqual(len(others), 7)
        with Core(book.content) as program:
            for pair in others:
                sweep = Sweep(program, Setting(book, *map(book.names.index, pair), pressure=ATMOSPHERE))
                self.assertEqual(azeotropes(sweep, [sweep.bubble(k / 10) for k in range(11)]), [], pair)

    def test_tables_of_the_document(self):
        self.assertIn(markdown(self.findings), (ROOT / "docs" / "ALCOHOLS.md").read_text(encoding="utf-8"))

    def test_every_record_has_a_source(self):
        self.assertEqual(len(open_yard(str(ALCOHOLS)).sources), 5 + 10)

    def test_fitted_numbers_are_those_of_the_script(self):
        text = ALCOHOLS.read_text(encoding="utf-8")
        script = [ROOT / "scripts" / "fit-yard", "alcohols"]
        lines = subprocess.run(script, capture_output=True, text=True, check=True).stdout.splitlines()
        self.assertEqual(len(lines), 4)
        for line in lines:
            name, _, numbers = line.partition(": ")
            section = text[text.index(f"[solvent {name}]") :].split("\n\n")[0]
            for term in numbers.split(";")[0].split(", "):
                self.assertIn(f"= {term}\n", section)

    def test_sheets(self):
        for name, arguments in CASES.items():
            with self.subTest(name):
                run, as_json, details = (sheet(*arguments, *options) for options in ((), ("--json",), ("--details",)))
                self.assertEqual((run.status, as_json.status, details.status), (0, 0, 0), run.err)
                self.assertIn(", 5 solvents, Wilson, SHA-256 ", run.out)
                found = json.loads(as_json.out)
                self.assertEqual((found["book"]["model"], found["one_liquid_layer"]), ("Wilson", None))
                self.assertIn("one liquid layer: assumed (Wilson's equation can't show two)\n", run.out)
                for ending, found in (("txt", run.out), ("json", as_json.out), ("details.txt", details.out)):
                    self.assert_golden(f"{name}.{ending}", found)
        self.assertIn("Wilson liquid with an ideal-gas vapor.", sheet(*CASES["wilson-flash"]).out)

    def test_a_drum_of_one_solvent(self):
        """It is one liquid by any model, and -0 of the core is 0."""
        asked = ("excess", *BOOK, "--drum", "ethanol=1", "--temperature", "80C")
        run, found = sheet(*asked), json.loads(sheet(*asked, "--json").out)
        self.assertIn("  one liquid layer: yes\n", run.out)
        self.assertRegex(run.out, r"  excess Gibbs energy +0 J/mol\n")
        self.assertIs(found["one_liquid_layer"], True)
        drums = (*BOOK, "--drum", "ethanol=1", "--temperature", "80C")
        self.assertIn("  one liquid layer: yes\n", sheet("layers", *drums).out)

    def test_diagrams_name_the_model(self):
        for kind in ("txy", "xy"):
            asked = ("diagram", kind, "--book", str(ALCOHOLS), "--pair", "2-propanol,water", "--pressure", "1atm")
            run = sheet(*asked, "--points", "21", "-o", "a.svg", cwd=self.folder)
            self.assertIn(f"a.svg: {kind} of 2-propanol and water at 101.325 kPa, Wilson\n", run.out)
            self.assertRegex(run.out, r"azeotrope x = 0\.71\d\d at 80\.39 °C\n")
            drawn = (self.folder / "a.svg").read_text(encoding="utf-8")
            self.assertIn("of 2-propanol and water at 101.325 kPa, Wilson</text>", drawn)
            for found in (run.out, drawn):
                self.assertIn("one liquid is assumed: Wilson's equation can't show two layers", found)


class Answers(InFolder):
    """The core beside the equation in plain floats."""

    def setUp(self) -> None:
        super().setUp()
        self.book = open_yard(str(ALCOHOLS)).book
        self.content = books.encode(self.book)

    def compositions(self):
        rng = random.Random(31)
        for _ in range(25):
            parts = [rng.choice((0.0, rng.random(), 10.0 ** rng.uniform(-6, 0))) for _ in self.book.solvents]
            if sum(parts) > 0:
                yield tuple(part / math.fsum(parts) for part in parts), rng.uniform(280.0, 440.0)

    def test_excess(self):
        with Core(self.content) as program:
            for x, kelvin in self.compositions():
                blocks = program.ask(Question(tasks.EXCESS, x, kelvin))
                self.assertEqual(blocks.refusal, 0)
                due, after, before = (wilson.excess(self.book, kelvin + step, x) for step in (0.0, 0.01, -0.01))
                for place in range(len(x)):
                    self.assertAlmostEqual(blocks.real(answer.LIQUID + place), due.log_gammas[place], delta=1e-13)
                    slope = (after.log_gammas[place] - before.log_gammas[place]) / 0.02
                    self.assertAlmostEqual(blocks.real(answer.VAPOR + place), slope, delta=1e-9)
                reduced, gibbs, enthalpy, entropy, _ = (blocks.real(answer.ENERGIES + k) for k in range(5))
                self.assertAlmostEqual(reduced, due.reduced_gibbs, delta=1e-13)
                self.assertAlmostEqual(reduced, math.fsum(a * b for a, b in zip(x, due.log_gammas)), delta=1e-13)
                self.assertAlmostEqual(gibbs, wilson.GAS_CONSTANT * kelvin * reduced, delta=1e-9)
                slope = (after.reduced_gibbs - before.reduced_gibbs) / 0.02
                self.assertAlmostEqual(enthalpy, -wilson.GAS_CONSTANT * kelvin**2 * slope, delta=1e-3)
                self.assertAlmostEqual(gibbs, enthalpy - kelvin * entropy, delta=1e-8)

    def test_bubble_pressure(self):
        """Of pure vapor pressures by the core and activity coefficients by the equation."""
        with Core(self.content) as program:
            for x, kelvin in self.compositions():
                kelvin = 330.0 + kelvin / 20
                pure = [self.pressure(program, place, kelvin) for place in range(len(x))]
                gammas = wilson.excess(self.book, kelvin, x).log_gammas
                due = math.fsum(a * math.exp(b) * p for a, b, p in zip(x, gammas, pure))
                found = program.ask(Question(tasks.BUBBLE_PRESSURE, x, kelvin))
                self.assertAlmostEqual(found.real(answer.P) / due, 1.0, delta=1e-12)

    def pressure(self, program: Core, place: int, kelvin: float) -> float:
        pure = tuple(float(k == place) for k in range(len(self.book.solvents)))
        return program.ask(Question(tasks.BUBBLE_PRESSURE, pure, kelvin)).real(answer.P)

    def test_samples_of_the_format(self):
        """docs/FORMAT.md, (t) to (v)."""
        one = parse(SMALL[: SMALL.index("[solvent w]")]).book
        ideal = parse(SMALL.replace("b 345.6 K, a -0.12", "a 0").replace("a 2.5", "b 0")).book
        with Core(books.encode(one)) as program:
            blocks = program.ask(Question(tasks.EXCESS, (1.0,), 300.0))
            self.assertEqual((blocks.refusal, blocks.head[answer.LIQUID]), (0, 0))
            self.assertEqual(blocks.head[answer.ENERGIES], bits_of(-0.0))
        with Core(books.encode(ideal)) as program:
            blocks = program.ask(Question(tasks.EXCESS, (0.5, 0.5), 300.0))
            self.assertEqual((blocks.refusal, blocks.head[answer.LIQUID : answer.LIQUID + 2]), (0, [0, 0]))
            self.assertEqual(blocks.head[answer.ENERGIES], bits_of(-0.0))
        first = split(books.encode(open_yard(str(YARD)).book, books.VERSION))
        first[0][3] = 1
        with Core(joined(first)) as program:
            self.assertEqual(program.ask(Question(tasks.EXCESS, (1.0,) + (0.0,) * 5, 300.0)).head[:3], [9, 0, 37])

    def test_a_wilson_liquid_never_splits(self):
        """However large its parameters are: trials that come to an end find nothing."""
        rng = random.Random(37)
        ended = 0
        for _ in range(60):
            a, b = (f"a {rng.uniform(-6, 2)!r}, b {rng.uniform(-900, 900)!r} K" for _ in range(2))
            content = books.encode(parse(SMALL.replace("b 345.6 K, a -0.12", a).replace("a 2.5", b)).book)
            with Core(content) as program:
                x = rng.random()
                blocks = program.ask(Question(tasks.STABILITY, (x, 1 - x), 350.0))
            self.assertIn((blocks.refusal, blocks.head[answer.STABLE]), ((0, 1), (27, 0)), (a, b, x))
            ended += blocks.accepted
        self.assertGreater(ended, 30)

    def test_trials_that_do_not_end(self):
        """A sheet of such a book is no marked one: by Wilson's equation there is nothing to find."""
        text = SMALL.replace("b 345.6 K, a -0.12", "a 2.5").replace("wilson p w = a 2.5", "wilson p w = a 2")
        book = parse(text).book
        with Core(books.encode(book)) as program:
            self.assertEqual(program.ask(Question(tasks.STABILITY, (0.5, 0.5), 350.0)).refusal, 27)
        named_book = NamedBook(books.encode(book), ("p", "w"), (67630, 7732185), "yard.txt")
        question = Question(tasks.BUBBLE_PRESSURE, (0.5, 0.5), 350.0)
        with Core(named_book.content) as program:
            found = judged(program, named_book, question, program.ask(question))
        self.assertEqual((found.mark, named_book.one_layer(found.one_layer, (0, 1))), (None, None))
        path = self.file("yard.txt", text)
        run = sheet("stability", "--book", path, "--drum", "p=0.5,w=0.5", "--temperature", "350K")
        self.assertEqual(run.status, 1)
        self.assertIn("REFUSED, number 27: ", run.out)
        self.assertNotIn("layers", run.out)

    def test_version_2_answers_alike(self):
        second = books.encode(self.book, books.MASS_VERSION)
        x = (0.3, 0.2, 0.5, 0.0, 0.0)
        for task in tasks.TASKS:
            for by_mass in (False, True):
                k_values = (2.0, 0.5, 1.5, 1.0, 1.0) if task.takes_k else None
                question = Question(task, x, 350.0, ATMOSPHERE, k_values, by_mass=by_mass)
                with Core(second) as older, Core(self.content) as newer:
                    a, b = older.ask(question), newer.ask(question)
                self.assertEqual((a.refusal, a.head[:63]), (0, b.head[:63]), task.command)
                self.assertEqual([words[:63] for words in a.trials], [words[:63] for words in b.trials])

    def test_words_that_are_unread_there(self):
        """7 to 14 of each pair, whatever they are."""
        blocks = split(self.content)
        for words in blocks[6:]:
            words[7:15] = [bits_of(math.nan), bits_of(-math.inf), 2**64 - 1, 1, bits_of(0.3), 0, bits_of(0.4), 5]
        question = Question(tasks.FLASH, (0.3, 0.2, 0.5, 0.0, 0.0), 350.0, ATMOSPHERE)
        with Core(self.content) as plain, Core(joined(blocks)) as filled:
            self.assertEqual(plain.ask(question), filled.ask(question))
            self.assertEqual(plain.ask(question).refusal, 0)


class Striking(InFolder):
    def test_each_task(self):
        asked = {
            "excess": ("--temperature", "70C"),
            "bubble-pressure": ("--temperature", "70C"),
            "dew-pressure": ("--temperature", "70C"),
            "bubble-temperature": ("--pressure", "1atm"),
            "dew-temperature": ("--pressure", "1atm"),
            "stability": ("--temperature", "70C"),
            "flash": ("--temperature", "80C", "--pressure", "1atm"),
        }
        for command, options in asked.items():
            for drum in (("--drum", "ethanol=0.4,water=0.6"), ("--drum", "2-propanol=30kg,water=20kg,methanol=5kg")):
                run = sheet("strike", command, *BOOK, *drum, *options)
                self.assertEqual(run.status, 0, run.err)
                self.assertIn("the two sheets are equal, word by word", run.out)


class Model37(InFolder):
    """Between 3 and 4, in every version, with task 0."""

    def number(self, content: bytes) -> int:
        question = Question(tasks.EXCESS, (0.5, 0.5), 300.0)
        with Core(content) as program:
            blocks = program.ask(question)
        self.assertTrue(blocks.head[1] == 0 or blocks.refusal == 0 or blocks.refusal > 12)
        return blocks.refusal

    def book(self, version: int, model: int, text: str = SMALL, **words: int) -> bytes:
        blocks = split(books.encode(parse(text).book))
        blocks[0][1], blocks[0][3] = version, model
        for name, value in words.items():
            blocks[int(name[1:].split("_")[0])][int(name.split("_")[1])] = value
        return joined(blocks)

    def test_numbers(self):
        for version, model, number in (
            (1, 1, 37), (1, 2, 37), (2, 2, 37), (3, 2, 37), (3, 2**64 - 1, 37), (2, 2**32, 37), (4, 7, 38),
            (2, 1, 0), (3, 1, 0),
        ):
            self.assertEqual(self.number(self.book(version, model)), number, (version, model))
        for version in books.VERSIONS:
            self.assertEqual(self.number(self.book(version, 0, NRTL)), 0)

    def test_place(self):
        self.assertEqual(self.number(self.book(3, 7, b0_2=3)), 3)  # the count of solvents
        self.assertEqual(self.number(self.book(3, 7, b1_2=0)), 37)  # a CAS number of 0
        self.assertEqual(self.number(self.book(3, 1, b1_2=0)), 4)
        content = self.book(3, 7)
        self.assertEqual(self.number(content[:BLOCK] + content[BLOCK:-8] + bytes(8)), 2)

    def test_pairs(self):
        """8 of words 3 to 6 and of flagged bounds; an alpha is not looked at."""
        nan = bits_of(math.nan)
        for word in range(3, 7):
            self.assertEqual(self.number(self.book(3, 1, **{f"b3_{word}": nan})), 8)
        for word in range(7, 15):
            self.assertEqual(self.number(self.book(3, 1, **{f"b3_{word}": nan})), 0)
        self.assertEqual(self.number(self.book(3, 1, b3_16=nan)), 8)
        self.assertEqual(self.number(self.book(3, 1, b3_15=0, b3_16=nan)), 0)
        self.assertEqual(self.number(self.book(3, 1, b3_15=2)), 7)

    def test_on_a_sheet(self):
        book = self.file("book.bin", self.book(3, 7))
        run = sheet("excess", "--book", book, "--drum", "67-63-0=0.5,7732-18-5=0.5", "--temperature", "70C")
        self.assertEqual(run.status, 1)
        self.assertIn("REFUSED, number 37: ", run.out)
        self.assertIn("word 3 of its first block is 7, in version 3", " ".join(run.out.split()))
