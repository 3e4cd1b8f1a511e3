"""No sheet that looks ordinary and is wrong: each drum below once gave one. A sheet's liquid is tested by the core's
trials, and where it fails the sheet says so above its numbers."""

import json
import unittest

from desk import answer, refusals, tasks
from desk.core import Core
from desk.judgement import judged, rice_root
from desk.openbook import open_book
from desk.question import Options, Question
from desk.text import RULE

from .support import YARD, InFolder, Run, sheet

ATMOSPHERE = ("--pressure", "101325Pa")
SPLITS = "THE LIQUID SPLITS IN TWO LAYERS: "


class Marked(InFolder):
    def assert_marked(self, run: Run, line: str, status: int = 3) -> None:
        """The line stands above the numbers, alone in stars; standard error has it too."""
        self.assertEqual(run.status, status, run.err)
        below = run.out.split(RULE + "\n")[1].splitlines()
        self.assertTrue(below[0].startswith(f"*** {line}") and below[0].endswith("***"), below[0])
        self.assertIn(line, run.err)
        self.assertEqual(run.err.count("\n"), 1)

    def asked(self, *arguments: str):
        """The sheet as text and as JSON."""
        return sheet(*arguments), json.loads(sheet(*arguments, "--json").out)


class RowsOfTheTable(Marked):
    def test_bubble_temperature_of_toluene_in_water(self):
        """4.05 °C without a word; two layers boil together at about 84.4 °C."""
        run, found = self.asked("bubble-temperature", "--drum", "toluene=0.02,water=0.98", *ATMOSPHERE)
        self.assert_marked(run, SPLITS + "this is not its boiling point")
        self.assertIn("the two layers boil together at 84.39 °C", run.out)
        self.assertIn("(as one liquid) begins to boil at  4.05 °C", run.out)
        self.assertIn("one liquid layer: NO", run.out)
        self.assertEqual((found["warning"]["kind"], found["one_liquid_layer"]), ("splits", False))
        self.assertIn("./sheet layers --drum water=0.98,toluene=0.02 --pressure 101325Pa", found["warning"]["advice"])

    def test_bubble_temperature_of_acetone_water_and_toluene(self):
        """64.88 °C and acetone 0.365; about 65.2 °C and acetone 0.616."""
        run, found = self.asked("bubble-temperature", "--drum", "acetone=0.3,water=0.3,toluene=0.4", *ATMOSPHERE)
        self.assert_marked(run, SPLITS + "this is not its boiling point")
        words = " ".join(run.out.split())
        self.assertIn(
            "boil together at 65.20 °C (338.35 K); first bubble water 0.23418, acetone 0.61610, toluene 0.14972", words
        )
        self.assertFalse(found["one_liquid_layer"])

    def test_dew_temperature_with_an_unstable_first_drop(self):
        """82.84 °C; about 85.4 °C."""
        run, found = self.asked("dew-temperature", "--drum", "toluene=0.42,water=0.58", *ATMOSPHERE)
        self.assert_marked(run, SPLITS + "this is not the dew point")
        self.assertIn("the first drop comes at 85.40 °C (358.55 K) and is water 0.99966", " ".join(run.out.split()))
        self.assertAlmostEqual(found["answer"]["temperature_K"], 355.99, delta=0.01)

    def test_flash_that_calls_two_liquids_a_vapor(self):
        run, found = self.asked("flash", "--drum", "toluene=0.42,water=0.58", "--temperature", "83.5C", *ATMOSPHERE)
        self.assert_marked(run, SPLITS)
        self.assertIn("two liquid layers and no vapor; they begin to boil below 98.0698 kPa", " ".join(run.out.split()))
        self.assertIn("all vapor below  not known", run.out)
        self.assertEqual((found["answer"]["outcome"], found["answer"]["dew_of_a_stable_liquid"]), ("vapor", False))
        self.assertEqual(found["warning"]["kind"], "splits")

    def test_flash_refused_28_has_the_right_advice(self):
        run, found = self.asked("flash", "--drum", "toluene=0.44,water=0.56", "--temperature", "83.5C", *ATMOSPHERE)
        self.assert_marked(run, SPLITS + "the core refused (number 28)", status=1)
        self.assertIn("REFUSED, number 28: ", run.out)
        self.assertIn("two liquid layers and no vapor", run.out)
        self.assertNotIn("rachford-rice", run.out)
        self.assertIn("./sheet layers --drum water=0.56,toluene=0.44 --temperature 356.65K", found["refusal"]["advice"])

    def test_dew_temperature_refused_27_has_the_right_advice(self):
        run, _ = self.asked("dew-temperature", "--drum", "toluene=0.40,water=0.60", *ATMOSPHERE)
        self.assert_marked(run, SPLITS + "the core refused (number 27)", status=1)
        self.assertIn("the first drop comes at 86.27 °C", run.out)
        self.assertNotIn("raise", run.out)
        self.assertIn(f"{refusals.KEPT}.", " ".join(run.out.split()))

    def test_diagram_far_out_of_the_pair_s_range(self):
        """An azeotrope at 290.61 K from a pair that was fitted for 351 to 373 K."""
        run = sheet(
            "diagram",
            "txy",
            "--pair",
            "ethanol,water",
            "--pressure",
            "5kPa",
            "--points",
            "21",
            "-o",
            "a.svg",
            cwd=self.folder,
        )
        self.assertIn("azeotrope x = 0.9101 at 17.46 °C", run.out)
        for content in (run.out, (self.folder / "a.svg").read_text(encoding="utf-8")):
            self.assertIn("dashed: out of range, ethanol and water were fitted for 78.29", content)

    def test_rachford_rice_with_a_residual_that_is_none(self):
        """−0.1666666667 and a residual of 3.378e+14; the root is 0.1."""
        asked = ("--drum", "ethanol=0.1,water=0.9", "--k", "ethanol=7,water=0.6")
        for command in ("rachford-rice", "rachford-rice-negative"):
            run, found = self.asked(command, *asked)
            self.assert_marked(run, "THIS IS NO SPLIT: a residual of 3.378e+14 is none")
            self.assertIn("is 0 at a vapor fraction of 0.10000", run.out)
            self.assertEqual(found["warning"]["kind"], "no root")


class OtherMarks(Marked):
    def test_bubble_pressure(self):
        run, _ = self.asked("bubble-pressure", "--drum", "toluene=0.5,water=0.5", "--temperature", "40C")
        self.assert_marked(run, SPLITS + "this is not its boiling point")
        self.assertIn("the two layers boil together at 15.", run.out)

    def test_bubble_temperature_below_the_bracket(self):
        """The core finds no root: as one liquid the drum would boil below 0 °C."""
        run, _ = self.asked(
            "bubble-temperature", "--drum", "toluene=0.01,water=0.99", "--pressure", "300kPa", "--bracket", "320K:450K"
        )
        self.assert_marked(run, SPLITS + "the core refused (number 26)", status=1)
        self.assertIn("the two layers boil together at 116.93 °C", run.out)

    def test_bubble_pressure_out_of_range(self):
        """23, since as one liquid the drum would boil at more than 5 bar."""
        run, _ = self.asked("bubble-pressure", "--drum", "toluene=0.05,water=0.95", "--temperature", "80C")
        self.assert_marked(run, SPLITS + "the core refused (number 23)", status=1)
        self.assertIn("the two layers boil together at 86.047 kPa", run.out)

    def test_pressure_asked_out_of_range_is_no_split(self):
        run, found = self.asked("bubble-temperature", "--drum", "toluene=0.05,water=0.95", "--pressure", "9bar")
        self.assertEqual((run.status, found["warning"], found["refusal"]["number"]), (1, None, 23))

    def test_dew_pressure(self):
        run, _ = self.asked("dew-pressure", "--drum", "toluene=0.42,water=0.58", "--temperature", "83.5C")
        self.assert_marked(run, SPLITS + "this is not the dew point")
        self.assertIn("the first drop comes at 9", run.out)

    def test_excess_and_stability(self):
        for command in ("excess", "stability"):
            run, found = self.asked(command, "--drum", "toluene=0.4,water=0.6", "--temperature", "25C")
            self.assert_marked(run, SPLITS)
            self.assertEqual(
                found["warning"]["advice"][-1], "./sheet layers --drum water=0.6,toluene=0.4 --temperature 298.15K"
            )

    def test_flash_refused_29(self):
        run, _ = self.asked("flash", "--drum", "toluene=0.4,water=0.6", "--temperature", "25C", "--pressure", "1bar")
        self.assert_marked(run, SPLITS + "the core refused (number 29)", status=1)
        self.assertIn("two liquid layers and no vapor", run.out)

    def test_vapor_whose_first_drop_splits(self):
        """At 50 kPa it is vapor all the same, at 97.5 kPa partly; the sheet says which."""
        for pressure, words in (
            ("50kPa", "What holds at 83.50 °C and 50 kPa: vapor; its first drop comes at 94.0171 kPa"),
            ("97.5kPa", "part of the drum is vapor, from 98.0698 kPa down; it is all vapor below 94.0171 kPa"),
        ):
            run, _ = self.asked(
                "flash", "--drum", "toluene=0.42,water=0.58", "--temperature", "83.5C", "--pressure", pressure
            )
            self.assert_marked(run, SPLITS + "this vapor's first drop is no liquid")
            self.assertIn(words, " ".join(run.out.split()))

    def test_vapor_that_is_one_has_no_false_alarm(self):
        run, found = self.asked(
            "flash", "--drum", "ethanol=0.5,water=0.5", "--temperature", "110C", "--pressure", "1bar"
        )
        self.assertEqual((run.status, found["warning"]), (0, None))

    def test_vapor_whose_dew_pressure_is_out_of_the_core_s_range(self):
        """Task 3 refuses 23 there; the flash has its dew pressure, and the drop is tested all the same."""
        run, found = self.asked(
            "flash", "--drum", "acetone=0.5,methanol=0.5", "--temperature", "130C", "--pressure", "4bar"
        )
        self.assertEqual(
            (run.status, found["answer"]["outcome"], found["answer"]["dew_of_a_stable_liquid"]), (0, "vapor", True)
        )
        self.assertGreater(found["answer"]["dew_pressure_Pa"], 500000)

    def test_bubble_pressure_of_a_flash_whose_feed_would_split(self):
        """The two-phase answer holds; the feed's bubble pressure as one liquid doesn't."""
        run, found = self.asked("flash", "--drum", "toluene=0.9,water=0.1", "--temperature", "95C", *ATMOSPHERE)
        self.assertEqual(
            (run.status, found["answer"]["outcome"], found["one_liquid_layer"]), (0, "liquid and vapor", True)
        )
        self.assertFalse(found["answer"]["bubble_of_a_stable_liquid"])
        self.assertIn("boils from       not known: the drum's liquid splits in two layers at this T", run.out)

    def test_a_threshold_hides_nothing(self):
        """--threshold lets the core's own trials pass; the sheet is tested with the default."""
        asked = ("--drum", "toluene=0.4,water=0.6", "--temperature", "25C", "--threshold", "-5")
        for command in (("stability", *asked), ("flash", *asked, "--pressure", "1bar")):
            run = sheet(*command)
            self.assert_marked(run, SPLITS)

    def test_vapor_fraction_outside(self):
        run, found = self.asked(
            "rachford-rice-negative", "--drum", "ethanol=0.5,water=0.5", "--k", "ethanol=4,water=0.9"
        )
        self.assert_marked(run, "THESE ARE NOT TWO PHASES: the vapor fraction lies outside 0 to 1")
        self.assertIn("all of the drum is vapor", run.out)
        self.assertEqual(found["warning"]["kind"], "one phase")

    def test_ordinary_sheets_have_no_mark(self):
        for command in (
            ("excess", "--temperature", "70C"),
            ("stability", "--temperature", "70C"),
            ("bubble-pressure", "--temperature", "70C"),
            ("dew-pressure", "--temperature", "70C"),
            ("bubble-temperature", *ATMOSPHERE),
            ("dew-temperature", *ATMOSPHERE),
            ("flash", "--temperature", "72C", *ATMOSPHERE),
        ):
            run, found = self.asked(*command, "--drum", "ethanol=0.5,water=0.3,acetone=0.2")
            self.assertEqual(
                (run.status, run.err, found["warning"], found["one_liquid_layer"]), (0, "", None, True), command
            )
            self.assertNotIn("***", run.out)
            self.assertIn("one liquid layer: yes", run.out)

    def test_trials_that_are_refused(self):
        """A liquid that can't be tested is never called one layer."""
        real = "target/bin/still"
        program = self.program(
            [
                "import subprocess",
                "from itertools import accumulate",
                "question = sys.stdin.buffer.read()",
                "refused = [9, 6, 25] + [0] * 60",
                "if struct.unpack('<64Q', question)[1] == 6:",
                "    sys.stdout.buffer.write(struct.pack('<64Q', *refused, sum(accumulate(refused))))",
                "else:",
                f"    sys.stdout.buffer.write(subprocess.run(['{YARD.parent.parent / real}'], input=question, "
                "capture_output=True).stdout)",
            ]
        )
        run = sheet("bubble-temperature", "--drum", "ethanol=0.5,water=0.5", *ATMOSPHERE, "--program", program)
        self.assert_marked(run, "THE LIQUID COULD NOT BE TESTED: it may split in two layers")
        self.assertIn("one liquid layer: not tested", run.out)


class Roots(unittest.TestCase):
    def test_halving(self):
        self.assertAlmostEqual(rice_root([(0.1, 7.0), (0.9, 0.6)]), 0.1, delta=1e-12)
        self.assertAlmostEqual(rice_root([(0.5, 2.0), (0.5, 0.5)]), 0.5, delta=1e-12)
        self.assertIsNone(rice_root([(0.5, 2.0), (0.5, 1.5)]))

    def test_a_residual_of_a_root_is_no_mark(self):
        """Residuals of honest roots stay below what is marked, for K values over many decades."""
        book = open_book(str(YARD))
        with Core(book.content) as core:
            for large in (1.5, 7.0, 1e3, 1e6):
                for z in (0.5, 0.7, 0.9):
                    question = Question(
                        tasks.SPLIT,
                        (1 - z, z, 0.0, 0.0, 0.0, 0.0),
                        k_values=(0.3, large) + (1.0,) * 4,
                        options=Options(),
                    )
                    blocks = core.ask(question)
                    fraction = blocks.real(answer.VAPOR_FRACTION)
                    mark = judged(core, book, question, blocks).mark
                    both = blocks.accepted and blocks.head[answer.OUTCOME] == answer.BOTH
                    if both and abs(fraction - rice_root([(1 - z, 0.3), (z, large)])) < 1e-9:
                        self.assertIsNone(mark, (large, z))
                    elif both:
                        self.assertIsNotNone(mark, (large, z))
