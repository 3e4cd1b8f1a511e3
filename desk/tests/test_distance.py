"""How far p can rise or fall until a drum's phases change: the steps by the program, the sheet in both directions, its
bar between dew and bubble pressure, and what it says of refused steps and of windows that a step goes over."""

import json
import unittest
from dataclasses import replace
from unittest import mock

from desk import answer, distance, distancereport, distancesheet, library
from desk.batch import CallRefused
from desk.book import encode
from desk.core import Core
from desk.distance import DOWN, ORDER, UP, Distance, at_step
from desk.judgement import Judgement, Mark
from desk.openbook import open_yard
from desk.question import Question
from desk.tasks import FLASH, TASKS

from .support import SAMPLE, InFolder, sheet

SAMPLE_BOOK = encode(open_yard(str(SAMPLE)).book, 1)  # ethanol and water
HALVES = Question(FLASH, (0.5, 0.5), 351.44, 95000.0)  # both phases
PAIR, AT = ("--drum", "ethanol=0.5,water=0.5"), ("--temperature", "78.29C", "--pressure")
NARROW = ("--drum", "ethanol=0.89,water=0.11")
# the status, and the arguments
CASES = {
    "distance-up": (0, (*PAIR, *AT, "94kPa", "--label", "drum 17")),
    "distance-both": (0, (*PAIR, *AT, "82kPa", "--both")),
    "distance-down": (0, (*NARROW, *AT, "103kPa")),
    "distance-pure": (0, ("--drum", "water=1", "--temperature", "99.7C", "--pressure", "1atm")),
    "distance-refused-steps": (0, ("--drum", "toluene=0.1,water=0.9", "--temperature", "85C", "--pressure", "68kPa")),
    "distance-mass": (0, ("--drum", "ethanol=40kg,water=12kg", "--temperature", "80C", "--pressure", "104kPa")),
    "distance-pool": (
        0, ("--drum", "ethanol=4kg", "--drum", "water=30mol", "--temperature", "79C", "--pressure", "1020mbar")
    ),
    "distance-wilson": (0, ("--book", "yard/alcohols.txt", *PAIR, "--temperature", "79C", "--pressure", "980mbar")),
    "distance-try": (0, (*PAIR, *AT, "94kPa", "--try", "yard/try.txt")),
    "distance-29": (1, ("--drum", "toluene=0.4,water=0.6", "--temperature", "25C", "--pressure", "1bar")),
    "distance-18": (1, ("--drum", "ethanol=0.5,water=0.4", *AT, "94kPa")),
}


class Plainly:
    """Answers by the pressure alone: an outcome, or a number as a refusal; all that are asked are noted."""

    def __init__(self, outcome_at):
        self.outcome_at, self.asked = outcome_at, []

    def ask(self, question: Question) -> answer.Blocks:
        self.asked.append(question.pressure)
        outcome, number = self.outcome_at(question.pressure)
        return answer.Blocks([9, 7, number, outcome, *[0] * 60], ())

    def ask_block(self, block: bytes) -> answer.Blocks:
        return answer.Blocks([9, 0, 11, *[0] * 61], ())


class Steps(unittest.TestCase):
    """Which steps are tried, and what is counted."""

    def found(self, outcome_at, pascals: float = 50000.0):
        core = Plainly(outcome_at)
        return distance.ask_plainly(core, replace(HALVES, pressure=pascals)), core.asked[1:]

    def test_the_order(self):
        self.assertEqual(ORDER[:6], (1, -1, 2, -2, 3, -3))
        self.assertEqual((ORDER[-2:], len(ORDER), len(set(ORDER))), ((1000, -1000), 2000, 2000))
        found, asked = self.found(lambda pascals: (1, 0))
        self.assertEqual((found, len(asked), found.before), (Distance(0), 2000, 2000))
        self.assertEqual(asked, [50000.0 + 100.0 * s for s in ORDER])

    def test_the_first_of_both_ways(self):
        for up, down, due in ((3, 3, 3), (3, 2, -2), (1, 1, 1), (2, 1, -1), (1001, 1000, -1000), (1000, 1000, 1000)):
            bounds = 50000.0 + 100.0 * up, 50000.0 - 100.0 * down
            found, asked = self.found(lambda p: (1 if p >= bounds[0] else 2 if p <= bounds[1] else 3, 0))
            self.assertEqual(found, Distance(0, due, 1 if due > 0 else 2))
            self.assertEqual((len(asked), found.before), (ORDER.index(due) + 1, ORDER.index(due)))

    def test_refused_steps_are_counted_and_passed_over(self):
        """Those before the answer, whatever their number."""
        found, _ = self.found(lambda p: (0, 14 if p <= 0 else 23) if p < 49800 else (3, 0) if p < 50300 else (1, 0))
        self.assertEqual(found, Distance(0, 3, 1))
        found, _ = self.found(lambda p: (1 if p >= 50700 else 3, 27 if 50100 <= p < 50700 or p < 49900 else 0))
        self.assertEqual(found, Distance(11, 7, 1))  # 6 up, and 5 down from the second on
        found, _ = self.found(lambda p: (2, 0) if p == 50000.0 else (0, 29))
        self.assertEqual(found, Distance(2000))

    def test_one_rounded_addition(self):
        for pascals in (90000.00000000001, 0.1 + 1e5, 123456.7891234567):
            _, asked = self.found(lambda p: (1, 0), pascals)
            self.assertEqual(asked[0::2], [pascals + 100.0 * k for k in range(1, 1001)])
            self.assertEqual(asked[1::2], [pascals - 100.0 * k for k in range(1, 1001)])

    def test_words_of_the_call(self):
        self.assertEqual(distance.of_words([1, 64, 1, 7]), Distance(7, 64, 1))
        self.assertEqual(distance.of_words([1, 2**64 - 1000, 2, 0]), Distance(0, -1000, 2))
        self.assertEqual(distance.of_words([0, 0, 0, 951]), Distance(951))

    def test_numbers_of_the_program(self):
        """The book's, 12 for all tasks but the flash, then those of the flash at P."""
        with Core(SAMPLE_BOOK) as core:
            for task in TASKS:
                if task != FLASH:
                    self.assert_number(12, core, Question(task, (0.5, 0.4), 351.44, 9e4, (2.0, 0.5)))
            self.assert_number(18, core, replace(HALVES, fractions=(0.5, 0.4)))
            self.assert_number(23, core, replace(HALVES, pressure=99.0))
            self.assertEqual(core.ask_distance(HALVES), Distance(0, 14, 1))
        with Core(SAMPLE_BOOK[:-1]) as core:
            self.assert_number(1, core, HALVES)
            self.assert_number(1, core, Question(TASKS[0], (0.5, 0.5), 351.44))

    def assert_number(self, number: int, core: Core, question: Question) -> None:
        with self.assertRaises(CallRefused) as refused:
            core.ask_distance(question)
        self.assertEqual((refused.exception.number, refused.exception.status), (number, 1))


class Bars(unittest.TestCase):
    def test_to_scale(self):
        self.assertEqual(distancereport.bar(2e4, 8e4, 5e4), "." * 8 + "|" + "=" * 27 + "*" + "=" * 28 + "|" + "~" * 8)
        self.assertEqual(distancereport.bar(2e4, 4e4, 8e4).index("*"), 65)
        self.assertEqual(distancereport.bar(4e4, 8e4, 2e4).index("*"), 8)

    def test_never_on_or_beyond_a_bound(self):
        """However close p is, the bar says on which side it lies."""
        for dew, bubble in ((2e4, 8e4), (79000.0, 79000.5), (5e4, 5e4), (50000.0, 49999.999999)):
            for near in (dew, bubble):
                for pascals in (near - 1e-6, near, near + 1e-6, near - 3e4, near + 3e4):
                    drawn = distancereport.bar(dew, bubble, pascals)
                    self.assertEqual((len(drawn), drawn.count("*")), (distancereport.BAR, 1))
                    left, right = drawn.split("*")
                    if pascals > bubble:
                        self.assertTrue("|" in left and set(right) == {"~"}, drawn)
                    elif pascals in (dew, bubble):
                        self.assertLess(drawn.count("|"), 2)
                    elif pascals < dew:
                        self.assertTrue("|" in right and set(left) == {"."}, drawn)
                    else:
                        self.assertTrue("|" in left and "|" in right, drawn)

    def test_words(self):
        self.assertEqual(distancereport.place(2e4, 8e4, 9e4), "10000 Pa above the bubble pressure")
        self.assertEqual(distancereport.place(2e4, 8e4, 1e4), "10000 Pa below the dew pressure")
        due = "20000 Pa below the bubble pressure, 40000 Pa above the dew pressure"
        self.assertEqual(distancereport.place(2e4, 8e4, 6e4), due)


class Sheets(InFolder):
    def test_stored(self):
        for name, (status, arguments) in CASES.items():
            with self.subTest(name), mock.patch.object(library, "find", lambda: None):
                for ending in ("txt", "json", "details.txt"):
                    options = [] if ending == "txt" else [f"--{ending.split('.')[0]}"]
                    run = sheet("distance", *arguments, *options)
                    self.assertEqual(run.status, status, run.err)
                    self.assertEqual(run.err.count("\n"), int(status != 0), run.err)
                    self.assert_golden(f"{name}.{ending}", run.out)

    def found(self, *arguments: str):
        return json.loads(sheet("distance", *arguments, "--json").out)

    def test_beside_the_flash_s_own_sheet(self):
        """Number for number, and every warning, refusal and remark word for word."""
        for _, arguments in CASES.values():
            asked = [argument for argument in arguments if argument != "--both"]
            own, run = sheet("flash", *asked), sheet("distance", *asked)
            self.assertEqual((own.status, own.err), (run.status, run.err))
            own, found = json.loads(sheet("flash", *asked, "--json").out), self.found(*asked)
            self.assertEqual({**own, "command": "distance"}, {name: found[name] for name in own})
            self.assertEqual(found["distance"] is None, own["refusal"] is not None)

    def test_the_step_is_where_the_flash_changes(self):
        """By flashes of their own: the same phases a step before it, others there."""
        for name in ("distance-up", "distance-both", "distance-down", "distance-mass", "distance-wilson"):
            _, arguments = CASES[name]
            found = self.found(*arguments)
            asked = [argument for argument in arguments if argument != "--both"]
            at = asked.index("--pressure") + 1
            for change in filter(None, (found["distance"][way] for way in ("nearest", "up", "down"))):
                pascals = found["question"]["pressure_Pa"] + change["difference_Pa"]
                self.assertEqual(change["pressure_Pa"], pascals)
                back = 100.0 if change["steps"] > 0 else -100.0
                for pressure, due in ((pascals, change["to"]), (pascals - back, found["distance"]["from"])):
                    asked[at] = f"{pressure!r}Pa"
                    own = json.loads(sheet("flash", *asked, "--json").out)
                    self.assertEqual(own["answer"]["outcome"], due)

    def test_both_ways(self):
        found = self.found(*CASES["distance-both"][1])["distance"]
        self.assertEqual(found["nearest"], found["down"])
        self.assertEqual((found["up"]["to"], found["down"]["to"]), ("liquid", "vapor"))
        self.assertTrue(found["up"]["steps"] > -found["down"]["steps"] > 0)
        alone = self.found(*[argument for argument in CASES["distance-both"][1] if argument != "--both"])["distance"]
        self.assertEqual((alone["up"], alone["down"], alone["nearest"]), (None, None, found["nearest"]))

    def test_a_window_that_a_step_goes_over(self):
        run = sheet("distance", *NARROW, *AT, "103kPa")
        self.assertIn("from liquid to vapor", " ".join(run.out.split()))
        self.assertRegex(" ".join(run.out.split()), r"window of both phases, .* is 0\.\d+ Pa: a step can go over it")
        wide = " ".join(sheet("distance", *PAIR, *AT, "94kPa").out.split())
        self.assertIn("close to an azeotrope both phases are there in a window of less than 100 Pa", wide)
        for words in (wide, " ".join(run.out.split())):
            self.assertIn("Steps are 100 Pa, in turn 1 up, 1 down, 2 up, 2 down and on to 1000 each way.", words)

    def test_refused_steps_are_explained(self):
        run = sheet("distance", *CASES["distance-refused-steps"][1])
        self.assertRegex(run.out, r"refused +\d+ of the 75 steps before it: \d+ with number 28 \(the K values")
        self.assertNotIn("* p asked", run.out)  # no bar where the bubble pressure isn't known
        found = self.found(*CASES["distance-refused-steps"][1])["distance"]["nearest"]
        self.assertEqual(found["refused_by_number"], {"28": found["refused_before"]})

    def test_no_change(self):
        """All steps are tried, and those that leave the core's range are explained."""
        asked = ("--drum", "water=1", "--temperature", "150C", "--pressure", "5kPa")
        core = Plainly(lambda pascals: (0, 14) if pascals <= 0 else (0, 23) if pascals < 100 else (2, 0))
        with mock.patch.object(library, "find", lambda: None), mock.patch.object(distancesheet, "tried") as tried:
            tried.side_effect = lambda _, question, *rest: distance.tried(core, question, *rest)
            run = sheet("distance", *asked, "--both")
        words = " ".join(run.out.split())
        self.assertIn("none within 100000 Pa (1000 steps) each way: vapor, wherever the core answers", words)
        self.assertIn("951 of all 2000 steps: 951 with number 14", words)
        self.assertIn("up - - no change seen 1000 0 down - - no change seen 1000 951 (951 with 14)", words)
        self.assertEqual(run.status, 0)

    def test_a_change_that_is_not_what_it_looks_like(self):
        mark = Mark("splits", "THE LIQUID SPLITS IN TWO LAYERS: this vapor's first drop is no liquid", ())
        with mock.patch.object(distancesheet, "judged", lambda *_: Judgement(mark)):
            run, found = sheet("distance", *PAIR, *AT, "94kPa"), self.found(*PAIR, *AT, "94kPa", "--tolerance", "1e-12")
        self.assertEqual(run.status, 3)
        line = "AT 95.9 kPa THE DRUM IS NOT WHAT IT LOOKS LIKE: THE LIQUID SPLITS IN TWO LAYERS"
        self.assertIn("*** AT 95.9 kPa THE DRUM IS NOT WHAT IT LOOKS LIKE: THE LIQUID SPLITS IN   ***\n", run.out)
        self.assertIn("./sheet flash --drum water=0.5,ethanol=0.5 --temperature 351.44K --pressure 95900Pa\n", run.out)
        self.assertEqual(run.err, f"sheet: {line}: this vapor's first drop is no liquid\n")
        self.assertTrue(found["warning"]["advice"][-1].endswith("--pressure 95900Pa --tolerance 1e-12"))

    def test_a_marked_flash(self):
        """Its own warning stands there, and that of the change isn't put beside it."""
        mark = Mark("splits", "THE LIQUID SPLITS IN TWO LAYERS: x", ())
        with mock.patch("desk.commands.judged", lambda *_: Judgement(mark, False)):
            run = sheet("distance", *PAIR, *AT, "94kPa")
        self.assertEqual((run.status, run.err), (3, "sheet: THE LIQUID SPLITS IN TWO LAYERS: x\n"))
        self.assertEqual(run.out.count("***"), 2)
        self.assertIn("from liquid and vapor (as one liquid) to liquid\n", run.out.replace("\n               ", " "))

    def test_a_program_that_is_not_the_core(self):
        """Directions that don't agree with the nearest of both."""
        real = distance.tried

        def other(core, question, outcome, steps, done):
            return (Distance(0, 2, 1), []) if steps == UP else real(core, question, outcome, steps, done)

        with mock.patch.object(library, "find", lambda: None), mock.patch.object(distancesheet, "tried", other):
            run = sheet("distance", *PAIR, *AT, "94kPa", "--both")
        self.assertEqual((run.status, run.out), (2, ""))
        self.assertIn(distancesheet.NO_AGREEMENT, run.err)

    def test_options(self):
        for words, options in {
            "the following arguments are required: --pressure": (*PAIR, "--temperature", "70C"),
            "one of the arguments --drum --mass is required": ("--temperature", "70C", "--pressure", "1bar"),
            "--drums is no option of distance": ("--drums", "x", *AT, "1bar"),
            "--pressure: '1' has no unit": (*PAIR, *AT, "1"),
        }.items():
            run = sheet("distance", *options)
            self.assertEqual((run.status, run.out, run.err.count("\n")), (2, "", 1))
            self.assertIn(words, run.err)

    def test_steps_down(self):
        self.assertEqual((UP[0], UP[-1], DOWN[0], DOWN[-1]), (1, 1000, -1, -1000))
        self.assertEqual([at_step(HALVES, s).pressure for s in (1, -950)], [95100.0, 0.0])


if __name__ == "__main__":
    unittest.main()
