"""A shift's flashes under one allowance: tables as planners write them, the queue by the program, its sheet and what it
advises; and the evaluations of a flash on its own sheet."""

import csv
import io
import json
import unittest
from dataclasses import replace
from unittest import mock

from desk import answer, drumlist, library, queue
from desk.batch import CallRefused
from desk.blocks import Rule
from desk.book import encode
from desk.core import Core
from desk.errors import DeskError
from desk.openbook import open_book, open_yard
from desk.question import Options, Question
from desk.queuesheet import SETTINGS
from desk.tasks import FLASH, TASKS

from .support import ROOT, SAMPLE, YARD, InFolder, sheet
from .test_mass import damaged

SHIFT = str(ROOT / "yard" / "shift.csv")
SAMPLE_BOOK = encode(open_yard(str(SAMPLE)).book, 1)  # ethanol and water
HALVES = Question(FLASH, (0.5, 0.5), 351.44, 90000.0)  # takes 243 of 2004
WEIGHED = """Label;ethanol (kg);water (kg);T;p (bar);max-iterations;Threshold
night 1;40;12,5;80 C;1,01325;200;
night 2;1,5;2;353,15K;1,01325;;-1e-6
night 2;;3;110 °C;1;60;
"""
SPLITS = "label,water,toluene\nlayers,0.6,0.4\nwater,1,\n"
TP = ("--temperature", "72C", "--pressure", "1bar")
CASES = {
    "queue-shift": (1, ("--questions", SHIFT, "--allowance", "3000", "--label", "night shift")),
    "queue-all": (0, ("--questions", SHIFT, "--allowance", "13000", "--normalize")),
    "queue-kg": (0, ("--questions", "weighed.csv", "--allowance", "3000")),
    "queue-splits": (1, ("--questions", "splits.csv", "--allowance", "3000", *TP)),
}
# what is said, and the table
BAD = {
    "line 2 has no temperature, and there is no --temperature for all": "ethanol,p\n1,1bar\n",
    "line 3 has no pressure, and there is no --pressure for all": "ethanol,T,p\n1,300K,1bar\n1,300K,\n",
    "line 1: unit 'F' in 'temperature (F)' is none of K, C, °C, degC": "ethanol,temperature (F)\n1,100\n",
    "line 1: unit 'kpa' in 'p kpa' is none of Pa, kPa, mbar": "ethanol,p kpa\n1,100\n",
    "line 1: 'T' and 'temperature (C)' are two columns of one temperature": "ethanol,T,temperature (C)\n1,1K,1\n",
    "line 2: temperature: '80' has no unit; write K, C or °C": "ethanol,T,p\n1,80,1bar\n",
    "line 2: temperature: '80 K' has a unit, and its column too, C": "ethanol,T (C),p\n1,80 K,1bar\n",
    "line 2: temperature: 'hot' is not a number with a unit": "ethanol,T,p\n1,hot,1bar\n",
    "line 2: max iterations: '1.5' is not a whole number": "ethanol,T,p,max iterations\n1,300K,1bar,1.5\n",
    "line 2: tolerance: 'small' is not a number; line 3 can't be read either": "ethanol,tolerance\n1,small\nx,1\n",
    "line 1: 'limit' is neither 'label', 'temperature', 'pressure', 'max iterations', 'tolerance', 'threshold' nor a "
    "solvent of yard/yard.txt": "ethanol,limit\n1,7\n",
    "line 2: the drums hold nothing at all": "ethanol,T,p\n0mol,300K,1bar\n",
    "line 2: 'a' has no amounts": "label,ethanol,T,p\na,,300K,1bar\n",
}


def still():
    """No library at hand: the program is asked."""
    return mock.patch.object(library, "find", lambda: None)


class ByTheProgram(unittest.TestCase):
    """How the program is asked, which takes one question at a time."""

    def setUp(self) -> None:
        self.core = Core(SAMPLE_BOOK)
        self.addCleanup(self.core.__exit__)

    def with_limit(self, limit: int, **changed) -> Question:
        return replace(HALVES, options=Options(max_iterations=limit), **changed)

    def dues(self, questions, allowance: int):
        """What becomes of each: evaluations, a number, or None where it is put off."""
        blocks = self.core.ask_queue(questions, allowance)
        return [
            None if found.put_off else ("refused", found.refusal) if found.refusal else found.head[answer.EVALUATIONS]
            for found in blocks
        ]

    def test_most_evaluations(self):
        for present, limit, most in ((1, 1, 7), (2, 500, 2004), (8, 10**6, 10000004)):
            self.assertEqual(queue.most_evaluations(present, limit), most)
        self.assertEqual(queue.asks_for(HALVES, SAMPLE_BOOK), 2004)
        self.assertEqual(queue.asks_for(replace(HALVES, fractions=(1.0, -0.0)), SAMPLE_BOOK), 1504)
        weighed = encode(open_yard(str(SAMPLE)).book, 2)
        trace = replace(HALVES, fractions=(1.0, 5e-324), by_mass=True)  # its moles are some: 5e-324/0.018
        self.assertEqual(queue.asks_for(trace, weighed), 2004)
        heavy = damaged(weighed, 2, 45, 0x4000 << 48)  # 2 kg/mol: its moles are none
        self.assertEqual(queue.asks_for(trace, heavy), 1504)

    def test_answers_are_those_of_calls_on_their_own(self):
        pressures = (70000.0, 90000.0, 95000.0, 120000.0)
        questions = [replace(HALVES, pressure=pascals) for pascals in pressures]
        self.assertEqual(self.core.ask_queue(questions, 2**64 - 1), [self.core.ask(asked) for asked in questions])

    def test_the_allowance(self):
        """What is asked for has to be left; what is taken is the real count."""
        both = [HALVES, replace(HALVES, pressure=70000.0)]
        for allowance, due in ((0, [None, None]), (2003, [None, None]), (2004, [243, None]), (2246, [243, None])):
            self.assertEqual(self.dues(both, allowance), due)
        self.assertEqual(self.dues(both, 2247), [243, 50])
        self.assertEqual(self.dues([self.with_limit(10**6), *both], 2247), [None, 243, 50])

    def test_refused_ahead_of_an_evaluation(self):
        """With nothing left as with all, and nothing is taken."""
        wrong = {
            13: replace(HALVES, temperature=-1.0),
            14: replace(HALVES, pressure=0.0),
            15: replace(HALVES, fractions=(float("inf"), 0.0)),
            16: replace(HALVES, fractions=(1.5, -0.5)),
            18: replace(HALVES, fractions=(0.5, 0.4)),
            19: replace(HALVES, options=Options(tolerance=1.0)),
            20: self.with_limit(0),
            21: self.with_limit(10**6 + 1),
            22: replace(HALVES, temperature=260.0),
            23: replace(HALVES, pressure=1.0),
            36: replace(HALVES, by_mass=True),
        }
        for number, question in wrong.items():
            self.assertEqual(self.dues([question], 0), [("refused", number)])
            due = ("refused", number)
            self.assertEqual(self.dues([question, HALVES, question], 2004), [due, 243, due])
            self.assertEqual(self.core.begun(question, number), (0, True))

    def test_moles_that_overflow(self):
        light = damaged(encode(open_yard(str(SAMPLE)).book, 2), 1, 45, 1)  # 5e-324 kg/mol
        question = replace(HALVES, by_mass=True)
        with Core(light) as core:
            found = core.ask_queue([question], 0)
            self.assertEqual(([blocks.refusal for blocks in found], core.begun(question, 34)), ([34], (0, True)))

    def test_refused_later(self):
        """The program doesn't say how many were begun: all that was asked for is taken. Of 24 it is one."""
        unconverged = self.with_limit(1)
        self.assertEqual(self.dues([unconverged], 7), [None])
        self.assertEqual(self.dues([unconverged, unconverged], 15), [("refused", 27), None])
        self.assertEqual(self.dues([unconverged, unconverged], 16), [("refused", 27)] * 2)
        self.assertEqual(self.core.begun(unconverged, 27), (8, False))
        with Core(damaged(damaged(SAMPLE_BOOK, 3, 11, 0xBFF0 << 48), 3, 13, 0xBFF0 << 48)) as core:  # alpha -1
            found = [blocks.refusal for blocks in core.ask_queue([unconverged] * 2, 9)]
            self.assertEqual((found, core.begun(unconverged, 24)), ([24, 24], (1, True)))
            self.assertEqual([blocks.put_off for blocks in core.ask_queue([unconverged] * 2, 8)], [False, True])

    def test_whole_calls(self):
        """The book's numbers, then 39: how many, and other tasks."""
        wrong = {1: SAMPLE_BOOK[:-1], 2: SAMPLE_BOOK[:-8] + bytes(8)}
        others = [[Question(task, (0.5, 0.5), 351.44, 90000.0, (2.0, 0.5)), HALVES] for task in TASKS if task != FLASH]
        for number, content, questions in (
            (39, SAMPLE_BOOK, []), (39, SAMPLE_BOOK, [HALVES] * 65), *((39, SAMPLE_BOOK, asked) for asked in others),
            *((number, wrong[number], asked) for number in wrong for asked in ([], [HALVES], others[0]))
        ):
            with Core(content) as core, self.assertRaises(CallRefused) as refused:
                core.ask_queue(questions, 10**6)
            self.assertEqual((refused.exception.number, refused.exception.status), (number, 1))
        self.assertEqual(len(self.core.ask_queue([HALVES] * 64, 0)), 64)

    def test_block_of_one_put_off(self):
        for rule, check in ((Rule.PLAIN, 20), (Rule.RUNNING, 63 * 9 + 62 * 7 + 60 * 4)):
            blocks = queue.put_off(rule)
            self.assertEqual(blocks.head, [9, 7, 0, 4, *[0] * 59, check])
            self.assertTrue(blocks.put_off and not blocks.trials)
        self.assertFalse(self.core.ask(HALVES).put_off or self.core.ask(self.with_limit(1)).put_off)

    def test_more_than_one_call(self):
        """What the first 64 leave is what the others have."""
        vapor = replace(HALVES, pressure=70000.0)
        found = queue.run(self.core, [vapor] * 66, 2004 + 65 * 50)
        due = [(50, 2004 + 65 * 50 - 50 * k) for k in range(1, 67)]
        self.assertEqual([(entry.took, entry.left) for entry in found], due)
        found = queue.run(self.core, [vapor] * 66, 2003 + 65 * 50)
        self.assertEqual([entry.blocks.put_off for entry in found], [False] * 65 + [True])
        self.assertEqual([entry.left for entry in found[-2:]], [2003, 2003])

    def test_a_program_that_is_not_the_core(self):
        """Counts that don't fit what was put off, or that are above what was asked for."""
        head = self.core.ask(HALVES).head
        for evaluations, allowance in ((2005, 3000), (243, 2003)):
            words = [*head[:38], evaluations, *head[39:]]
            with mock.patch.object(self.core, "ask_queue", lambda *_: [answer.Blocks(words, ())]):
                with self.assertRaisesRegex(DeskError, "doesn't agree with its own counts"):
                    queue.run(self.core, [HALVES], allowance)


class Tables(InFolder):
    def read(self, content):
        return drumlist.read(self.file("list.csv", content), open_book(str(YARD)), settings=SETTINGS)

    def test_settings_as_many_hands_write_them(self):
        for content in (
            "ethanol,temperature,pressure,max iterations\n1,78.29C,90kPa,60\n",
            "ethanol,Temperature (°C),P [kPa],Max-Iterations\n1,78.29,90,60\n",
            "ethanol;t K;p bar;max iterations\n1;351,44;0,9;60\n",
            "max iterations,ethanol,T,pressure\n60,1,351.44 K,0.9 bar\n",
        ):
            (drum,) = self.read(content)
            self.assertEqual(drum.given, {"temperature": 351.44, "pressure": 90000.0, "max iterations": 60}, content)
        (drum,) = self.read("ethanol,T,tolerance,threshold\n1,,1e-9,-1e-6\n")
        self.assertEqual(drum.given, {"tolerance": 1e-9, "threshold": -1e-6})

    def test_lists_of_drums_have_none(self):
        with self.assertRaisesRegex(DeskError, "'temperature' is neither 'label' nor a solvent"):
            drumlist.read(self.file("list.csv", "ethanol,temperature\n1,1K\n"), open_book(str(YARD)))

    def test_what_can_not_be_read(self):
        for words, content in BAD.items():
            with self.subTest(words):
                run = sheet("queue", "--questions", self.file("list.csv", content), "--allowance", "9")
                self.assertEqual((run.status, run.out, run.err.count("\n")), (2, "", 1), run.err)
                self.assertIn(words, run.err)

    def test_options(self):
        path = self.file("list.csv", "ethanol\n1\n")
        for words, options in {
            "--allowance: '-1' is not a whole number from 0 to 2^64 - 1": ("--allowance=-1",),
            "--allowance: '18446744073709551616' is not a whole number": ("--allowance", str(2**64)),
            "--csv and --json are two forms": ("--allowance", "1", "--csv", "--json"),
            "--try is no option of queue": ("--allowance", "1", "--try", "x"),
            "--drums is no option of queue": ("--allowance", "1", "--drums", "x"),
            "the following arguments are required: --allowance": (),
        }.items():
            run = sheet("queue", "--questions", path, *options)
            self.assertEqual((run.status, run.out), (2, ""))
            self.assertIn(words, run.err)


class Sheets(InFolder):
    def setUp(self) -> None:
        super().setUp()
        self.file("weighed.csv", WEIGHED)
        self.file("splits.csv", SPLITS)
        (self.folder / "yard").symlink_to(ROOT / "yard")

    def queue(self, *arguments: str):
        return sheet("queue", *arguments, cwd=self.folder)

    def found(self, *arguments: str):
        return json.loads(self.queue(*arguments, "--json").out)

    def test_stored(self):
        for name, (status, arguments) in CASES.items():
            with self.subTest(name), still():
                for ending in ("txt", "json", "details.txt", "csv"):
                    options = [] if ending == "txt" else [f"--{ending.split('.')[0]}"]
                    run = self.queue(*arguments, *options)
                    self.assertEqual(run.status, status, run.err)
                    self.assertEqual(run.err.count("\n"), int(status != 0), run.err)
                    self.assert_golden(f"{name}.{ending}", run.out)

    def test_each_answer_is_that_of_its_own_sheet(self):
        found = self.found(*CASES["queue-shift"][1], "--details")
        asked = {
            "still 1": "water=0.3,ethanol=0.5,acetone=0.2 --temperature 72C --pressure 100kPa",
            "still 2": "ethanol=0.35,acetone=0.65 --temperature 65C --pressure 100kPa --max-iterations 40",
            "still 4": "acetone=0.71,toluene=0.29 --temperature 93.55C --pressure 164.61kPa --max-iterations 17 "
            "--tolerance 1e-11",
            "still 6": "water=0.3,ethanol=0.5,acetone=0.2 --temperature 72C --pressure 108kPa",
        }
        for question in found["questions"]:
            if question["label"] in asked:
                own = sheet("flash", "--drum", *asked[question["label"]].split(), "--json", "--details")
                whole = json.loads(own.out)
                for name in ("answer", "warning", "one_liquid_layer", "pairs", "by_mass"):
                    self.assertEqual(question[name], whole[name], name)
                self.assertEqual({**whole["question"], **question["question"]}, whole["question"])
                self.assertEqual(question["took"], whole["answer"]["evaluations"])
        self.assertEqual([entry["status"] for entry in found["questions"]].count("answered"), len(asked))

    def test_the_counts_add_up(self):
        found = self.found(*CASES["queue-shift"][1])
        self.assertEqual(found["counts"], {"answered": 4, "marked": 0, "refused": 1, "put_off": 1})
        left = found["allowance"]
        for question in found["questions"]:
            self.assertEqual(question["left"], left - question["took"])
            left = question["left"]
        self.assertEqual((found["left"], found["taken"], found["exact"]), (left, 3000 - left, True))

    def test_as_much_as_a_flash_can_take(self):
        """The dew point, the split and both trials end in their last turn."""
        line = next(entry for entry in self.found(*CASES["queue-shift"][1])["questions"] if entry["label"] == "still 4")
        self.assertEqual((line["asks_for"], line["took"]), (72, 72))
        out = self.queue(*CASES["queue-shift"][1]).out
        self.assertRegex(out, r"still 4 .* answered +72 +72 +\d+\n")

    def test_the_advice_is_enough(self):
        """The least allowance that runs the one put off, and the largest limit that fits."""
        path = self.file("list.csv", "label,ethanol,water,max iterations\na,0.5,0.5,\nb,0.5,0.5,900\n")
        asked = ("--questions", path, "--temperature", "78.29C", "--pressure", "90kPa", "--book", str(SAMPLE))
        found = self.found(*asked, "--allowance", "3000")
        taken = found["questions"][0]["took"]
        self.assertEqual(found["questions"][1]["advice"], (
            f"What to do: raise the allowance to at least {taken + 3604}, or lower its --max-iterations to "
            f"{(3000 - taken - 4) // 4} or less."
        ))
        self.assertEqual(found["enough"], taken + 3604)
        for allowance, status in ((taken + 3603, 1), (taken + 3604, 0)):
            run = self.queue(*asked, "--allowance", str(allowance))
            self.assertEqual(run.status, status, run.out)
        for limit, status in (((3000 - taken - 4) // 4 + 1, 1), ((3000 - taken - 4) // 4, 0)):
            self.file("list.csv", f"label,ethanol,water,max iterations\na,0.5,0.5,\nb,0.5,0.5,{limit}\n")
            self.assertEqual(self.queue(*asked, "--allowance", "3000").status, status)
        # with hardly anything left no limit fits
        self.assertIn("raise the allowance to at least 2004.\n", self.queue(*asked, "--allowance", "7").out)
        # a higher limit asks for more
        self.file("list.csv", "label,ethanol,water,max iterations\na,0.5,0.5,2\n")
        run = self.queue(*asked, "--allowance", "3000")
        self.assertEqual(run.err, "sheet: 1 of 1 questions refused, number 27\n")
        out = " ".join(run.out.split())
        self.assertIn("It then asks for more of the allowance, so that others may be put off.", out)

    def test_enough_for_all(self):
        for allowance in (0, 500, 3000):
            found = self.found("--questions", SHIFT, "--allowance", str(allowance))
            self.assertGreater(found["counts"]["put_off"], 0)
            again = self.found("--questions", SHIFT, "--allowance", str(found["enough"]))
            self.assertEqual((again["counts"]["put_off"], again["counts"]["answered"]), (0, 5))

    def test_statuses_and_the_last_line(self):
        run = self.queue(*CASES["queue-shift"][1])
        put_off = "1 of 6 questions put off, none is with --allowance 12768"
        self.assertEqual(run.err, f"sheet: 1 of 6 questions refused, number 18; {put_off}\n")
        path = self.file("list.csv", "ethanol,water\n0.5,0.5\n")
        asked = ("--questions", path, "--temperature", "78C", "--pressure", "1atm")
        self.assertEqual(self.queue(*asked, "--allowance", "2004").status, 0)
        off = self.queue(*asked, "--allowance", "2003")
        self.assertEqual((off.status, off.err), (1, "sheet: 1 of 1 questions put off, none is with --allowance 2004\n"))

    def test_marked(self):
        """A vapor whose first drop is no liquid: the queue's answer is judged as on its own sheet."""
        path = self.file("list.csv", "label,water,toluene\nv,0.5,0.5\n")
        asked = ("--temperature", "25C", "--pressure", "2kPa")
        own = sheet("flash", "--drum", "water=0.5,toluene=0.5", *asked)
        run = self.queue("--questions", path, "--allowance", "5000", *asked)
        self.assertEqual((own.status, run.status), (3, 3), run.out)
        self.assertIn("*** SPLITS IN TWO LAYERS: v (line 2)", run.out)
        self.assertNotIn("vapor fraction", run.out)
        self.assertIn("./sheet flash --drum water=0.5,toluene=0.5 --temperature 298.15K --pressure 2000Pa\n", run.out)
        self.assertEqual(run.err, "sheet: 1 of 1 questions marked, the first is v (line 2)\n")

    def test_refused_later_by_the_program(self):
        """It takes all that it asked for, and the sheet says so."""
        with still():
            run = self.queue(*CASES["queue-splits"][1])
            found = self.found(*CASES["queue-splits"][1])
        self.assertRegex(run.out, r"layers +72\.00 °C +100 kPa +REFUSED \(28\) +2004 +2004 \(at most\) +996\n")
        self.assertIn("at most 2004 taken, 996 left", run.out)
        words = "The program still doesn't say how many evaluations a refused flash began"
        self.assertIn(words, " ".join(run.out.split()))
        self.assertFalse(found["exact"] or found["questions"][0]["exact"])

    def test_csv_is_what_json_has(self):
        found = self.found(*CASES["queue-shift"][1])
        rows = list(csv.DictReader(io.StringIO(self.queue(*CASES["queue-shift"][1], "--csv").out)))
        self.assertEqual(len(rows), len(found["questions"]))
        for row, question in zip(rows, found["questions"]):
            self.assertEqual(row["status"], question["status"])
            for name in ("asks_for", "took", "left"):
                self.assertEqual(row[name], "" if question[name] is None else str(question[name]))
            if question["answer"]:
                self.assertEqual(float(row["vapor_fraction"]), question["answer"]["vapor_fraction"])
                self.assertEqual(int(row["evaluations"]), question["took"])
            self.assertEqual(float(row["asked_temperature_K"]), question["question"]["temperature_K"])
        self.assertIn("it asks for 10004 evaluations, and 2740 were left", rows[4]["reason"])

    def test_one_label_for_two(self):
        out = self.queue(*CASES["queue-kg"][1]).out
        self.assertIn("ONE LABEL FOR 2 QUESTIONS: night 2, in lines 3 and 4\n", out)
        self.assertIn("  night 2 (line 4)", out)

    def test_empty_cells_take_the_command_line_s(self):
        path = self.file("list.csv", "label,ethanol,water,T,max iterations\na,0.5,0.5,,\nb,0.5,0.5,80C,70\n")
        found = self.found(
            "--questions", path, "--allowance", "9999", "--temperature", "70C", "--pressure", "1bar",
            "--max-iterations", "90", "--tolerance", "1e-9"
        )
        asked = [entry["question"] for entry in found["questions"]]
        self.assertEqual([entry["temperature_K"] for entry in asked], [343.15, 353.15])
        self.assertEqual([(entry["max_iterations"], entry["tolerance"]) for entry in asked], [(90, 1e-9), (70, 1e-9)])
        self.assertEqual([entry["asks_for"] for entry in found["questions"]], [364, 284])


class Evaluations(InFolder):
    """Of a flash on its own sheet."""

    def test_details_and_json(self):
        asked = ("flash", "--drum", "ethanol=0.5,water=0.5", "--temperature", "351.44K", "--pressure", "90kPa")
        asked += ("--book", str(SAMPLE))
        self.assertIn("  evaluations      243 (all activity coefficients at once)\n", sheet(*asked, "--details").out)
        self.assertNotIn("evaluations", sheet(*asked).out)
        self.assertEqual(json.loads(sheet(*asked, "--json").out)["answer"]["evaluations"], 243)
        for command in ("bubble-pressure", "stability"):
            other = (command, *asked[1:5], *asked[7:])
            self.assertNotIn("evaluations", sheet(*other, "--details").out)
            self.assertNotIn("evaluations", json.loads(sheet(*other, "--json").out)["answer"])

    def test_many_drums(self):
        week = ("--drums", str(ROOT / "yard" / "week.csv"), "--temperature", "72C")
        details = sheet("flash", *week, "--pressure", "1bar", "--details").out
        self.assertRegex(details, r"residual +evaluations\n")
        self.assertNotIn("evaluations", sheet("bubble-pressure", *week, "--details").out)


if __name__ == "__main__":
    unittest.main()
