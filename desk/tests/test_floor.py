"""The floor sheet: half a page with the floor reader's words, and with every warning of the whole sheet."""

import json
import re

from desk import answer, floorreport, readers, tasks, text
from desk.answer import Blocks
from desk.blocks import bits_of, sealed
from desk.judgement import Judgement
from desk.openbook import open_book
from desk.question import Question
from desk.sheet import Feed, Sheet

from . import test_sheets
from .support import ALCOHOLS, ROOT, YARD, InFolder, sheet
from .test_try import CASES as TRIED

DRUM, PAIR = test_sheets.DRUM, test_sheets.PAIR
HALF_A_PAGE = 33
CASES = {
    name: test_sheets.CASES[name]
    for name in (
        "excess", "bubble-pressure", "dew-pressure", "bubble-temperature", "dew-temperature", "stability", "flash-both",
        "flash-liquid", "flash-vapor", "rachford-rice", "rachford-rice-liquid", "rachford-rice-negative", "refused-28",
        "refused-29", "marked-bubble", "marked-dew", "marked-vapor", "marked-split", "mass-flash", "mass-dew",
    )
}  # fmt: skip
CASES["pool"] = ("flash", "--drum", "ethanol=4kg", "--drum", "water=30mol", *TRIED["try-flash"][1][3:7])
CASES["wilson"] = ("flash", "--book", str(ALCOHOLS), *PAIR, "--temperature", "79C", "--pressure", "1bar")
CASES["try-marked"], CASES["try-flash"] = (TRIED[name][1] for name in ("try-marked", "try-flash"))
# words of an answer that the floor isn't shown
OTHERS = (6, 7, 8, 9, 10, 12, 13, *range(30, 63))


class Sheets(InFolder):
    def test_golden(self):
        for name, arguments in CASES.items():
            with self.subTest(name):
                run, as_json, whole = (sheet(*arguments, *more) for more in (("--floor",), ("--floor", "--json"), ()))
                self.assertEqual((run.status, run.err), (whole.status, whole.err))
                self.assertEqual(as_json.status, whole.status)
                self.assert_golden(f"floor-{name}.txt", run.out)
                self.assert_golden(f"floor-{name}.json", as_json.out)

    def test_half_a_page(self):
        for name, arguments in CASES.items():
            with self.subTest(name):
                floor, whole = (sheet(*arguments, *more).out.splitlines() for more in (("--floor",), ()))
                self.assertLessEqual(len(floor), HALF_A_PAGE)
                if not arguments[0].startswith("rachford"):  # whose whole sheet has no more than that
                    self.assertLess(len(floor), len(whole) + name.startswith("refused"))

    def test_no_star_is_lost(self):
        """Every warning above the numbers of the whole sheet stands above the floor's, word for word."""
        marked = 0
        for arguments in (*test_sheets.CASES.values(), *(asked for _, asked in TRIED.values())):
            if arguments[0] in ("strike", "layers") or "--drums" in arguments:
                continue
            with self.subTest(" ".join(arguments)):
                found = []
                for more in ((), ("--floor",)):
                    lines = sheet(*arguments, *more).out.splitlines()
                    rule = lines.index(text.RULE)
                    end = next((k for k in range(rule, len(lines)) if lines[k].startswith("  ")), len(lines))
                    found.append([line for line in lines[rule + 1 : end] if line])
                    found[-1] += [line for line in lines if line.startswith(("***", "OUT OF RANGE", "  What holds"))]
                self.assertEqual(found[0], found[1])
                marked += any(line.startswith("***") for line in found[0])
        self.assertGreaterEqual(marked, 9)

    def test_the_numbers_are_those_of_the_whole_sheet(self):
        """Each row of the floor's numbers but T and p of a flash, which the whole sheet has as they were asked."""
        for name, arguments in CASES.items():
            with self.subTest(name):
                floor, whole = (sheet(*arguments, *more).out.splitlines() for more in (("--floor",), ()))
                squeezed = {"", *(" ".join(line.split()) for line in whole)}
                for line in floor[floor.index(text.RULE) :]:
                    told = re.match(r"  (temperature|pressure|The lab's|The activity|--floor)", line)
                    self.assertTrue(told or " ".join(line.split()) in squeezed, line)
        shown = json.loads(sheet(*CASES["flash-both"], "--floor", "--json").out)["floor"]
        due = json.loads(sheet(*CASES["flash-both"], "--json").out)["answer"]
        self.assertEqual(shown, {name: due[name] for name in floorreport.FIELDS})

    def test_what_does_not_go_together(self):
        for more, line in {
            ("--details",): "sheet: --floor is half a sheet, and --details takes a whole one\n",
            ("--strike",): "sheet: --floor is half a sheet, and strike takes a whole one\n",
        }.items():
            run = sheet(*CASES["flash-both"], "--floor", *more)
            self.assertEqual((run.status, run.out, run.err), (2, "", line))
        run = sheet("strike", *CASES["flash-both"], "--floor")
        self.assertEqual((run.status, run.err), (2, "sheet: --floor is half a sheet, and strike takes a whole one\n"))
        week = ("flash", "--drums", str(ROOT / "yard" / "week.csv"), "--temperature", "76C", "--pressure", "1bar")
        run = sheet(*week, "--floor")
        self.assertEqual((run.status, run.out), (2, ""))
        self.assertIn("--floor takes one drum at a time", run.err)
        self.assertIn("no option of layers", sheet("layers", *PAIR, "--temperature", "25C", "--floor").err)


class Words(InFolder):
    """The sheet shows the floor's words and nothing else of the answer."""

    def made(self, command: str, head) -> str:
        book, task = open_book(str(YARD)), tasks.BY_COMMAND[command]
        fractions = (0.5, 0.5, 0.0, 0.0, 0.0, 0.0)
        asked = Question(
            task, fractions, 350.0 if task.takes_temperature else None, 1e5 if task.takes_pressure else None,
            (2.0,) * 6 if task.takes_k else None,
        )  # fmt: skip
        found = Sheet(book, Feed(fractions), asked, Blocks(head, ()), Judgement(one_layer=True), date="today")
        return floorreport.render(found, readers.floor(found.blocks.content))

    def test_other_words_do_not_show(self):
        for task in tasks.TASKS:
            head = [9, task.number, 0, 3, *map(bits_of, (351.0, 9e4)), *[0] * 58]
            head[11] = bits_of(0.25)
            for at in range(14, 30):
                head[at] = bits_of(at / 100)
            due = self.made(task.command, head)
            for at in OTHERS:
                if at != answer.TRIALS:
                    changed = head[:at] + [bits_of(0.77)] + head[at + 1 :]
                    self.assertEqual(self.made(task.command, changed), due, (task.command, at))
            outcome = answer.VAPOR_ONLY if "dew" in task.command else answer.LIQUID_ONLY
            shown = set()
            for at in (3, 4, 5, 11, *range(14, 30)):
                changed = head[:at] + [outcome if at == 3 else bits_of(0.77)] + head[at + 1 :]
                shown |= {at} if self.made(task.command, changed) != due else set()
            self.assertEqual(shown, SHOWN[task.command], task.command)

    def test_a_stand_in_whose_answer_is_no_answer(self):
        """The program's output is tested by its check; the reader then takes what passes."""
        body = [f"sys.stdin.buffer.read(); sys.stdout.buffer.write(bytes.fromhex('{sealed([9, 7, 27]).hex()}'))"]
        sample = ("--book", str(ROOT / "crates" / "still" / "data" / "book.bin"))
        at = ("--temperature", "350K", "--pressure", "1bar", "--floor")
        run = sheet("flash", *sample, "--drum", "64-17-5=0.5,7732-18-5=0.5", *at, "--program", self.program(body))
        self.assertEqual(run.status, 1)
        self.assertIn("REFUSED, number 27: ", run.out)


# of two solvents, the words that each task's floor sheet hangs on; a phase that the outcome denies isn't shown
_BOTH = {14, 15, 22, 23}
SHOWN = {
    "excess": {4},
    "bubble-pressure": {3, 4, 5, 22, 23},
    "bubble-temperature": {3, 4, 5, 22, 23},
    "dew-pressure": {3, 4, 5, 14, 15},
    "dew-temperature": {3, 4, 5, 14, 15},
    "stability": set(),
    "flash": {3, 4, 5, 11, *_BOTH},
    "rachford-rice": {3, 11, *_BOTH},
    "rachford-rice-negative": {3, 11, *_BOTH},
}


class Readers(InFolder):
    def test_the_floor_holds_its_words_alone(self):
        head = [9, 7, 0, 3, *map(bits_of, range(4, 63)), 0]
        head[answer.TRIALS] = 0
        floor = readers.floor(Blocks(head, ()).content)
        shown = floor.blocks().head
        self.assertEqual([shown[at] for at in OTHERS], [0] * len(OTHERS))
        self.assertEqual([shown[at] for at in readers.PLACES], [head[at] for at in readers.PLACES])
        self.assertEqual((floor.task, floor.refusal, floor.outcome), (7, 0, 3))
        self.assertEqual([floor.real(at) for at in (readers.T, readers.P, readers.VAPOR_FRACTION)], [4.0, 5.0, 11.0])
        self.assertEqual((floor.entries(readers.LIQUID, 2), floor.entries(readers.VAPOR, 1)), ([14.0, 15.0], [22.0]))

    def test_number_1(self):
        right = sealed([9, 6, *[0] * 10, 2]) + sealed([10]) * 2
        self.assertEqual(readers.lab(right + b"behind"), right)
        for wrong in (
            b"", right[:511], right[:-1], right[1:], sealed([8]), sealed([9, *[0] * 11, 9]) + sealed([10]) * 9,
            sealed([9, *[0] * 11, 2**64 - 1]) + sealed([10]) * 9, right[:512] + sealed([9]) * 2,
        ):  # fmt: skip
            self.assertRaises(readers.NoAnswer, readers.floor, wrong)
            self.assertRaises(readers.NoAnswer, readers.lab, wrong)
        one = readers.floor(sealed([9, 1, *range(2, 63)][:12] + [0] + [7] * 20))
        self.assertEqual((one.words[:5], set(one.words[5:])), ((1, 2, 3, 4, 5), {0}))
