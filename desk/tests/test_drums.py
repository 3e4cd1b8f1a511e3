"""Many drums at one setting: lists as planners write them, their sheet, and each drum as on a sheet of its own."""

import csv
import io
import json
import os
import random
import unittest
from dataclasses import replace
from unittest import mock

from desk import batch, drumlist
from desk.answer import REFUSAL, TASK
from desk.core import Core
from desk.errors import DeskError
from desk.library import NAME, offers
from desk.openbook import feed_of, open_book
from desk.progress import Progress
from desk.question import Question
from desk.tasks import BUBBLE_PRESSURE, TASKS

from .support import ROOT, YARD, InFolder, contents, sheet
from .test_mass import damaged, without

WEEK = str(ROOT / "yard" / "week.csv")
T, TP = ("--temperature", "72C"), ("--temperature", "72C", "--pressure", "1bar")
WEIGHED = """Drum;ethanol (kg);water (kg);acetone (kg)
drum 17;40;12,5;8,5
drum 18;1,5;2;
drum 18;;3;0,25
"""
CASES = {
    "drums-flash": (1, ("flash", "--drums", WEEK, *TP, "--label", "week 47")),
    "drums-bubble": (1, ("bubble-pressure", "--drums", WEEK, *T)),
    "drums-dew": (1, ("dew-pressure", "--drums", WEEK, *T)),
    "drums-excess": (1, ("excess", "--drums", WEEK, *T)),
    "drums-stability": (1, ("stability", "--drums", WEEK, *T)),
    "drums-kg": (0, ("flash", "--drums", "weighed.csv", "--temperature", "80C", "--pressure", "1atm")),
    "drums-normalized": (3, ("bubble-pressure", "--drums", WEEK, *T, "--normalize")),
}
# what is said, and the list
BAD = {
    "is empty; the table begins with a line of names": "\n \n",
    "has nothing below its line of names": "label,ethanol\n\n,,\n",
    "line 1: 'etanol' is neither 'label' nor a solvent of yard/yard.txt, which has water, ethanol, methanol, acetone, "
    "2-propanol, toluene; --skip passes over a column; did you mean ethanol?": "label,etanol\na,1\n",
    "line 2: 'date' is neither 'label' nor a solvent": "\nlabel,ethanol,date\na,1,monday\n",
    "line 1 names no solvent of yard/yard.txt": "label\na\n",
    "line 1: 'ethanol' and '64-17-5' are two columns of one solvent": "label,ethanol,64-17-5\na,1,0\n",
    "line 1: 'label' and 'Drum' are two columns of one label": "label,Drum,ethanol\na,b,1\n",
    "line 1: unit 'lb' in 'ethanol (lb)' is none of %, kg, g, t, mol, kmol, mmol, umol": "label,ethanol (lb)\na,1\n",
    "unit 'KG' in 'ethanol KG' is none of %, kg, g, t, mol, kmol, mmol, umol; did you mean kg?": "ethanol KG\n1\n",
    "line 3: ethanol: 'half' is not a number": "label,ethanol,water\na,0.5,0.5\nb,half,0.5\n",
    "line 3: ethanol: '0,5' is not a number": 'label,ethanol,water\na,0.5,0.5\nb,"0,5",0.5\n',
    "line 2: ethanol: '1.000,5' is not a number": "ethanol;water\n1.000,5;1\n",
    "line 2: ethanol: 'nan' is not a number; lines 3, 5 can't be read either": "ethanol\nnan\ninf\n1\n-\n",
    "lines 3, 4, 5, 6, 7 and others can't be read either": "ethanol\n" + "x\n" * 8,
    "line 2: ethanol: '1e999' is too large": "ethanol,water\n1e999,1\n",
    "line 3 ends after 2 of 3 columns: water is missing": "label,ethanol,water\na,0.5,0.5\nb,1\n",
    "line 2: '0.3' stands in a column that has no name": "label,ethanol,\na,1,0.3\n",
    "line 2: '7' stands in a column that has no name": "label,ethanol\na,1,7\n",
    "line 2: 'a' has no amounts": "label,ethanol,water\na,,\n",
    "line 2: ethanol: '40 kg' has a unit, and its column too, kg": "label,ethanol (kg)\na,40 kg\n",
    "line 2: water has no unit where another solvent has one": "label,ethanol,water\na,40kg,12\n",
    "line 2: the weights sum to 0 kg": "label,ethanol kg\na,0\n",
    "line 2: ethanol: unit 'l' in '40l' is not kg, g or t": "label,ethanol\na,40l\n",
    "line 2: water -1mol: no drum holds less than nothing": "label,water\na,-1mol\n",
    "line 2: a cell in quotes doesn't end, or something stands behind it": 'label,ethanol\n"a,1\nb,1\n',
    "is not a table: no text in UTF-8; save the table as CSV, in UTF-8": b"PK\3\4\0\0",
    "no text in UTF-8": b"label,ethanol\nS\xe4ure,1\n",
}


class Feeds(unittest.TestCase):
    """How the program is asked, which takes one feed at a time."""

    def test_one_by_one(self):
        book, rng = open_book(str(YARD)), random.Random(4)
        rows = [tuple(rng.random() for _ in range(6)) for _ in range(5)]
        rows = [tuple(x / sum(row) for x in row) for row in rows] + [(2.0,), (0.5, 0.5)]
        with Core(book.content) as core:
            for task in batch.TASKS:
                question = Question(task, (7.0,), 345.15, 1e5)
                found = core.ask_feeds(question, rows)
                self.assertEqual(found, [core.ask(replace(question, fractions=row)) for row in rows])
                self.assertEqual((found[5].refusal, found[6].accepted), (18, True))

    def test_tasks(self):
        self.assertEqual([task.number for task in batch.TASKS], [1, 2, 3, 6, 7])
        with Core(open_book(str(YARD)).content) as core:
            for task in TASKS:
                if task not in batch.TASKS:
                    found = core.ask_feeds(Question(task, (), 345.15, 1e5, (1.0,) * 6), [(1.0,), (2.0,)])
                    self.assertEqual([(blocks.head[TASK], blocks.head[REFUSAL]) for blocks in found], [(0, 12)] * 2)

    def test_whole_calls(self):
        book = open_book(str(YARD)).content
        wrong = {2: book[:-8] + bytes(8), 1: book[:-1], 35: damaged(book, 1, 45, 0)}
        calls = [(33, book, 0), (33, book, 65)]
        calls += [(number, wrong[number], count) for number in wrong for count in (0, 1)]
        for number, content, count in calls:
            with Core(content) as core, self.assertRaises(batch.CallRefused) as refused:
                core.ask_feeds(Question(BUBBLE_PRESSURE, (), 345.15), [(1.0,)] * count)
            self.assertEqual((refused.exception.number, refused.exception.status), (number, 1))
        with Core(book) as core:
            self.assertEqual(len(core.ask_feeds(Question(BUBBLE_PRESSURE, (), 345.15), [(1.0,)] * 64)), 64)

    def test_bytes(self):
        found = batch.bytes_of([(0.25, -0.0), (float("nan"),)])
        words = [int.from_bytes(found[at : at + 8], "little") for at in range(0, len(found), 8)]
        self.assertEqual(words, [0x3FD0 << 48, 1 << 63, *[0] * 6, 0x7FF8 << 48, *[0] * 7])


class Lists(InFolder):
    def read(self, content, **settings):
        return drumlist.read(self.file("list.csv", content), open_book(str(YARD)), **settings)

    def test_one_week_as_many_hands_write_it(self):
        book = open_book(str(YARD))
        due = [feed_of(book, [drum], None) for drum in ("ethanol=0.45,water=0.55", "water=0.25,ethanol=0.75")]
        for content in (
            "label,ethanol,water\na,0.45,0.55\nb,0.75,0.25\n",
            "label,ethanol,water,toluene\r\n\r\na,0.45,0.55,\r\nb,0.75,0.25,\r\n,,,\r\n",
            b"\xef\xbb\xbflabel;ethanol;water\r\na;0,45;0,55\r\nb;0,75;0,25",
            "label\tEthanol\tWATER\na\t0,45\t.55\nb\t0.75\t0,25\n",
            " water , label , ethanol \n 0.55 , a , 0.45 \n\n\n+0.25,b,75e-2\n",
            '"drum","64-17-5","7732-18-5"\n"a","0.45","0.55"\n"b","0.75","0.25"\n',
            "label,ethanol %,water [%]\na,45,55\nb,75,25\n",
            "label,ethanol,water\na,45%,55 %\nb,75 %,25%\n",
            "label;ethanol (%);water (%);;\na;45,0;55,;;\nb;75;25;;\n",
        ):
            found = self.read(content)
            self.assertEqual([drum.label for drum in found], ["a", "b"], content)
            self.assertEqual([drum.feed for drum in found], due, content)

    def test_weights_moles_and_mass_fractions(self):
        book = open_book(str(YARD))
        weights = feed_of(book, ["ethanol=40kg,water=12.5kg"], None)
        for content in (
            "ethanol (kg),water (kg)\n40,12.5\n", "ethanol,water\n40kg,12.5 kg\n", "ethanol kg;water t\n40;0,0125\n",
            "ethanol g;water\n40000;12,5 kg\n"
        ):
            (drum,) = self.read(content)
            self.assertEqual((drum.feed, drum.label, drum.name), (weights, "", "line 2"), content)
        (drum,) = self.read("ethanol mol,water\n2,3mol\n")
        self.assertEqual(drum.feed, feed_of(book, ["ethanol=2mol,water=3mol"], None))
        (drum,) = self.read("ethanol,water\n0.7,0.3\n", by_mass=True)
        self.assertEqual(drum.feed, feed_of(book, None, ["ethanol=0.7,water=0.3"]))
        (drum,) = self.read("ethanol %,water %\n70,20\n", by_mass=True, normalize=True)
        self.assertEqual(drum.feed, feed_of(book, None, ["ethanol=0.7,water=0.2"], True))
        with self.assertRaisesRegex(DeskError, "line 2: ethanol 40kg: mass fractions have no unit; weights go into"):
            self.read("ethanol\n40kg\n", by_mass=True)

    def test_lines(self):
        """Of the file, whatever is blank; of a label over two lines the first."""
        found = self.read('\nlabel,water\n\na,1\n"b\nlarge",1\nc,1\n')
        self.assertEqual([(drum.line, drum.label) for drum in found], [(4, "a"), (5, "b large"), (7, "c")])
        self.assertEqual(found[0].name, "a (line 4)")

    def test_columns_to_pass_over(self):
        content = "Date,label,water,remark\nmonday,a,1,half full\n"
        (drum,) = self.read(content, skip=["date", "Remark"])
        self.assertEqual((drum.label, drum.feed.fractions[0]), ("a", 1.0))
        with self.assertRaisesRegex(DeskError, "--skip: 'remarks' is no column of .*; did you mean remark"):
            self.read(content, skip=["remarks"])

    def test_a_book_without_molar_masses(self):
        book = open_book(self.file("lacking.txt", without("toluene")))
        path = self.file("list.csv", "ethanol kg\n40\n")
        with self.assertRaisesRegex(DeskError, "line 2: a drum by mass needs the molar mass .* lacks that of toluene"):
            drumlist.read(path, book)


class Sheets(InFolder):
    def setUp(self) -> None:
        super().setUp()
        self.file("weighed.csv", WEIGHED)
        (self.folder / "yard").symlink_to(ROOT / "yard")

    def test_stored(self):
        for name, (status, arguments) in CASES.items():
            with self.subTest(name):
                for ending in ("txt", "json", "details.txt", "csv"):
                    options = [] if ending == "txt" else [f"--{ending.split('.')[0]}"]
                    run = sheet(*arguments, *options, cwd=self.folder)
                    self.assertEqual(run.status, status, run.err)
                    self.assertEqual(run.err.count("\n"), int(status != 0), run.err)
                    self.assert_golden(f"{name}.{ending}", run.out)

    def found(self, *arguments: str):
        run = sheet(*arguments, "--json", "--details", cwd=self.folder)
        self.assertIn(run.status, (0, 1, 3), run.err)
        return json.loads(run.out)

    def test_each_drum_as_on_its_own_sheet(self):
        """The same bits and the same words, but for what is searched where a liquid splits."""
        rows = {"drum 17": "water=0.3,ethanol=0.5,acetone=0.2", "drum 18": "water=0.6,toluene=0.4"}
        rows |= {"drum 19": "water=0.25,ethanol=0.65,acetone=0.1", "drum 20": "water=0.35,ethanol=0.45,acetone=0.19"}
        rows["drum 21"] = "water=0.2,ethanol=0.2,acetone=0.6"
        for command, options in (("flash", TP), *((task.command, T) for task in batch.TASKS[:-1])):
            listed = self.found(command, "--drums", WEEK, *options)["drums"]
            self.assertEqual([drum["label"] for drum in listed], list(rows))
            for drum in listed:
                own = self.found(command, "--drum", rows[drum["label"]], *options)
                for name in ("answer", "one_liquid_layer", "by_mass", "pairs"):
                    self.assertEqual(drum[name], own[name], (command, drum["label"], name))
                self.assertEqual(drum["fractions"], own["question"]["fractions"])
                for name, key in (("refusal", "number"), ("refusal", "matter"), ("warning", "line")):
                    found, due = (document[name] and document[name][key] for document in (drum, own))
                    self.assertEqual(found, due, (command, drum["label"], name))

    def test_the_table_has_no_number_of_a_liquid_that_splits(self):
        out = sheet("bubble-pressure", "--drums", WEEK, *T).out
        self.assertRegex(out, r"(?m)^  drum 18   NO, IT SPLITS$")
        self.assertRegex(out, r"(?m)^  drum 20   REFUSED \(18\)$")
        self.assertRegex(out, r"(?m)^  drum 19   yes +99\.6172$")
        self.assertIn("*** SPLITS IN TWO LAYERS: drum 18 (line 3) ", out)
        self.assertIn("./sheet bubble-pressure --drum water=0.6,toluene=0.4 --temperature 345.15K\n", out)
        self.assertNotRegex(out, r"(?m)^  drum 18 .*\d\.\d")

    def test_the_command_to_paste_gives_the_drums_own_sheet(self):
        out = sheet("flash", "--drums", WEEK, *TP).out
        (command,) = [line.split()[1:] for line in out.splitlines() if line.startswith("    ./sheet flash")]
        run = sheet(*command)
        self.assertEqual(run.status, 1)
        self.assertIn("What holds at 72.00 °C and 100 kPa: two liquid layers", run.out.replace("\n  ", " "))

    def test_statuses_and_the_line_on_standard_error(self):
        good, splits, bad = "a,0,1\n", "b,0.4,0.6\n", "c,0.5,0.4\n"
        for rows, status, said in (
            (good, 0, ""),
            (good + splits, 3, "sheet: 1 of 2 drums marked, the first is b (line 3)\n"),
            (bad + good, 1, "sheet: 1 of 2 drums refused, number 18\n"),
            (
                bad + splits + bad,
                1,
                "sheet: 2 of 3 drums refused, number 18; 1 of 3 drums marked, the first is b (line 3)\n",
            ),
        ):
            path = self.file("list.csv", "label,toluene,water\n" + rows)
            run = sheet("bubble-pressure", "--drums", path, *T)
            self.assertEqual((run.status, run.err), (status, said), run.out)

    def test_csv_has_the_numbers_of_json(self):
        plain = json.loads(sheet("flash", "--drums", WEEK, *TP, "--json").out)["drums"]
        rows = list(csv.DictReader(io.StringIO(sheet("flash", "--drums", WEEK, *TP, "--csv").out)))
        self.assertEqual(len(rows), len(plain))
        for row, drum in zip(rows, plain):
            self.assertEqual([row[name] for name in ("label", "status")], [drum["label"], drum["status"]])
            self.assertEqual(int(row["line"]), drum["line"])
            self.assertEqual(row["refusal"], str(drum["refusal"]["number"]) if drum["refusal"] else "")
            self.assertEqual(row["warning"], drum["warning"]["line"] if drum["warning"] else "")
            answer = drum["answer"] or {"vapor_fraction": "", "liquid": None}
            self.assertEqual(row["vapor_fraction"], str(answer["vapor_fraction"]))
            for name in ("water", "ethanol", "acetone"):
                liquid = (answer["liquid"] or {}).get(name, "")
                self.assertEqual(row[f"liquid {name}"], str(liquid))

    def test_any_number_of_drums(self):
        """64 to a call, moles and mass apart, and in the order of the list."""
        rng, lines = random.Random(9), []
        for k in range(150):
            x = rng.random()
            lines.append(f"d{k},{x}kg,{1 - x}kg" if k % 3 == 0 else f"d{k},{x},{1 - x}")
        path, calls = self.file("list.csv", "label,ethanol,water\n" + "\n".join(lines) + "\n"), []
        real = Core.ask_feeds

        def asked(core, question, feeds):
            calls.append((question.by_mass, len(feeds)))
            return real(core, question, feeds)

        no_library = mock.patch.dict(os.environ, {"ZEKTONK_LIB": str(self.folder)})
        with mock.patch.object(Core, "ask_feeds", asked), no_library:
            found = json.loads(sheet("bubble-pressure", "--drums", path, *T, "--json").out)
        self.assertEqual(calls, [(False, 64), (False, 36), (True, 50)])
        self.assertEqual([drum["label"] for drum in found["drums"]], [f"d{k}" for k in range(150)])
        self.assertEqual(found["counts"], {"answered": 150, "marked": 0, "refused": 0})
        for k in (0, 1, 63, 64, 65, 149):
            feed = found["drums"][k]
            self.assertEqual(feed["feed"], "mass" if k % 3 == 0 else "moles")
            words = ",".join(f"{name}={feed['fractions'][name]!r}" for name in ("ethanol", "water"))
            own = json.loads(
                sheet("bubble-pressure", "--mass" if k % 3 == 0 else "--drum", words, *T, "--json").out
            )
            self.assertEqual(feed["answer"], own["answer"])

    def test_drums_in_moles(self):
        path = self.file("list.csv", "label,ethanol,water\na,3mol,1mol\nb,0mol,0mol\nc,0.75,0.25\n")
        a, b, c = self.found("bubble-pressure", "--drums", path, *T)["drums"]
        self.assertEqual((a["answer"], b["refusal"]["number"]), (c["answer"], 32))
        self.assertEqual(a["pool"]["total_micromoles"], 4000000)

    def test_one_label_twice(self):
        out = sheet("flash", "--drums", "weighed.csv", *TP, cwd=self.folder).out
        self.assertIn("ONE LABEL FOR 2 DRUMS: drum 18, in lines 3 and 4\n", out)
        self.assertRegex(out, r"(?m)^  drum 18 \(line 3\)   yes")
        self.assertRegex(out, r"(?m)^  drum 18 \(line 4\)   yes")

    def test_wilson_assumes_one_liquid(self):
        path = self.file("list.csv", "label,ethanol,water,2-propanol\na,0.5,0.5,\nb,,1,\n")
        out = sheet("flash", "--book", str(ROOT / "yard" / "alcohols.txt"), "--drums", path, *TP).out
        self.assertRegex(out, r"(?m)^  a +assumed +liquid")
        self.assertRegex(out, r"(?m)^  b +yes +liquid")

    def test_a_refused_book_ends_the_whole_call(self):
        content = damaged(open_book(str(YARD)).content, 1, 45, 0)
        path = self.file("list.csv", "64-17-5\n1\n")
        run = sheet("excess", "--book", self.file("book.bin", content), "--drums", path, *T)
        self.assertEqual((run.status, run.out), (1, ""))
        self.assertIn("sheet: refused, number 35: a solvent's molar mass", run.err)


class Refused(InFolder):
    def test_in_words_before_anything_is_asked(self):
        for words, content in BAD.items():
            with self.subTest(words):
                path = self.file("list.csv", content)
                before = contents(self.folder)
                run = sheet("excess", "--drums", path, "--temperature", "70C", "--program", "nowhere")
                self.assertEqual((run.status, run.out), (2, ""), run.err)
                self.assertIn(words, run.err)
                self.assertIn(f"sheet: {path}", run.err)
                self.assertEqual(run.err.count("\n"), 1)
                self.assertEqual(contents(self.folder), before)

    def test_options(self):
        listed = ("--drums", WEEK)
        for words, arguments in {
            "bubble-temperature takes one drum at a time; many go to excess, bubble-pressure, dew-pressure, stability, "
            "flash": ("bubble-temperature", *listed, "--pressure", "1bar"),
            "rachford-rice takes one drum at a time": ("rachford-rice", *listed, "--k", "water=1"),
            "--drums: not allowed with argument --drum": ("flash", "--drum", "water=1", *listed, *TP),
            "one of the arguments --drum --mass --drums is required": ("flash", *TP),
            "strike takes one drum at a time": ("strike", "flash", *listed, *TP),
            "--csv and --json are two forms of one sheet": ("flash", *listed, *TP, "--csv", "--json"),
            "--csv belongs to --drums": ("flash", "--drum", "water=1", *TP, "--csv"),
            "--by-mass belongs to --drums": ("flash", "--drum", "water=1", *TP, "--by-mass"),
            "--skip belongs to --drums": ("flash", "--drum", "water=1", *TP, "--skip", "date"),
            "nowhere.csv: No such file": ("flash", "--drums", "nowhere.csv", *TP),
            "--drums is no option of layers; did you mean --drum?": ("layers", *listed, *T),
        }.items():
            run = sheet(*arguments)
            self.assertEqual((run.status, run.out), (2, ""), run.err)
            self.assertIn(words, run.err)

    def test_numbers_are_explained(self):
        self.assertTrue(sheet("refusals", "33").out.startswith("33  there are not 1 to 64 whole feeds in one call\n"))


class WhoIsAsked(InFolder):
    def test_the_program_where_no_library_has_the_call(self):
        with mock.patch.dict(os.environ, {"ZEKTONK_LIB": str(self.folder)}):
            self.assertFalse(offers("zektonk_feeds"))
            (self.folder / NAME).write_bytes(b"no library")
            self.assertFalse(offers("zektonk_feeds"))
            self.assertEqual(sheet("excess", "--drums", WEEK, *T).status, 1)


class Page(unittest.TestCase):
    def test_the_guide_shows_the_list(self):
        guide = (ROOT / "docs" / "GUIDE.md").read_text(encoding="utf-8")
        with open(WEEK, encoding="utf-8") as week:
            self.assertIn(f"```\n{week.read()}```\n", guide)


class ProgressLine(unittest.TestCase):
    def test_drums(self):
        out, now = io.StringIO(), iter((0.0, 2.0, 3.0))
        out.isatty = lambda: True
        with Progress("week.csv", 2, out, lambda: next(now), "drums") as progress:
            progress.stepped(None)
        self.assertEqual(out.getvalue(), "\rweek.csv: 1 of 2 drums \rweek.csv: 1 drums, 3.0 s \n")


if __name__ == "__main__":
    unittest.main()
