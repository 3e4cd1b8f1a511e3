"""The sheet that a planner lays beside the label: what stands on it, in which digits, and what only --details has."""

import hashlib
import json
import os
import re
import subprocess
import sys
import unittest
from unittest import mock

from desk import text
from desk.answer import NOTE_WORDS
from desk.openbook import open_book

from .support import ROOT, YARD, InFolder, sheet

DRUM = ("--drum", "ethanol=0.5,water=0.3,acetone=0.2")
FLASH = ("flash", *DRUM, "--temperature", "72C", "--pressure", "1bar")


class PlainSheet(InFolder):
    def test_head_has_date_label_and_checksum(self):
        run = sheet(*FLASH, "--label", "drum 17")
        digest = hashlib.sha256(open_book(str(YARD)).content).hexdigest()
        for row in (
            "Label    drum 17",
            "Date     2026-11-16 09:30",
            f"Book     yard/yard.txt, 6 solvents, NRTL, SHA-256 {digest[:12]}",
        ):
            self.assertIn(f"  {row}\n", run.out)
        found = json.loads(sheet(*FLASH, "--label", "drum 17", "--json").out)
        self.assertEqual(
            (found["label"], found["date"], found["book"]["sha256"]), ("drum 17", "2026-11-16 09:30", digest)
        )

    def test_checksum_is_that_of_the_book_file(self):
        said = sheet("book", str(YARD), "-o", "book.bin", cwd=self.folder).out
        digest = hashlib.sha256((self.folder / "book.bin").read_bytes()).hexdigest()
        self.assertIn(f"SHA-256 {digest[:12]}", said)
        self.assertIn(digest[:12], sheet(*FLASH).out)
        self.assertIn(digest, sheet(*FLASH, "--details").out)

    def test_date_is_today_s(self):
        with mock.patch.dict(os.environ):
            del os.environ["SOURCE_DATE_EPOCH"]
            self.assertRegex(sheet(*FLASH).out, r"  Date     20\d\d-[01]\d-[0-3]\d [0-2]\d:[0-5]\d\n")

    def test_celsius_first_and_about_five_digits(self):
        out = sheet("bubble-temperature", *DRUM, "--pressure", "1bar").out
        self.assertIn("begins to boil at  68.07 °C (341.22 K)\n", out)
        numbers = re.findall(r"\d+\.\d+", out.split(text.RULE)[1])
        self.assertGreater(len(numbers), 8)
        self.assertLessEqual(max(len(number.replace(".", "").lstrip("0")) for number in numbers), 6)

    def test_details_have_all_digits(self):
        plain, details = sheet(*FLASH), sheet(*FLASH, "--details")
        found = json.loads(sheet(*FLASH, "--json").out)["answer"]
        for value in (found["vapor_fraction"], found["bubble_pressure_Pa"], *found["vapor"].values()):
            self.assertIn(repr(value), details.out)
            self.assertNotIn(repr(value), plain.out)
        for words in ("Task ", "iterations", "residual", "balance", "trivial", "A7-GAMMA-PHI"):
            self.assertIn(words, details.out)
            self.assertNotIn(words, plain.out)

    def test_tags_stand_in_details_and_json_alone(self):
        found = json.loads(sheet(*FLASH, "--json").out)["answer"]["notes"]
        self.assertEqual([note["name"] for note in found], [NOTE_WORDS[0][0], NOTE_WORDS[2][0]])
        self.assertNotIn("A7-", sheet(*FLASH).out)
        self.assertIn("NRTL liquid with an ideal-gas vapor.", sheet(*FLASH).out)

    def test_one_liquid_layer(self):
        self.assertIn("  one liquid layer: yes\n", sheet(*FLASH).out)

    def test_start_of_a_trial_is_never_shown_as_a_layer(self):
        """The trials stop at their first step, 0.999 and 0.001: no layer has these fractions."""
        asked = ("stability", "--drum", "toluene=0.4,water=0.6", "--temperature", "25C")
        out, details = sheet(*asked).out, " ".join(sheet(*asked, "--details").out.split())
        self.assertNotIn("0.999", out)
        self.assertIn("stopped at water", details)
        self.assertIn("its start where it took one iteration; they are no layer", details)

    def test_stability_explains_its_columns(self):
        asked = ("stability", *DRUM, "--temperature", "70C")
        words = " ".join(sheet(*asked).out.split())
        for column in ("trial started at", "distance", "found"):
            self.assertIn(column, words)
        for explained in (
            "starts at one nearly pure solvent",
            "'distance' is how far the liquid found lies above that plane",
            "below 0 the drum's liquid splits",
        ):
            self.assertIn(explained, words)
        self.assertIn(
            "'trivial' trials came back to the drum's own liquid", " ".join(sheet(*asked, "--details").out.split())
        )

    def test_json_has_plain_numbers_and_no_absent_solvents(self):
        found = json.loads(sheet(*FLASH, "--json").out)
        self.assertEqual(found["question"]["fractions"], {"water": 0.3, "ethanol": 0.5, "acetone": 0.2})
        self.assertIsInstance(found["answer"]["vapor_fraction"], float)
        self.assertEqual(set(found["answer"]["vapor"]), {"water", "ethanol", "acetone"})
        self.assertNotIn("toluene", json.dumps(found))
        exact = json.loads(sheet(*FLASH, "--json", "--details").out)["answer"]["vapor"]
        self.assertEqual(len(exact), 6)
        self.assertEqual(exact["water"]["value"], found["answer"]["vapor"]["water"])


class Ranges(InFolder):
    def test_outside_by_name_and_interval(self):
        run = sheet("bubble-temperature", *DRUM, "--pressure", "1bar")
        self.assertIn("OUT OF RANGE at 68.07 °C: water and ethanol (fitted for 78.29 to 99.97 °C)\n", run.out)
        self.assertIn("water and ethanol     78.29 to 99.97 °C   OUTSIDE, interval inferred\n", run.out)
        self.assertIn("water and acetone     56.05 to 99.97 °C   inside, interval inferred\n", run.out)
        self.assertEqual(run.status, 0)

    def test_estimated_as_ideal(self):
        run = sheet("bubble-pressure", "--drum", "ethanol=0.5,methanol=0.5", "--temperature", "70C")
        self.assertIn(
            "ethanol and methanol   64.70 to 78.29 °C   inside, interval inferred, estimated as ideal\n", run.out
        )
        self.assertNotIn("OUT OF RANGE", run.out)

    def test_validity_is_the_core_s(self):
        """Task 1's own words at the sheet's temperature agree with the pairs that are named."""
        for drum in (
            "ethanol=0.5,water=0.5",
            "toluene=0.5,acetone=0.5",
            "toluene=0.0001,water=0.9999",
            "acetone=0.3,methanol=0.3,toluene=0.4",
            "water=1",
        ):
            for celsius in ("15C", "25C", "60C", "80C", "99C", "110C"):
                found = json.loads(sheet("excess", "--drum", drum, "--temperature", celsius, "--json").out)
                outside = any(remark["outside"] for remark in found["pairs"]["remarks"])
                self.assertEqual(found["pairs"]["validity"], found["answer"]["validity"])
                self.assertEqual(found["pairs"]["inferred"], found["answer"]["inferred"])
                self.assertEqual(outside, found["answer"]["validity"] == "extrapolated", (drum, celsius))
                self.assertEqual(
                    any(remark["inferred"] for remark in found["pairs"]["remarks"]), found["answer"]["inferred"]
                )

    def test_outside_the_model(self):
        """Tasks 1 and 6 answer at any temperature; the sheet says where the model ends."""
        for command in ("excess", "stability"):
            run = sheet(command, "--drum", "water=1", "--temperature", "900C")
            self.assertIn("OUT OF RANGE at 900.00 °C: the model (made for 0.01 to 176.85 °C)\n", run.out)
        self.assertNotIn("the model", sheet("excess", "--drum", "water=1", "--temperature", "100C").out)

    def test_no_interval(self):
        content = re.sub(r"interval +=.*\ninferred +=.*\n", "", YARD.read_text(encoding="utf-8"))
        run = sheet(
            "excess", "--book", self.file("a.txt", content), "--drum", "ethanol=0.5,water=0.5", "--temperature", "80C"
        )
        self.assertIn("water and ethanol   no interval known   not assessed\n", run.out)


class Fractions(InFolder):
    def test_message_has_values_to_paste(self):
        run = sheet("excess", "--drum", "ethanol=0.333,water=0.333,acetone=0.333", "--temperature", "60C")
        self.assertEqual(run.status, 1)
        (pasted,) = re.findall(r"--drum (\S+)", run.out)
        self.assertIn(f": as given they sum to 0.999; add --normalize, or paste --drum {pasted}\n", run.err)
        self.assertEqual(pasted, "water=0.333333333333,ethanol=0.333333333333,acetone=0.333333333333")
        self.assertEqual(sheet("excess", "--drum", pasted, "--temperature", "60C").status, 0)

    def test_percentages_and_tiny_fractions_paste(self):
        for drum in (
            "ethanol=50,water=50",
            "ethanol=1e-9,water=1,toluene=1e-14",
            "ethanol=3,water=3,acetone=3,methanol=3,toluene=1,2-propanol=7",
        ):
            (pasted,) = (
                re.findall(r"--drum (\S+)", sheet("excess", "--drum", drum, "--temperature", "60C").out) or [drum]
            )
            self.assertIn(sheet("excess", "--drum", pasted, "--temperature", "60C").status, (0, 3), drum)

    def test_normalize_shows_both(self):
        asked = (
            "bubble-pressure",
            "--drum",
            "ethanol=0.333,water=0.333,acetone=0.333",
            "--temperature",
            "60C",
            "--normalize",
        )
        run = sheet(*asked)
        self.assertEqual(run.status, 0)
        self.assertIn("Given    water 0.333, ethanol 0.333, acetone 0.333, which sums to 0.999\n", run.out)
        self.assertIn("Drum     water 0.333333, ethanol 0.333333, acetone 0.333333, normalized\n", run.out)
        question = json.loads(sheet(*asked, "--json").out)["question"]
        self.assertEqual((question["fractions_given"]["water"], question["fractions"]["water"]), (0.333, 1 / 3))

    def test_normalize_changes_nothing_that_sums_to_1(self):
        asked = ("excess", "--drum", "ethanol=0.5,water=0.5", "--temperature", "60C")
        self.assertEqual(sheet(*asked, "--normalize").out, sheet(*asked).out)

    def test_what_can_t_be_normalized(self):
        for drum, number in (("ethanol=0,water=0", 18), ("ethanol=-1,water=3", 16)):
            run = sheet("excess", "--drum", drum, "--temperature", "60C", "--normalize")
            self.assertIn(f"REFUSED, number {number}: ", run.out)


class Vanishing(InFolder):
    def test_the_step_and_not_the_drum(self):
        content = re.sub(r"(vapor reducing +=) \S+ kPa", r"\1 1e-315 Pa", YARD.read_text(encoding="utf-8"))
        drum = ("--book", self.file("a.txt", content), "--drum", "ethanol=0.5,water=0.5")
        for command, steps in (
            (("dew-pressure", "--temperature", "80C"), "the dew point's liquid"),
            (("dew-temperature", "--pressure", "1bar"), "the dew point's liquid"),
            (
                ("flash", "--temperature", "80C", "--pressure", "1bar"),
                "the dew point's liquid, or a phase of the flash",
            ),
        ):
            run = sheet(*command, *drum)
            self.assertEqual(run.status, 1)
            self.assertIn("REFUSED, number 34: ", run.out)
            self.assertIn(f"can't be brought to fractions that sum to 1: {steps}\n", run.err)
            self.assertIn("What to do: the drum is not to blame", run.out)


class Out(InFolder):
    def test_book_to_standard_output(self):
        command = [sys.executable, str(ROOT / "sheet"), "book", str(YARD), "-o", "-"]
        run = subprocess.run(command, capture_output=True, cwd=self.folder)
        self.assertEqual((run.returncode, run.stdout, run.stderr), (0, open_book(str(YARD)).content, b""))
        self.assertEqual(list(self.folder.iterdir()), [])

    def test_no_progress_without_a_terminal(self):
        command = [
            sys.executable,
            str(ROOT / "sheet"),
            "diagram",
            "txy",
            "--pair",
            "ethanol,water",
            "--pressure",
            "1bar",
            "--points",
            "301",
            "-o",
            "a.svg",
        ]
        run = subprocess.run(command, capture_output=True, cwd=self.folder)
        self.assertEqual((run.returncode, run.stderr), (0, b""))


class WideCharacters(InFolder):
    def test_columns_line_up(self):
        rows = text.table(("溶剤", "x"), (("エタノール", "0.5"), ("water", "0.25")))
        self.assertEqual({text.width(row) for row in rows}, {text.width(rows[0])})
        self.assertEqual(rows[1], "  エタノール    0.5")
        self.assertEqual(
            text.fields((("é", "a"), ("e\u0301", "b"), ("水", "c"))), ["  é   a", "  e\u0301   b", "  水  c"]
        )

    def test_names_of_a_yard(self):
        content = YARD.read_text(encoding="utf-8").replace("ethanol", "エタノール")
        run = sheet(
            "bubble-pressure",
            "--book",
            self.file("a.txt", content),
            "--drum",
            "エタノール=0.5,water=0.5",
            "--temperature",
            "70C",
        )
        rows = [
            line for line in run.out.splitlines() if line.startswith(("  water   ", "  エタノール   ")) and "0.5" in line
        ]
        self.assertEqual(len(rows), 2)
        self.assertEqual(len({text.width(row) for row in rows}), 1)


class Advice(unittest.TestCase):
    def test_22_names_the_range(self):
        run = sheet("bubble-pressure", *DRUM, "--temperature", "200C")
        self.assertIn("200.00 °C (473.15 K) lies above the model's range, 0.01 to 176.85 °C (273.16 to 450 K)", run.err)

    def test_27_and_28_by_command(self):
        words = sheet("refusals", "27", "28").out
        self.assertIn("./sheet layers", words)
        self.assertIn("after flash: the core's steps left the two-phase region", words)
        run = sheet("rachford-rice-negative", "--drum", "ethanol=0.5,water=0.5", "--k", "ethanol=2,water=2")
        self.assertIn("rachford-rice answers with the single phase", " ".join(run.out.split()))
