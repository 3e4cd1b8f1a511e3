"""Sheets as text and as JSON, for every task and a refusal: what the program answers today, as stored under golden/."""

import json
import unittest
from pathlib import Path

from desk import answer, refusals
from desk.blocks import Rule, bits_of, float_of, sealed, split
from desk.jsonsheet import Numbers

from .support import ROOT, InFolder, sheet

DRUM = ("--drum", "ethanol=0.5,water=0.3,acetone=0.2")
PAIR = ("--drum", "ethanol=0.5,water=0.5")
WEIGHED = ("--drum", "ethanol=40kg,water=12kg,acetone=8500g")
CASES = {
    "excess": ("excess", *DRUM, "--temperature", "70C"),
    "bubble-pressure": ("bubble-pressure", *DRUM, "--temperature", "343.15K"),
    "dew-pressure": ("dew-pressure", *DRUM, "--temperature", "343.15K"),
    "bubble-temperature": ("bubble-temperature", *DRUM, "--pressure", "101325Pa"),
    "dew-temperature": ("dew-temperature", *DRUM, "--pressure", "760mmHg"),
    "stability": ("stability", "--drum", "toluene=0.4,water=0.6", "--temperature", "25C"),
    "flash-both": ("flash", *DRUM, "--temperature", "72C", "--pressure", "1bar", "--label", "drum 17"),
    "flash-liquid": ("flash", *DRUM, "--temperature", "25C", "--pressure", "1bar"),
    "flash-vapor": ("flash", *DRUM, "--temperature", "110C", "--pressure", "1bar"),
    "flash-pure": ("flash", "--drum", "water=1", "--temperature", "25C", "--pressure", "1bar"),
    "rachford-rice": ("rachford-rice", *PAIR, "--k", "ethanol=2,water=0.5"),
    "rachford-rice-liquid": ("rachford-rice", *PAIR, "--k", "ethanol=0.5,water=0.5"),
    "rachford-rice-negative": ("rachford-rice-negative", *PAIR, "--k", "ethanol=4,water=0.9"),
    "refused-28": ("rachford-rice-negative", *PAIR, "--k", "ethanol=2,water=2"),
    "refused-29": ("flash", "--drum", "toluene=0.4,water=0.6", "--temperature", "25C", "--pressure", "1bar"),
    "strike-flash": ("strike", "flash", *DRUM, "--temperature", "72C", "--pressure", "1bar"),
    "strike-dew-temperature": ("strike", "dew-temperature", *DRUM, "--pressure", "1bar"),
    "marked-bubble": ("bubble-temperature", "--drum", "toluene=0.02,water=0.98", "--pressure", "101325Pa"),
    "marked-dew": ("dew-temperature", "--drum", "toluene=0.42,water=0.58", "--pressure", "101325Pa"),
    "marked-vapor": ("flash", "--drum", "toluene=0.42,water=0.58", "--temperature", "83.5C", "--pressure", "101325Pa"),
    "marked-split": ("rachford-rice", "--drum", "ethanol=0.1,water=0.9", "--k", "ethanol=7,water=0.6"),
    "mass-flash": ("flash", *WEIGHED, "--temperature", "76C", "--pressure", "1bar", "--label", "drum 19"),
    "mass-bubble": ("bubble-temperature", "--mass", "ethanol=0.7,water=0.3", "--pressure", "101325Pa"),
    "mass-dew": ("dew-pressure", *WEIGHED, "--temperature", "343.15K"),
    "mass-excess": ("excess", "--mass", "ethanol=0.7,water=0.3", "--temperature", "70C"),
    "mass-rachford-rice": ("rachford-rice", "--drum", "ethanol=40kg,water=12kg", "--k", "ethanol=2,water=0.5"),
    "mass-normalized": (
        "flash", "--mass", "ethanol=70,water=20", "--temperature", "80C", "--pressure", "1atm", "--normalize"
    ),
    "marked-mass": ("bubble-temperature", "--drum", "toluene=10kg,water=90kg", "--pressure", "101325Pa"),
    "refused-18-mass": ("excess", "--mass", "ethanol=0.7,water=0.2", "--temperature", "70C"),
    "strike-mass": ("strike", "bubble-pressure", *WEIGHED, "--temperature", "343.15K"),
    "normalized": (
        "bubble-pressure", "--drum", "ethanol=0.333,water=0.333,acetone=0.333", "--temperature", "70C", "--normalize"
    ),
}
LAYERS = {
    "layers-temperature": ("layers", "--drum", "toluene=0.4,water=0.6", "--temperature", "25C", "--label", "drum 18"),
    "layers-pressure": ("layers", "--drum", "acetone=0.3,water=0.3,toluene=0.4", "--pressure", "1atm"),
    "layers-mass": ("layers", "--drum", "toluene=40kg,water=12kg", "--temperature", "25C"),
    "layers-pair": ("layers", "--pair", "toluene,water", "--pressure", "101325Pa"),
    "layers-one": ("layers", "--drum", "ethanol=0.5,water=0.5", "--pressure", "1atm"),
    "layers-no-pair": ("layers", "--pair", "ethanol,water", "--temperature", "25C"),
}
MARKED = ("stability", "rachford-rice-negative")  # and those that are named so

# arguments after the command, and the number that the core gives
REFUSED = {
    13: ("excess", *PAIR, "--temperature", "-300C"),
    14: ("flash", *PAIR, "--temperature", "70C", "--pressure", "-1Pa"),
    16: ("excess", "--drum", "ethanol=-0.5,water=1.5", "--temperature", "70C"),
    17: ("rachford-rice", *PAIR, "--k", "ethanol=0,water=1"),
    18: ("excess", "--drum", "ethanol=0.5,water=0.5000000002", "--temperature", "70C"),
    19: ("stability", *PAIR, "--temperature", "70C", "--threshold", "1e-8"),
    20: ("flash", *PAIR, "--temperature", "70C", "--pressure", "1bar", "--max-iterations", "0"),
    21: ("dew-pressure", *PAIR, "--temperature", "70C", "--max-temperature-iterations", "1000001"),
    22: ("bubble-pressure", *PAIR, "--temperature", "0C"),
    23: ("bubble-temperature", *PAIR, "--pressure", "99.9Pa"),
    26: ("bubble-temperature", *PAIR, "--pressure", "1bar", "--bracket", "400K:450K"),
    27: ("dew-pressure", *PAIR, "--temperature", "70C", "--max-iterations", "1"),
    28: ("rachford-rice-negative", *PAIR, "--k", "ethanol=2,water=2"),
    29: ("flash", "--drum", "toluene=0.4,water=0.6", "--temperature", "25C", "--pressure", "1bar"),
}


class Golden(InFolder):
    def test_sheets(self):
        for name, arguments in CASES.items():
            with self.subTest(name):
                run, as_json, details = (sheet(*arguments, *options) for options in ((), ("--json",), ("--details",)))
                status = 1 if name.startswith("refused") else 3 if name.startswith("marked") or name in MARKED else 0
                self.assertEqual((run.status, as_json.status, details.status), (status,) * 3, run.err)
                self.assertEqual(bool(run.err), status != 0)
                self.assert_golden(f"{name}.txt", run.out)
                self.assert_golden(f"{name}.json", as_json.out)
                self.assert_golden(f"{name}.details.txt", details.out)

    def test_layers(self):
        for name, arguments in LAYERS.items():
            with self.subTest(name):
                run = sheet(*arguments)
                self.assertEqual((run.status, run.err), (0, ""))
                self.assert_golden(f"{name}.txt", run.out)

    def test_document_samples(self):
        """docs/FORMAT.md, (d) to (h)."""
        found = json.loads(
            sheet("rachford-rice", *PAIR, "--k", "ethanol=2,water=0.5", "--json", "--details").out
        )["answer"]
        self.assertEqual(
            (found["outcome"], found["vapor_fraction"]["value"], found["iterations"]), ("liquid and vapor", 0.5, 1)
        )
        self.assertEqual(
            (found["liquid"]["ethanol"]["bits"], found["vapor"]["ethanol"]["bits"]),
            ("3fd5555555555555", "3fe5555555555555"),
        )
        for k, outcome in (("0.5", "liquid"), ("1", "liquid"), ("2", "vapor")):
            found = json.loads(sheet("rachford-rice", *PAIR, "--k", f"ethanol={k},water={k}", "--json").out)["answer"]
            self.assertEqual((found["outcome"], found["liquid"], found["vapor"]), (outcome, None, None))

    def test_sample_of_the_program(self):
        """The stored answer, word by word as the JSON has it."""
        still = ROOT / "crates" / "still"
        names, exact = ("--names", str(ROOT / "yard" / "sample.txt")), ("--json", "--details")
        run = sheet(
            "flash",
            "--book",
            str(still / "data" / "book.bin"),
            *names,
            *PAIR,
            "--temperature",
            "351.44K",
            "--pressure",
            "90kPa",
            *exact,
        )
        found = json.loads(run.out)["answer"]
        head = split((still / "stdout").read_bytes())[0]
        for name, at in (
            ("temperature_K", 4),
            ("bubble_pressure_Pa", 6),
            ("dew_pressure_Pa", 7),
            ("residual", 9),
            ("balance", 10),
            ("vapor_fraction", 11),
        ):
            self.assertEqual(found[name]["bits"], f"{head[at]:016x}", name)
            self.assertEqual(bits_of(found[name]["value"]), head[at], name)
        self.assertEqual(
            [found["liquid"][name]["bits"] for name in ("ethanol", "water")], [f"{word:016x}" for word in head[14:16]]
        )
        self.assertEqual(found["iterations"], head[8])
        self.assertEqual(len(found["trials"]), 2)

    def test_gamma_is_exp_of_ln_gamma(self):
        found = sheet(*CASES["excess"]).out
        stored = json.loads(sheet(*CASES["excess"], "--json").out)["answer"]["ln_gamma"]["water"]
        self.assertIn(f"{2.718281828459045 ** stored:.6g}", found)


class Refusals(InFolder):
    def test_numbers_of_the_core(self):
        for number, arguments in REFUSED.items():
            with self.subTest(number):
                run = sheet(*arguments)
                self.assertEqual(run.status, 1)
                self.assertIn(f"REFUSED, number {number}: ", run.out)
                self.assertTrue(
                    run.err.startswith(f"sheet: refused, number {number}: {refusals.matter(number)}"), run.err
                )
                self.assertEqual(run.err.count("\n"), 1)

    def test_every_number_is_explained(self):
        self.assertEqual(refusals.numbers(), "1 to 39")
        self.assertEqual(len({refusal.matter for refusal in refusals.REFUSALS.values()}), 39)
        for number in [*refusals.REFUSALS, 77]:
            answered = self.file("answer.bin", sealed([9, 7, number], Rule.RUNNING))
            program = Path(self.file("program", f"#!/bin/sh\ncat >/dev/null\nexec cat {answered}\n"))
            program.chmod(0o755)
            asked = ("flash", *PAIR, "--temperature", "70C", "--pressure", "1bar", "--program", str(program), "--json")
            run = sheet(*asked)
            found = json.loads(run.out)
            self.assertEqual(
                (run.status, found["refusal"]["number"], found["refusal"]["matter"], found["answer"]),
                (1, number, refusals.matter(number), None),
            )
        listed = sheet("refusals").out
        self.assertTrue(all(refusal.matter in listed for refusal in refusals.REFUSALS.values()))


class Notes(unittest.TestCase):
    def test_bits(self):
        blocks = answer.Blocks([0] * 13 + [0b101] + [0] * 50, ())
        self.assertEqual([name for name, _ in blocks.notes()], ["A7-GAMMA-PHI", "A7-LIQUID-TPD-FINITE-TRIALS"])

    def test_nan_has_bits_and_no_value(self):
        nan = float_of(0x7FF8000000000000)
        self.assertEqual(Numbers(("a",), (0,), True).number(nan), {"value": None, "bits": "7ff8000000000000"})
        self.assertIsNone(Numbers(("a",), (0,), False).number(nan))
