"""The sample yard against the world, its document, its fits, and the demonstration."""

import contextlib
import io
import itertools
import os
import subprocess
from pathlib import Path
from unittest import mock

from desk import building, core
from desk.errors import DeskError
from desk.openbook import named, open_yard
from desk.sweep import Setting, Sweep, azeotropes
from desk.yardcheck import check, markdown

from .support import ROOT, YARD, InFolder, sheet


class SampleYard(InFolder):
    @classmethod
    def setUpClass(cls) -> None:
        with contextlib.redirect_stderr(io.StringIO()):  # its progress line
            cls.findings = check(str(YARD), core.PROGRAM)

    def test_boiling_points_and_azeotropes(self):
        findings = self.findings
        self.assertEqual([finding for finding in findings if not finding.passed], [])
        boiling = [finding for finding in findings if finding.kind == "pure"]
        self.assertEqual(len(boiling), 6)
        self.assertTrue(all(abs(finding.computed - finding.published) <= 0.5 for finding in boiling))
        azeotropes = {finding.what: finding for finding in findings if finding.kind == "azeotrope"}
        ethanol, acetone = azeotropes["ethanol and water"], azeotropes["acetone and methanol"]
        self.assertTrue(351.2 <= ethanol.computed <= 351.4 and 0.89 <= ethanol.fraction <= 0.90, ethanol)
        self.assertTrue(328.2 <= acetone.computed <= 328.7 and 0.78 <= acetone.fraction <= 0.80, acetone)

    def test_heteroazeotrope_and_solubilities(self):
        """Toluene and water: the solubilities that the pair was fitted to, and the azeotrope that follows from them."""
        (azeotrope,) = [finding for finding in self.findings if finding.kind == "heteroazeotrope"]
        self.assertTrue(357.5 <= azeotrope.computed <= 357.6 and 0.442 <= azeotrope.fraction <= 0.444, azeotrope)
        solubilities = {finding.what: finding.fraction for finding in self.findings if finding.kind == "solubility"}
        self.assertAlmostEqual(solubilities["toluene in water"], 0.0001, delta=1e-8)
        self.assertAlmostEqual(solubilities["water in toluene"], 0.0027, delta=1e-8)

    def test_no_other_azeotropes(self):
        """At 101325 Pa the other pairs have none, as published; water and toluene split."""
        yard = open_yard(str(YARD))
        book = named(yard, str(YARD))
        known = {frozenset(pair) for pair in yard.azeotropes} | {frozenset(("water", "toluene"))}
        others = [pair for pair in itertools.combinations(yard.names, 2) if frozenset(pair) not in known]
        self.assertEqual(len(others), 8)
        with core.Core(book.content) as program:
            for pair in others:
                sweep = Sweep(program, Setting(book, *map(book.names.index, pair), pressure=101325.0))
                self.assertEqual(azeotropes(sweep, [sweep.bubble(k / 10) for k in range(11)]), [], pair)

    def test_wrong_points_are_seen(self):
        text = YARD.read_text(encoding="utf-8").replace("351.44 K at 101325", "352.44 K at 101325")
        text = text.replace(
            "toluene 0.44, 84.5 C", "toluene 0.40, 84.5 C"
        ).replace("water 0.0027 in", "water 0.0037 in")
        run = sheet("check-yard", "--book", self.file("yard.txt", text))
        self.assertEqual(run.status, 1)
        self.assertEqual(run.out.count("NO"), 3)

    def test_limits_of_an_azeotrope(self):
        """A text's own; acetone and methanol are 0.0028 off."""
        text, known = YARD.read_text(encoding="utf-8"), "acetone 0.79, 328.5 K at 101325 Pa"
        self.assertIn(known, text)
        for limits, status, words in (
            ("0.5 K and 0.002", 1, "NO, within 0.5 K and 0.002"),
            ("0.01 K and 0.5", 1, "NO, within 0.01 K and 0.5"),
            ("0.5 K and 0.003", 0, "yes, within 0.5 K and 0.003"),
        ):
            book = self.file("yard.txt", text.replace(known, f"{known} within {limits}"))
            run = sheet("check-yard", "--book", book)
            self.assertEqual((run.status, words in run.out), (status, True), run.out)

    def test_tables_of_the_document(self):
        self.assertIn(markdown(self.findings), (ROOT / "docs" / "YARD.md").read_text(encoding="utf-8"))

    def test_every_record_has_a_source(self):
        yard = open_yard(str(YARD))
        self.assertEqual(len(yard.sources), 6 + 15)

    def test_fitted_numbers_are_those_of_the_script(self):
        text = YARD.read_text(encoding="utf-8")
        lines = subprocess.run(
            [ROOT / "scripts" / "fit-yard"], capture_output=True, text=True, check=True
        ).stdout.splitlines()
        solvents = [line for line in lines if "cal/mol" not in line]
        pairs = [line for line in lines if "cal/mol" in line]
        self.assertEqual((len(solvents), len(pairs)), (5, 8))
        for line in solvents:
            name, _, terms = line.partition(": ")
            section = text[text.index(f"[solvent {name}]") :].split("\n\n")[0]
            for term in terms.split(";")[0].split(", "):
                self.assertIn(f"= {term}\n", section)
        for line in pairs:
            name, _, energies = line.partition(": ")
            section = text[text.index(f"[pair {name}]") :].split("\n\n")[0]
            for energy in energies.replace(" cal/mol", "").split(" and "):
                self.assertIn(f"t1 {energy} cal/mol", section)


class Demonstration(InFolder):
    def test_demo(self):
        run = sheet("demo", "--program", str(core.PROGRAM.parent / ".." / "bin" / "still"))
        self.assertEqual(run.status, 0, run.err)
        self.assertIn("liquid and vapor", run.out)

    def test_when_to_build(self):
        program = Path(self.file("still", b""))
        self.assertTrue(building.is_stale(self.folder / "nothing"))
        os.utime(program, (0, 0))
        self.assertTrue(building.is_stale(program))
        newest = max(path.stat().st_mtime for path in building.sources())
        os.utime(program, (newest + 1, newest + 1))
        self.assertFalse(building.is_stale(program))

    def test_build_without_the_toolchain(self):
        for content, words in (
            (None, "rt can't be run"), ("#!/bin/sh\necho no proof >&2\nexit 1\n", "did not pass: no proof")
        ):
            if content:
                Path(self.file("rt", content)).chmod(0o755)
            with mock.patch.dict(os.environ, PATH=str(self.folder)), self.assertRaises(DeskError) as caught:
                building.prove(io.StringIO())
            self.assertIn(words, str(caught.exception))

    def proving(self, out: io.StringIO) -> None:
        """A stand-in for rt that proves what still needs, in its order."""
        crates = building.crates()
        said = "echo 'rt: chose --jobs 2 for {}' >&2; echo logic=proved >&2"
        lines = [said.format(name) for name in building.needed(crates)]
        Path(self.file("rt", "\n".join(["#!/bin/sh", *lines]) + "\n")).chmod(0o755)
        with mock.patch.dict(os.environ, PATH=f"{self.folder}:/bin:/usr/bin"):
            building.prove(out)

    def test_progress_names_the_crate_and_counts_those_left(self):
        out = io.StringIO()
        self.proving(out)
        lines = out.getvalue().splitlines()
        count = len(building.needed(building.crates()))
        self.assertGreater(count, 15)
        self.assertEqual(len(lines), count)
        self.assertRegex(lines[0], rf"^sheet: floats proved, 1 of {count}; now numerics.*, {count - 1} left \(\d+ s\)$")
        self.assertRegex(lines[-1], rf"^sheet: still proved, {count} of {count}; all proved, 0 left")
        self.assertNotIn("samples", out.getvalue())  # still doesn't need it

    def test_progress_on_a_terminal_is_a_bar_that_moves(self):
        out = Terminal()
        self.proving(out)
        bars = [part for part in out.getvalue().split("\r") if part.startswith("[")]
        filled = [bar.index("]") - 1 - bar[: bar.index("]")].count(" ") for bar in bars]
        self.assertGreater(len(bars), 15)
        self.assertTrue(filled[0] <= 1 and filled[-1] == building.BAR and filled == sorted(filled), filled)
        self.assertRegex(bars[0], r" 0 of \d+ proved, \d+ left, 0 s: floats")
        self.assertTrue(all(len(bar.split("\x1b")[0]) < 80 for bar in bars))  # one line of a terminal
        self.assertTrue(out.getvalue().endswith("\n"))


class Terminal(io.StringIO):
    def isatty(self) -> bool:
        return True
