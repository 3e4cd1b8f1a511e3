"""The whole sample yard: 15 pairs × 101 compositions × 3 pressures. No bubble or dew sheet without its mark where an
independent check finds a lower tangent plane, and no mark where it finds none."""

import random
import unittest
from collections import Counter
from dataclasses import replace
from typing import Optional

from desk import answer, tasks
from desk.book import Pair, due_pairs
from desk.core import Core
from desk.judgement import judged
from desk.liquids import Liquids
from desk.openbook import named, open_yard
from desk.question import Question
from desk.sweep import Setting

from . import planes
from .support import YARD

PRESSURES = (20000.0, 101325.0, 300000.0)  # Pa
COMPOSITIONS = [k / 100 for k in range(101)]
TASKS = (tasks.BUBBLE_TEMPERATURE, tasks.DEW_TEMPERATURE)
CALCULATION = (26, 27, 28, 29, 30)  # refusals inside a calculation, not of what was asked


class SampleYard(unittest.TestCase):
    @classmethod
    def setUpClass(cls) -> None:
        cls.yard = open_yard(str(YARD))
        cls.book = named(cls.yard, str(YARD))

    def test_independent_activities_are_the_core_s(self):
        """What makes the check below one over the core's ln gamma."""
        rng = random.Random(5)
        with Core(self.book.content) as core:
            for (i, j), pair in zip(due_pairs(6), self.yard.book.pairs):
                for x in (1e-4, 0.05, 0.35, 0.7, 0.999):
                    kelvin = rng.uniform(275.0, 445.0)
                    found = Liquids(core).ln_gamma(Setting(self.book, i, j).fractions(x), kelvin)
                    for a, b in zip(planes.log_gammas(pair, kelvin, x), (found[i], found[j])):
                        self.assertAlmostEqual(a, b, delta=1e-11 * max(1.0, abs(b)))

    def test_independent_check_sees_a_split(self):
        """Toluene and water at 25 °C, between their solubilities and outside them."""
        pair = self.yard.book.pairs[due_pairs(6).index((0, 5))]
        liquid = planes.Liquid(pair, 298.15)
        self.assertEqual(
            [liquid.splits(x) for x in (0.0005, 0.0026, 0.0028, 0.5, 0.9998, 0.99995)],
            [False, False, True, True, True, False],
        )

    def test_no_sheet_without_its_mark(self):
        seen: Counter = Counter()
        for (i, j), pair in zip(due_pairs(6), self.yard.book.pairs):
            for pascals in PRESSURES:
                setting = Setting(self.book, i, j, pressure=pascals)
                with Core(self.book.content) as core:
                    for x in COMPOSITIONS:
                        for task in TASKS:
                            seen[self.sheet_of(core, setting, pair, task, x)] += 1
        self.assertEqual(sum(seen.values()), 15 * 101 * 3 * 2)
        self.assertGreater(seen["marked"], 290)
        self.assertLess(seen["refused"], 20)

    def test_no_flash_without_its_mark(self):
        """11 compositions of each pair at three temperatures and 101325 Pa, between all liquid and all vapor."""
        seen: Counter = Counter()
        for (i, j), pair in zip(due_pairs(6), self.yard.book.pairs):
            setting = Setting(self.book, i, j, pressure=101325.0)
            with Core(self.book.content) as core:
                for kelvin in (330.0, 356.65, 380.0):
                    liquid, pure = planes.Liquid(pair, kelvin), [
                        Liquids(core).vapor_pressure(k, 6, kelvin) for k in (i, j)
                    ]
                    for x in (0.02, 0.1, 0.2, 0.3, 0.4, 0.42, 0.44, 0.6, 0.7, 0.9, 0.98):
                        seen[self.flash_of(core, setting, liquid, tuple(pure), kelvin, x)] += 1
        self.assertEqual(sum(seen.values()), 15 * 3 * 11)
        for outcome in ("liquid", "vapor", "both", "marked", "refused"):
            self.assertGreater(seen[outcome], 0, seen)

    def flash_of(self, core: Core, setting: Setting, liquid: planes.Liquid, pure, kelvin: float, z: float) -> str:
        question = Question(tasks.FLASH, setting.fractions(z), kelvin, setting.pressure)
        blocks = core.ask(question)
        mark = judged(core, self.book, question, blocks, advise=False).mark
        where = (*setting.names, kelvin, z)
        if blocks.refusal:
            self.assertEqual(mark is not None, liquid.splits(z), where)
            return "refused"
        if mark is not None:
            return "marked"
        outcome = blocks.head[answer.OUTCOME]
        if outcome == answer.VAPOR_ONLY:
            self.assertFalse(liquid.condenses(z, setting.pressure, pure), where)
        else:
            self.assertFalse(liquid.splits(blocks.real(answer.LIQUID + setting.first)), where)
        return {answer.LIQUID_ONLY: "liquid", answer.VAPOR_ONLY: "vapor", answer.BOTH: "both"}[outcome]

    def sheet_of(self, core: Core, setting: Setting, pair: Pair, task: tasks.Task, x: float) -> str:
        """What became of one sheet; it fails where mark and independent check differ."""
        question = Question(task, setting.fractions(x), pressure=setting.pressure)
        blocks = core.ask(question)
        marked = judged(core, self.book, question, blocks, advise=False).mark is not None
        where = (*setting.names, setting.pressure, x, task.command)
        if blocks.refusal:
            self.assertIn(blocks.refusal, CALCULATION, where)
            self.assertEqual(marked, self.drum_splits(core, pair, x, question), where)
            return "refused"
        liquid = blocks.real(answer.LIQUID + setting.first)
        splits = self.splits(pair, blocks.real(answer.T), liquid)
        if splits is not None:
            self.assertEqual(marked, splits, where)
        return "marked" if marked else "ordinary"

    def splits(self, pair: Pair, kelvin: float, x: float) -> Optional[bool]:
        """None within a hair of the limit, where trials and grid may differ."""
        if not 0 < x < 1:
            return False
        lowest = planes.Liquid(pair, kelvin).lowest(x)
        return None if planes.LOWER <= lowest < planes.LOWER / 100 else lowest < planes.LOWER

    def drum_splits(self, core: Core, pair: Pair, x: float, question: Question) -> bool:
        """At the core's bubble point, or at some temperature of the bracket where it has none."""
        bubble = core.ask(replace(question, task=tasks.BUBBLE_TEMPERATURE))
        low, high = question.options.bracket
        kelvins = [bubble.real(answer.T)] if bubble.accepted else [low + (high - low) * k / 4 for k in range(5)]
        return 0 < x < 1 and any(planes.Liquid(pair, kelvin).splits(x) for kelvin in kelvins)
