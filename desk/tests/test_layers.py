"""Two layers of a drum, where they boil, and the heterogeneous azeotrope; by the core's own activities, trials and
pressures."""

import json
import math
import unittest
from dataclasses import dataclass
from typing import Tuple
from unittest import mock

from desk import answer, search, tasks
from desk.core import Core
from desk.drops import drop_at, drop_under
from desk.layers import boiling_at, boiling_of, layers_of
from desk.liquids import Liquids
from desk.openbook import fractions_of, open_book
from desk.question import Question
from desk.search import NotShown

from .support import YARD, InFolder, sheet

BRACKET = (273.16, 450.0)
DRUMS = (
    ("toluene=0.4,water=0.6", 298.15),
    ("toluene=0.001,water=0.999", 360.0),
    ("acetone=0.3,water=0.3,toluene=0.4", 298.15),
    ("acetone=0.45,water=0.25,toluene=0.3", 298.15),
    ("methanol=0.3,water=0.3,toluene=0.4", 320.0),
    ("water=0.3,ethanol=0.1,methanol=0.1,acetone=0.1,2-propanol=0.1,toluene=0.3", 300.0),
)


class OfTheCore(unittest.TestCase):
    @classmethod
    def setUpClass(cls) -> None:
        cls.book = open_book(str(YARD))
        cls.core = Core(cls.book.content)
        cls.liquids = Liquids(cls.core)

    @classmethod
    def tearDownClass(cls) -> None:
        cls.core.__exit__()

    def drum(self, words: str):
        return fractions_of(self.book, words)

    def test_layers_have_equal_activities_and_pass_their_trials(self):
        """Asked of the core anew, not taken from what the search handed out."""
        for words, kelvin in DRUMS:
            drum = self.drum(words)
            found = layers_of(self.liquids, drum, kelvin)
            logs = [self.liquids.ln_gamma(layer, kelvin) for layer in (found.first, found.second)]
            present = [i for i, z in enumerate(drum) if z]
            for i in present:
                a, b = (math.log(layer[i]) + log[i] for layer, log in zip((found.first, found.second), logs))
                self.assertAlmostEqual(a, b, delta=1e-11, msg=words)
                total = (1 - found.amount) * found.first[i] + found.amount * found.second[i]
                self.assertAlmostEqual(total, drum[i], delta=1e-12, msg=words)
            for layer in (found.first, found.second):
                self.assertTrue(self.core.ask(Question(tasks.STABILITY, layer, kelvin)).head[answer.STABLE], words)
                self.assertAlmostEqual(math.fsum(layer), 1.0, delta=1e-14)
            self.assertGreater(max(abs(a - b) for a, b in zip(found.first, found.second)), 0.1)

    def test_one_layer(self):
        for words in ("ethanol=0.5,water=0.5", "toluene=1", "toluene=0.00005,water=0.99995"):
            self.assertIsNone(layers_of(self.liquids, self.drum(words), 298.15), words)
            self.assertIsNone(boiling_at(self.liquids, self.drum(words), 101325.0, BRACKET), words)

    def test_solubilities_that_the_yard_was_fitted_to(self):
        found = layers_of(self.liquids, self.drum("toluene=0.4,water=0.6"), 298.15)
        toluene, water = self.book.names.index("toluene"), self.book.names.index("water")
        self.assertAlmostEqual(found.first[toluene], 0.0001, delta=1e-8)
        self.assertAlmostEqual(found.second[water], 0.0027, delta=1e-8)

    def test_heteroazeotrope(self):
        """84.4 °C and 0.443 of toluene, from every drum between the layers."""
        for x in (0.001, 0.4, 0.99):
            found = boiling_at(self.liquids, self.drum(f"toluene={x},water={1 - x}"), 101325.0, BRACKET)
            self.assertAlmostEqual(found.layers.kelvin, 357.536, delta=0.001)
            self.assertAlmostEqual(found.vapor[self.book.names.index("toluene")], 0.4427, delta=1e-4)

    def test_pressure_of_both_layers_is_that_of_task_2(self):
        for words, kelvin in DRUMS:
            found = boiling_of(self.liquids, layers_of(self.liquids, self.drum(words), kelvin))
            for layer in (found.layers.first, found.layers.second):
                blocks = self.core.ask(Question(tasks.BUBBLE_PRESSURE, layer, kelvin))
                self.assertAlmostEqual(blocks.real(answer.P) / found.pascals, 1.0, delta=1e-10)
                for i, y in enumerate(found.vapor):
                    self.assertAlmostEqual(blocks.real(answer.VAPOR + i), y, delta=1e-10)

    def test_boiling_layers_boil_at_the_pressure_asked(self):
        for words, _ in DRUMS:
            found = boiling_at(self.liquids, self.drum(words), 101325.0, BRACKET)
            again = self.core.ask(Question(tasks.BUBBLE_PRESSURE, found.layers.second, found.layers.kelvin))
            self.assertAlmostEqual(again.real(answer.P), 101325.0, delta=1e-4, msg=words)

    def test_first_drop_is_stable_and_in_equilibrium(self):
        for words in ("toluene=0.42,water=0.58", "toluene=0.46,water=0.54", "acetone=0.3,water=0.3,toluene=0.4"):
            drum = self.drum(words)
            drop = drop_under(self.liquids, drum, 101325.0, BRACKET)
            blocks = self.core.ask(Question(tasks.BUBBLE_PRESSURE, drop.liquid, drop.kelvin))
            self.assertAlmostEqual(blocks.real(answer.P), 101325.0, delta=1e-4)
            for i, y in enumerate(drum):
                self.assertAlmostEqual(blocks.real(answer.VAPOR + i), y, delta=1e-9)
            self.assertTrue(self.core.ask(Question(tasks.STABILITY, drop.liquid, drop.kelvin)).head[answer.STABLE])

    def test_first_drop_of_an_ordinary_vapor_is_the_core_s(self):
        drum = self.drum("ethanol=0.5,water=0.3,acetone=0.2")
        drop = drop_at(self.liquids, drum, 345.0)
        self.assertAlmostEqual(
            drop.pascals, self.core.ask(Question(tasks.DEW_PRESSURE, drum, 345.0)).real(answer.P), delta=1e-5
        )

    def test_nothing_is_shown_without_equal_activities(self):
        """A search that is broken off shows nothing, and neither do layers that fail their trials."""
        drum = self.drum("acetone=0.45,water=0.25,toluene=0.3")
        with mock.patch.object(search, "ROUNDS", 0), self.assertRaises(NotShown):
            layers_of(self.liquids, drum, 298.15)
        verdicts = iter([self.liquids.trials(drum, 298.15)] + [mock.Mock(one_layer=False, below=())] * 40)
        with mock.patch.object(self.liquids, "trials", lambda *_: next(verdicts)), self.assertRaises(NotShown):
            layers_of(self.liquids, drum, 298.15)


    def test_a_drop_that_fails_its_trials_is_not_shown(self):
        drum = self.drum("toluene=0.42,water=0.58")
        fails = mock.patch.object(self.liquids, "trials", lambda *_: mock.Mock(one_layer=False))
        with fails, self.assertRaises(NotShown):
            drop_at(self.liquids, drum, 350.0)

    def test_trials_near_a_critical_point_get_more_iterations(self):
        """500 are too few there (27), and that is no verdict."""
        drum = self.drum("2-propanol=0.22,water=0.78")
        self.assertEqual(self.core.ask(Question(tasks.STABILITY, drum, 315.0)).refusal, 27)
        self.assertTrue(self.liquids.trials(drum, 315.0).one_layer)


@dataclass(frozen=True)
class Reached:
    at: Tuple[float, ...]
    difference: float


class Searches(unittest.TestCase):
    def run_on(self, function, start):
        def evaluated(at):
            residual = function(*at)
            return Reached(tuple(at), max(map(abs, residual))), list(residual)

        return search.Search(evaluated, start).run()

    def test_a_root_is_found(self):
        """Slow by substitution: x falls by a thousandth of its distance, y by half of it."""
        found = self.run_on(lambda x, y: (1e-3 * (2 - x) * (1 + x), 0.5 * (x - y)), [1.0, 0.0])
        self.assertAlmostEqual(found.at[0], 2.0, delta=1e-9)
        self.assertAlmostEqual(found.at[1], 2.0, delta=1e-9)

    def test_no_root_is_no_result(self):
        self.assertIsNone(self.run_on(lambda x: (1e-6 + x * x,), [0.5]))

    def test_steps_out_of_range_are_shortened(self):
        found = self.run_on(lambda x: (10 * (0.5 - x) + math.log(x) - math.log(0.5),), [0.9])
        self.assertAlmostEqual(found.at[0], 0.5, delta=1e-9)

    def test_temperature_of_a_pressure(self):
        def at(kelvin):
            return 12.0 - 4500.0 / kelvin, kelvin

        found, mismatch = search.root_in(at, 300.0, BRACKET)
        self.assertAlmostEqual(found, 375.0, delta=1e-8)
        self.assertLess(mismatch, 1e-10)
        self.assertAlmostEqual(search.root_in(at, 449.0, BRACKET)[0], 375.0, delta=1e-8)
        for bracket, words in (((300.0, 350.0), "above 76.85 °C"), ((390.0, 450.0), "below 116.85 °C")):
            with self.assertRaises(NotShown) as caught:
                search.root_in(at, sum(bracket) / 2, bracket)
            self.assertIn(words, str(caught.exception))


class Command(InFolder):
    def found(self, *arguments: str):
        run = sheet("layers", *arguments, "--json")
        self.assertEqual((run.status, run.err), (0, ""))
        return json.loads(run.out)

    def test_temperature(self):
        found = self.found("--drum", "toluene=0.4,water=0.6", "--temperature", "25C")
        first, second = found["layers"]["each"]
        self.assertAlmostEqual(first["fractions"]["toluene"], 0.0001, delta=1e-8)
        self.assertAlmostEqual(second["fractions"]["water"], 0.0027, delta=1e-8)
        self.assertAlmostEqual(first["amount"] + second["amount"], 1.0, delta=1e-15)
        self.assertLess(found["layers"]["largest_ln_activity_difference"], 1e-12)
        self.assertTrue(found["boiling"]["heterogeneous_azeotrope"])
        self.assertEqual(list(first["fractions"]), ["water", "toluene"])

    def test_pair(self):
        found = self.found("--pair", "toluene,water", "--pressure", "1atm")
        self.assertAlmostEqual(found["boiling"]["temperature_K"], 357.536, delta=0.001)
        self.assertAlmostEqual(found["boiling"]["vapor"]["toluene"], 0.4427, delta=1e-4)
        self.assertIsNone(self.found("--pair", "ethanol,water", "--temperature", "25C")["layers"])

    def test_one_layer(self):
        found = self.found("--drum", "ethanol=0.5,water=0.5", "--pressure", "1atm")
        self.assertEqual((found["one_liquid_layer"], found["layers"]), (True, None))
        bubble = json.loads(
            sheet("bubble-temperature", "--drum", "ethanol=0.5,water=0.5", "--pressure", "1atm", "--json").out
        )
        self.assertEqual(found["boiling_point_of_one_layer_K"], bubble["answer"]["temperature_K"])

    def test_largest_difference_is_printed(self):
        run = sheet("layers", "--drum", "acetone=0.3,water=0.3,toluene=0.4", "--pressure", "1atm")
        self.assertRegex(
            " ".join(run.out.split()),
            r"ln a differs by \de(-1\d|\+00) at most\. Each layer passes the core's trials\.",
        )

    def test_what_can_t_be_shown(self):
        for arguments, words in (
            (("--drum", "toluene=0.4,water=0.4", "--temperature", "25C"), "or paste --drum water=0.5,toluene=0.5"),
            (("--drum", "toluene=0.4,water=0.6", "--temperature", "-300C"), "number 13"),
            (("--drum", "toluene=0.4,water=0.6", "--pressure", "9bar"), "number 23"),
            (
                ("--drum", "toluene=0.4,water=0.6", "--temperature", "200C"),
                "outside the model's range, 0.01 to 176.85 °C",
            ),
            (
                ("--drum", "toluene=0.4,water=0.6", "--pressure", "1atm", "--bracket", "300K:340K"),
                "it boils above 66.85 °C",
            ),
        ):
            run = sheet("layers", *arguments)
            self.assertEqual(run.status, 1, arguments)
            self.assertIn("NO LAYERS CAN BE SHOWN", run.out)
            self.assertIn(words, run.err)
            self.assertNotIn("layer 1", run.out)

    def test_normalize(self):
        found = self.found("--drum", "toluene=4,water=6", "--temperature", "25C", "--normalize")
        self.assertEqual(
            (found["question"]["fractions_given"]["toluene"], found["question"]["fractions"]["toluene"]), (4.0, 0.4)
        )
