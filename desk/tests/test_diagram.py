"""Diagrams: well-formed SVG that holds what it should, inside its frame."""

import io
import os
import shutil
import xml.etree.ElementTree as Xml
from typing import List, Tuple
from unittest import mock

from desk.diagram import (
    AXIS_ROOM, DASH, FOOT, LAYERS_COLOR, LEFT, LEGEND_ROW, SQUARE, THREE_COLOR, TOP, Axis, axis_around, round_step
)
from desk.liquids import UNTESTED, Liquids, Verdict
from desk.progress import Progress
from desk.svg import Svg

from .support import ROOT, InFolder, sheet

NAMESPACE = "{http://www.w3.org/2000/svg}"


def curves(root: Xml.Element, **attributes: str) -> List[List[Tuple[float, float]]]:
    found = [
        element
        for element in root.iter(f"{NAMESPACE}polyline")
        if all(element.get(key.replace("_", "-")) == value for key, value in attributes.items())
    ]
    return [[tuple(map(float, point.split(","))) for point in element.get("points").split()] for element in found]


def size(root: Xml.Element) -> Tuple[float, float]:
    return float(root.get("width")), float(root.get("height"))


class Diagrams(InFolder):
    def drawn(self, *arguments: str) -> Xml.Element:
        run = sheet("diagram", *arguments, "-o", "a.svg", "--points", "41", cwd=self.folder)
        self.assertEqual((run.status, run.err), (0, ""))
        self.said = run.out
        root = Xml.fromstring((self.folder / "a.svg").read_text(encoding="utf-8"))
        self.assert_inside(root)
        return root

    def words(self, root: Xml.Element) -> str:
        return "\n".join(element.text for element in root.iter(f"{NAMESPACE}text"))

    def assert_inside(self, root: Xml.Element) -> None:
        """Curves inside the picture, words too as far as their number tells, and no empty band below the last of
        them."""
        width, height = size(root)
        for points in curves(root):
            self.assertTrue(all(0 <= x <= width and 0 <= y <= height for x, y in points))
        texts = list(root.iter(f"{NAMESPACE}text"))
        for element in texts:
            if element.get("text-anchor") == "start":
                self.assertLess(float(element.get("x")) + 7.6 * len(element.text), width + 8, element.text)
        lowest = max(float(element.get("y")) for element in texts)
        self.assertLessEqual(height - lowest, LEGEND_ROW + FOOT)

    def test_txy(self):
        root = self.drawn("txy", "--pair", "ethanol,water", "--pressure", "101325Pa")
        words = self.words(root)
        for expected in (
            "T-x-y of ethanol and water at 101.325 kPa",
            "mole fraction of ethanol",
            "temperature, °C",
            "boiling point",
            "dew point",
            "0.5",
            "90",
        ):
            self.assertIn(expected, words)
        self.assertRegex(words, r"azeotrope x = 0\.89\d\d at 78\.1\d °C")
        rings = root.findall(f"{NAMESPACE}circle")
        self.assertEqual(len(rings), 2)
        self.assertEqual({ring.get("fill") for ring in rings}, {"none"})  # the curves are seen through it

    def test_one_unit_on_axis_and_legend(self):
        for unit, name, azeotrope in (("K", "K", r"at 351\.2\d K"), ("C", "°C", r"at 78\.1\d °C")):
            words = self.words(self.drawn("txy", "--pair", "ethanol,water", "--pressure", "101325Pa", "--unit", unit))
            self.assertIn(f"temperature, {name}", words)
            self.assertRegex(words, azeotrope)
            self.assertNotIn({"K": "°C", "C": " K"}[unit], words)
        words = self.words(self.drawn("pxy", "--pair", "acetone,methanol", "--temperature", "50C", "--unit", "mmHg"))
        self.assertRegex(words, r"azeotrope x = 0\.82\d\d at 62\d\.\d+ mmHg")
        self.assertIn("pressure, mmHg", words)
        self.assertNotIn("kPa", words)

    def test_xy_is_square_and_has_no_azeotrope(self):
        root = self.drawn("xy", "--pair", "methanol,water", "--pressure", "1bar")
        frame = next(box for box in root.iter(f"{NAMESPACE}rect") if box.get("stroke") == "black")
        self.assertEqual((frame.get("width"), frame.get("height")), (str(SQUARE), str(SQUARE)))
        self.assertEqual(root.findall(f"{NAMESPACE}circle"), [])
        self.assertIn("no azeotrope", self.said)
        self.assertIn("y = x", self.words(root))

    def test_height_follows_the_legend(self):
        root = self.drawn("xy", "--pair", "methanol,water", "--pressure", "1bar")
        rows = sum(float(element.get("y")) >= TOP + SQUARE + AXIS_ROOM for element in root.iter(f"{NAMESPACE}text"))
        self.assertEqual(size(root)[1], TOP + SQUARE + AXIS_ROOM + rows * LEGEND_ROW + FOOT)

    def test_liquid_that_splits(self):
        """The three-phase line with the layers' compositions; no curve inside."""
        root = self.drawn("txy", "--pair", "toluene,water", "--pressure", "101325Pa")
        words = self.words(root).replace("\n", " ")
        self.assertIn("heterogeneous azeotrope at 84.39 °C: layers x = 0.0003691 and 0.99497, vapor y = 0.44270", words)
        self.assertIn("two liquid layers", words)
        (line,) = curves(root, stroke=THREE_COLOR)
        self.assertEqual(line[0][1], line[1][1])
        self.assertEqual(len(root.findall(f"{NAMESPACE}circle")), 3)  # two layers and their vapor
        bubble = curves(root, stroke="#1f4e9e")
        self.assertTrue(bubble)
        for x, y in (point for piece in bubble for point in piece):
            self.assertTrue(x < LEFT + 5 or x > LEFT + 600, "a boiling point inside the two layers")
            self.assertLessEqual(y, line[0][1] + 0.1)  # nothing boils below the three-phase line
        for x, y in (point for piece in curves(root, stroke="#c0392b") for point in piece):
            self.assertLessEqual(y, line[0][1] + 0.1)
        self.assertTrue(any(box.get("fill") == LAYERS_COLOR for box in root.iter(f"{NAMESPACE}rect")))

    def test_splitting_in_pxy_and_xy(self):
        self.drawn("pxy", "--pair", "toluene,water", "--temperature", "84.38602526C")
        self.assertRegex(
            self.said,
            r"heterogeneous azeotrope at 101\.32\d+ kPa: layers x = 0\.0003691 and 0\.99497, vapor y = 0\.44270",
        )
        root = self.drawn("xy", "--pair", "water,toluene", "--pressure", "101325Pa")
        self.assertIn("layers x = 0.00503 and 0.99963, vapor y = 0.55730", self.said)
        (line,) = curves(root, stroke=THREE_COLOR)
        self.assertEqual(line[0][1], line[1][1])

    def test_out_of_range_is_dashed(self):
        root = self.drawn("txy", "--pair", "ethanol,water", "--pressure", "5kPa")
        self.assertIn("dashed: out of range, ethanol and water were fitted for 78.29 to 99.97 °C", self.said)
        self.assertEqual(curves(root, stroke_width="2", stroke_dasharray="none"), [])
        inside = self.drawn("txy", "--pair", "acetone,toluene", "--pressure", "101325Pa", "--unit", "K")
        self.assertEqual(curves(inside, stroke_dasharray=DASH), [])
        self.assertIn("acetone and toluene: fitted for 329.20 to 383.75 K, interval inferred", self.said)
        partly = self.drawn("txy", "--pair", "ethanol,water", "--pressure", "101325Pa")
        self.assertTrue(curves(partly, stroke_dasharray=DASH) and curves(partly, stroke_dasharray="none"))

    def test_estimated_as_ideal_is_said(self):
        words = self.words(self.drawn("txy", "--pair", "ethanol,methanol", "--pressure", "101325Pa"))
        self.assertIn("estimated as ideal", words.replace("\n", " "))

    def test_curve_with_missing_points(self):
        """Refused points are marked and counted, with the reason."""
        root = self.drawn("txy", "--pair", "ethanol,water", "--pressure", "1bar", "--bracket", "273.16K:360K")
        words = self.words(root).replace("\n", " ")
        self.assertIn("4 boiling points missing: refused, number 26: the bracket holds no root", words)
        self.assertIn("17 dew points missing: refused, number 26", words)
        crosses = [line for line in root.iter(f"{NAMESPACE}line") if line.get("stroke-width") == "1.5"]
        self.assertEqual(len(crosses), 2 * (4 + 17 + 2))  # two strokes each, and the legend's two

    def test_trials_that_are_refused_leave_no_stable_point(self):
        """A point whose liquid can't be tested is never drawn as if it were stable."""
        real = Liquids.trials

        def trials(liquids, fractions, kelvin):
            return Verdict(UNTESTED, number=25) if fractions[1] == 0.5 else real(liquids, fractions, kelvin)

        with mock.patch.object(Liquids, "trials", trials):
            root = self.drawn("xy", "--pair", "ethanol,water", "--pressure", "1bar")
        self.assertIn("1 boiling point missing: refused, number 25", self.said)
        drawn = [x for piece in curves(root, stroke="#1f4e9e") for x, _ in piece]
        self.assertEqual(len(set(drawn)), 40)
        self.assertNotIn(LEFT + SQUARE / 2, drawn)

    def alike(self, energy: str) -> str:
        """Two solvents with one vapor pressure."""
        solvent = (
            "[solvent {}]\ncas = {}\nvapor t_r = 500 K\nvapor reducing = 50 bar\nvapor range = 0 C to 480 K\nvapor "
            "term = -7 : 1\n"
        )
        pair = "[pair a b]\ntau a b = t1 {0} K\ntau b a = t1 {0} K\nalpha = 0.3\n"
        return self.file("alike.txt", solvent.format("a", 1) + solvent.format("b", 2) + pair.format(energy))

    def test_azeotrope_on_a_point_of_the_grid(self):
        self.drawn("txy", "--book", self.alike("100"), "--pair", "a,b", "--pressure", "1bar")
        self.assertIn("azeotrope x = 0.5000", self.said)
        self.assertIn("no regression interval is known", self.said)

    def test_ideal_pair_of_equals_has_no_azeotrope(self):
        self.drawn("pxy", "--book", self.alike("0"), "--pair", "a,b", "--temperature", "70C")
        self.assertIn("no azeotrope", self.said)

    def test_names_are_escaped(self):
        picture = Svg(10, 10, "a < b & c")
        picture.text(1, 1, 'x < y & "z"')
        root = Xml.fromstring(picture.render())
        self.assertEqual(self.words(root), 'x < y & "z"')

    def test_sample_book(self):
        root = self.drawn(
            "txy",
            "--book",
            str(ROOT / "crates" / "still" / "data" / "book.bin"),
            "--pair",
            "64-17-5,7732-18-5",
            "--pressure",
            "1bar",
        )
        self.assertIn("mole fraction of 64-17-5", self.words(root))


class Output(InFolder):
    asked = ("diagram", "xy", "--pair", "ethanol,water", "--pressure", "1bar", "--points", "5")

    def test_standard_output(self):
        run = sheet(*self.asked, "-o", "-", cwd=self.folder)
        self.assertEqual(Xml.fromstring(run.out).tag, f"{NAMESPACE}svg")
        self.assertIn("azeotrope", run.err)
        self.assertEqual(list(self.folder.iterdir()), [])

    def test_png_without_a_renderer_is_refused_in_words(self):
        with mock.patch.dict(os.environ, PATH=str(self.folder)):
            run = sheet(*self.asked, "-o", "a.png", cwd=self.folder)
        self.assertEqual((run.status, run.out), (2, ""))
        self.assertIn("PNG needs rsvg-convert or inkscape (Debian's librsvg2-bin or inkscape)", run.err)
        self.assertEqual(list(self.folder.iterdir()), [])

    def test_png_from_a_renderer(self):
        """Debian's own where it is installed, then a stand-in that gives the start of a PNG and its input."""
        if shutil.which("rsvg-convert"):
            self.assertEqual(sheet(*self.asked, "-o", "a.png", cwd=self.folder).status, 0)
            content = (self.folder / "a.png").read_bytes()
            width = int.from_bytes(content[16:20], "big")
            self.assertEqual((content[:4], width), (b"\x89PNG", 2 * (LEFT + SQUARE + 24)))
        self.renderer("sys.stdout.buffer.write(b'\\x89PNG' + sys.stdin.buffer.read())")
        with mock.patch.dict(os.environ, PATH=f"{self.folder}:{os.environ['PATH']}"):
            run = sheet(*self.asked, "-o", "a.PNG", cwd=self.folder)
        self.assertEqual((run.status, run.err), (0, ""))
        self.assertTrue((self.folder / "a.PNG").read_bytes().startswith(b"\x89PNG<?xml"))

    def test_png_that_fails(self):
        self.renderer("raise SystemExit('no fonts')")
        with mock.patch.dict(os.environ, PATH=f"{self.folder}:{os.environ['PATH']}"):
            run = sheet(*self.asked, "-o", "a.png", cwd=self.folder)
        self.assertEqual((run.status, run.err), (2, "sheet: rsvg-convert drew no PNG: no fonts\n"))
        self.assertFalse((self.folder / "a.png").exists())

    def renderer(self, body: str) -> None:
        os.rename(self.program([body]), self.folder / "rsvg-convert")


class Axes(InFolder):
    def test_steps(self):
        for rough, step in ((0.9, 1), (1.0, 1), (1.1, 2), (3, 5), (6, 10), (0.011, 0.02), (250, 500)):
            self.assertAlmostEqual(round_step(rough), step)

    def test_ticks(self):
        axis = Axis(0.0, 1.0, 0.1)
        self.assertEqual(
            [axis.label(tick) for tick in axis.ticks()][:3] + [axis.label(axis.ticks()[-1])],
            ["0.0", "0.1", "0.2", "1.0"],
        )
        for values in ((350, 373), (1e-3, 2e-3), (5, 5), (0, 0), (99999, 100001)):
            axis = axis_around(values)
            self.assertTrue(axis.low < min(values) and max(values) < axis.high)
            self.assertTrue(4 <= len(axis.ticks()) <= 11, values)
            self.assertEqual(len({axis.label(tick) for tick in axis.ticks()}), len(axis.ticks()))


class ProgressLine(InFolder):
    def shown(self, seconds: float, terminal: bool = True) -> str:
        out, now = io.StringIO(), iter([0.0] + [seconds] * 9)
        out.isatty = lambda: terminal
        with Progress("a pair", 2, out, lambda: next(now)) as progress:
            self.assertEqual(progress.stepped("result"), "result")
        return out.getvalue()

    def test_only_after_a_second(self):
        self.assertEqual(self.shown(0.9), "")
        self.assertEqual(self.shown(1.5), "\ra pair: 1 of 2 points \ra pair: 1 points, 1.5 s \n")

    def test_only_on_a_terminal(self):
        self.assertEqual(self.shown(1.5, terminal=False), "")
