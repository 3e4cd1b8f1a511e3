"""Diagrams of a pair: T-x-y, p-x-y and x-y, drawn from a sweep."""

import math
from dataclasses import dataclass
from functools import cached_property
from typing import Callable, Iterable, List, NamedTuple, Optional, Tuple

from . import text, tryreport, units
from .book import AnyPair
from .ranges import is_outside, pairs_of
from .refusals import line as refusal_line
from .svg import Svg
from .sweep import Curves, Point, Setting, ThreePhases

LEFT, RIGHT, TOP = 84, 24, 56
PLOT_WIDTH, PLOT_HEIGHT, SQUARE = 612, 390, 520
AXIS_ROOM, LEGEND_ROW, FOOT = 66, 20, 8  # below the plot: ticks and name, each line of the legend, the rest
CHARACTER, SAMPLE = 7.8, 34  # width of a character of the legend, and of what stands before its words
BUBBLE_COLOR, DEW_COLOR, GUIDE_COLOR, GRID_COLOR = "#1f4e9e", "#c0392b", "#888888", "#e2e2e2"
LAYERS_COLOR, THREE_COLOR = "#f3e3c3", "#7a5c00"
DASH, DOTS = "6 4", "2 3"
MARGIN, LAYERS_MARGIN = 0.06, 0.16  # of the range: above and below the curves, and on the side of two layers

KINDS = {"txy": "T-x-y", "pxy": "p-x-y"}
TEMPERATURE_UNITS = {"K": lambda kelvin: kelvin, "C": units.celsius}
PRESSURE_UNITS = {unit: (lambda pascals, unit=unit: units.in_unit(pascals, unit)) for unit in units.PRESSURE_UNITS}


@dataclass(frozen=True)
class Axis:
    low: float
    high: float
    step: float

    def ticks(self) -> List[float]:
        first, last = math.ceil(self.low / self.step - 1e-9), math.floor(self.high / self.step + 1e-9)
        return [k * self.step for k in range(first, last + 1)]

    def label(self, value: float) -> str:
        return f"{value:.{max(0, -math.floor(math.log10(self.step) + 1e-9))}f}"


def axis_around(values: Iterable[float], below: float = MARGIN, above: float = MARGIN) -> Axis:
    """A range a little wider than the values, with five to ten ticks at round numbers."""
    found = list(values)
    low, high = min(found), max(found)
    spread = (high - low) or abs(high) * 0.02 or 1.0
    low, high = low - below * spread, high + above * spread
    return Axis(low, high, round_step((high - low) / 8))


def round_step(rough: float) -> float:
    """1, 2 or 5 times a power of ten, not below `rough`."""
    power = 10.0 ** math.floor(math.log10(rough))
    return next(power * factor for factor in (1, 2, 5, 10) if power * factor >= rough * (1 - 1e-9))


UNIT_AXIS = Axis(0.0, 1.0, 0.1)


class Entry(NamedTuple):
    """Of the legend: words with a line, a ring, a cross or a box before them, or nothing."""

    words: str
    kind: str = ""
    color: str = "black"

    def lines(self, width: float) -> List[str]:
        return text.wrapped(self.words, int((width - SAMPLE) / CHARACTER), indent="")


@dataclass(frozen=True)
class Units:
    """The units of a picture: one for its axis and its legend."""

    temperature: str = "C"
    pressure: str = "kPa"

    def kelvin(self, value: float) -> str:
        return f"{TEMPERATURE_UNITS[self.temperature](value):.2f} {self.temperature_name}"

    @property
    def temperature_name(self) -> str:
        return "°C" if self.temperature == "C" else self.temperature

    def pascals(self, value: float) -> str:
        return f"{PRESSURE_UNITS[self.pressure](value):.6g} {self.pressure}"

    def interval(self, low: float, high: float) -> str:
        return self.kelvin(low) if low == high else f"{self.kelvin(low).split()[0]} to {self.kelvin(high)}"


class Canvas:
    """Axes with ticks, and places on them. The height is what plot and legend need."""

    def __init__(
        self,
        title: str,
        across: Axis,
        across_name: str,
        upward: Axis,
        upward_name: str,
        legend: List[Entry],
        square: bool = False,
    ):
        self.width, self.height = (SQUARE, SQUARE) if square else (PLOT_WIDTH, PLOT_HEIGHT)
        self.across, self.upward = across, upward
        self._title, self._names, self._legend = title, (across_name, upward_name), legend
        rows = sum(len(entry.lines(self.width)) for entry in legend)
        self.right, self.bottom = LEFT + self.width, TOP + self.height
        self.svg = Svg(self.right + RIGHT, self.bottom + AXIS_ROOM + rows * LEGEND_ROW + FOOT, title)

    def place(self, x: float, y: float) -> Tuple[float, float]:
        across = (x - self.across.low) / (self.across.high - self.across.low)
        upward = (y - self.upward.low) / (self.upward.high - self.upward.low)
        return LEFT + across * self.width, self.bottom - upward * self.height

    def box(self, low: float, high: float, from_y: float, to_y: float) -> None:
        (left, bottom), (right, top) = self.place(low, min(from_y, to_y)), self.place(high, max(from_y, to_y))
        self.svg.box(left, top, max(right - left, 2.0), bottom - top, fill=LAYERS_COLOR)

    def frame(self) -> None:
        for tick in self.across.ticks():
            x, _ = self.place(tick, self.upward.low)
            self.svg.line(x, TOP, x, self.bottom + 5, stroke=GRID_COLOR)
            self.svg.text(x, self.bottom + 20, self.across.label(tick), anchor="middle")
        for tick in self.upward.ticks():
            _, y = self.place(self.across.low, tick)
            self.svg.line(LEFT - 5, y, self.right, y, stroke=GRID_COLOR)
            self.svg.text(LEFT - 9, y + 4, self.upward.label(tick), anchor="end")
        self.svg.box(LEFT, TOP, self.width, self.height, stroke="black")
        self.svg.text((self.right + RIGHT) / 2, 32, self._title, size=17, anchor="middle")
        self.svg.text((LEFT + self.right) / 2, self.bottom + 42, self._names[0], size=14, anchor="middle")
        self.svg.text(24, (TOP + self.bottom) / 2, self._names[1], size=14, anchor="middle", turned=True)

    def curve(self, points: List[Tuple[float, float]], dashed: List[bool], stroke: str) -> None:
        """Dashed where one of two neighbouring points is to be."""
        runs: List[Tuple[bool, List[Tuple[float, float]]]] = []
        for k in range(1, len(points)):
            dash = dashed[k - 1] or dashed[k]
            if not runs or runs[-1][0] != dash:
                runs.append((dash, [points[k - 1]]))
            runs[-1][1].append(points[k])
        for dash, run in runs:
            self.svg.curve([self.place(*point) for point in run], stroke, dash=DASH if dash else "none")

    def line(self, points: List[Tuple[float, float]], stroke: str, dash: str = "none", width: float = 2) -> None:
        self.svg.curve([self.place(*point) for point in points], stroke, width=width, dash=dash)

    def ring(self, x: float, y: float, color: str = "black") -> None:
        """Open, so that the curves are seen through it."""
        self.svg.circle(*self.place(x, y), 7, fill="none", stroke=color)

    def cross(self, x: float, color: str) -> None:
        """A missing point: its place on the lower axis, since it has no height; those of the dew curve a little
        higher."""
        across, _ = self.place(x, self.upward.low)
        self._cross(across, self.bottom - (18 if color == DEW_COLOR else 7), color)

    def _cross(self, x: float, y: float, color: str) -> None:
        self.svg.line(x - 4, y - 4, x + 4, y + 4, stroke=color, width=1.5)
        self.svg.line(x - 4, y + 4, x + 4, y - 4, stroke=color, width=1.5)

    def render(self) -> str:
        y = self.bottom + AXIS_ROOM
        for entry in self._legend:
            self._sample(entry, LEFT, y)
            for words in entry.lines(self.width):
                self.svg.text(LEFT + SAMPLE, y, words)
                y += LEGEND_ROW
        return self.svg.render()

    def _sample(self, entry: Entry, x: float, y: float) -> None:
        if entry.kind == "ring":
            self.svg.circle(x + 13, y - 4, 7, fill="none", stroke=entry.color)
        elif entry.kind == "cross":
            self._cross(x + 13, y - 4, entry.color)
        elif entry.kind == "box":
            self.svg.box(x, y - 11, 26, 14, fill=entry.color, stroke=GUIDE_COLOR)
        elif entry.kind:
            dash = {"dash": DASH, "dots": DOTS}.get(entry.kind, "none")
            self.svg.line(
                x, y - 4, x + 26, y - 4, stroke=entry.color, width=3 if entry.kind == "thick" else 2, dash=dash
            )


def held(setting: Setting, shown: Units = Units()) -> str:
    return shown.kelvin(setting.temperature) if setting.temperature is not None else shown.pascals(setting.pressure)


def caption(setting: Setting) -> str:
    return f"{' and '.join(setting.names)} at {held(setting)}, {setting.book.model_words}"


def title_of(kind: str, setting: Setting) -> str:
    return tryreport.title(f"{kind} of {caption(setting)}", setting.tried)


@dataclass(frozen=True)
class Drawing:
    """What the three kinds of diagram have in common."""

    setting: Setting
    curves: Curves
    units: Units

    @cached_property
    def pair(self) -> Optional[AnyPair]:
        book = self.setting.book
        pairs = pairs_of(book.content, book.names, self.setting.fractions(0.5))
        return pairs[0][1] if pairs else None

    def outside(self, point: Point) -> bool:
        """A pure solvent has no pair that could be out of its range."""
        return self.pair is not None and 0 < point.x < 1 and is_outside(self.pair, point.temperature)

    def legend(self) -> List[Entry]:
        return [*self._tried(), *self._azeotropes(), *self._layers(), *self._interval(), *self._missing()]

    def _tried(self) -> Iterable[Entry]:
        tried = self.setting.tried
        if tried:
            shows = not tried.absent([self.setting.first, self.setting.second])
            said = f"PREVIEW: {tried.pair} as tried, from {tried.offered.source}, not as in the book"
            yield Entry(said if shows else f"{said}; that pair doesn't show here")

    def _azeotropes(self) -> Iterable[Entry]:
        for point in self.curves.azeotropes:
            yield Entry(self.azeotrope_words(point), "ring")

    def azeotrope_words(self, point: Point) -> str:
        """At the temperature found, or at the pressure found."""
        return f"azeotrope x = {point.x:.4f} at {self.where(point)}"

    def where(self, point) -> str:
        return (
            self.units.kelvin(point.temperature)
            if self.setting.temperature is None
            else self.units.pascals(point.pressure)
        )

    def _layers(self) -> Iterable[Entry]:
        if not self.setting.book.shows_layers((self.setting.first, self.setting.second)):
            yield Entry("one liquid is assumed: Wilson's equation can't show two layers")
        for three in self.curves.three_phases:
            yield Entry(self.three_words(three), "thick", THREE_COLOR)
        if self.curves.three_phases:
            yield Entry("two liquid layers: no curve is drawn for one liquid there", "box", LAYERS_COLOR)
        for reason in self.curves.reasons:
            yield Entry(f"the liquid splits, and its layers can't be shown: {reason}")
        count = len(self.curves.left_out(0))
        if count and not self.curves.three_phases:
            yield Entry(
                f"{text.counted(count, 'point')} left out: the liquid splits in two layers", "cross", THREE_COLOR
            )

    def three_words(self, three: ThreePhases) -> str:
        layers = (
            f"layers x = {text.fraction(three.low)} and {text.fraction(three.high)}, vapor y = {text.fraction(three.y)}"
        )
        return (
            f"{'heterogeneous azeotrope' if three.heteroazeotrope else 'three phases'} at {self.where(three)}: {layers}"
        )

    def _interval(self) -> Iterable[Entry]:
        if self.pair is None:
            return
        interval = self.pair.interval
        drawn = any(self.outside(point) for piece in self.curves.bubble + self.curves.dew for point in piece)
        fitted = self.units.interval(interval.low, interval.high) if interval else ""
        notes = (
            ["interval inferred"] * bool(interval and interval.inferred) + ["estimated as ideal"] * self.pair.ideal
        )
        if drawn:
            notes = [f"{' and '.join(self.setting.names)} were fitted for {fitted}", *notes]
            yield Entry(f"dashed: out of range, {', '.join(notes)}", "dash")
        elif notes:
            yield Entry(
                f"{' and '.join(self.setting.names)}: fitted for {fitted}, {', '.join(notes)}"
                if fitted
                else ", ".join(notes)
            )
        elif not fitted:
            yield Entry(f"{' and '.join(self.setting.names)}: no regression interval is known")

    def _missing(self) -> Iterable[Entry]:
        for number in self.curves.refused:
            for curve, name, color in (("bubble", "boiling point", BUBBLE_COLOR), ("dew", "dew point", DEW_COLOR)):
                count = sum(missing.curve == curve for missing in self.curves.left_out(number))
                if count:
                    yield Entry(f"{text.counted(count, name)} missing: {refusal_line(number)}", "cross", color)

    def crosses(self, canvas: Canvas) -> None:
        """Refused points; those whose liquid splits only where no three-phase line stands for them."""
        for missing in self.curves.missing:
            if missing.number:
                canvas.cross(missing.at, DEW_COLOR if missing.curve == "dew" else BUBBLE_COLOR)
            elif not self.curves.three_phases:
                canvas.cross(missing.at, THREE_COLOR)


def saturation(kind: str, setting: Setting, curves: Curves, unit: str) -> str:
    """T-x-y or p-x-y."""
    shown = shown_units(kind, unit)
    drawing = Drawing(setting, curves, shown)
    value, quantity = _quantity(kind, shown)
    first, second = setting.names
    heights = (
        [value(point) for piece in curves.bubble + curves.dew for point in piece]
        + [value(three) for three in curves.three_phases]
    )
    layers_below, layers_above = (
        LAYERS_MARGIN if curves.three_phases and kind == at else MARGIN for at in ("txy", "pxy")
    )
    upward = axis_around(heights, layers_below, layers_above)
    legend = [
        Entry("boiling point (liquid x)", "line", BUBBLE_COLOR),
        Entry("dew point (vapor y)", "line", DEW_COLOR),
        *drawing.legend(),
    ]
    title = title_of(KINDS[kind], setting)
    canvas = Canvas(title, UNIT_AXIS, f"mole fraction of {first}", upward, quantity, legend)
    for three in curves.three_phases:
        canvas.box(three.low, three.high, value(three), upward.low if kind == "txy" else upward.high)
    canvas.frame()
    for piece in curves.bubble:
        canvas.curve([(point.x, value(point)) for point in piece], list(map(drawing.outside, piece)), BUBBLE_COLOR)
    for piece in curves.dew:
        canvas.curve([(point.y, value(point)) for point in piece], list(map(drawing.outside, piece)), DEW_COLOR)
    for three in curves.three_phases:
        ends = sorted((three.low, three.high, three.y))
        canvas.line([(ends[0], value(three)), (ends[-1], value(three))], THREE_COLOR, width=3)
        for x in (three.low, three.high, three.y):
            canvas.ring(x, value(three), DEW_COLOR if x == three.y else THREE_COLOR)
    for point in curves.azeotropes:
        canvas.ring(point.x, value(point))
    drawing.crosses(canvas)
    return canvas.render()


def _quantity(kind: str, shown: Units) -> Tuple[Callable[..., float], str]:
    if kind == "txy":
        return lambda point: TEMPERATURE_UNITS[shown.temperature](
            point.temperature
        ), f"temperature, {shown.temperature_name}"
    return lambda point: PRESSURE_UNITS[shown.pressure](point.pressure), f"pressure, {shown.pressure}"


def composition(setting: Setting, curves: Curves) -> str:
    """x-y with its diagonal."""
    drawing = Drawing(setting, curves, Units())
    first, second = setting.names
    title = title_of("x-y", setting)
    legend = [
        Entry("vapor over the boiling liquid", "line", BUBBLE_COLOR),
        Entry("y = x", "dots", GUIDE_COLOR),
        *drawing.legend(),
    ]
    names = (f"mole fraction of {first} in the liquid, x", f"mole fraction of {first} in the vapor, y")
    canvas = Canvas(title, UNIT_AXIS, names[0], UNIT_AXIS, names[1], legend, square=True)
    for three in curves.three_phases:
        canvas.box(three.low, three.high, 0.0, 1.0)
    canvas.frame()
    canvas.line([(0.0, 0.0), (1.0, 1.0)], GUIDE_COLOR, dash=DOTS)
    for piece in curves.bubble:
        canvas.curve([(point.x, point.y) for point in piece], list(map(drawing.outside, piece)), BUBBLE_COLOR)
    for three in curves.three_phases:
        canvas.line([(three.low, three.y), (three.high, three.y)], THREE_COLOR, width=3)
        for x in (three.low, three.high):
            canvas.ring(x, three.y, THREE_COLOR)
    for point in curves.azeotropes:
        canvas.ring(point.x, point.y)
    drawing.crosses(canvas)
    return canvas.render()


def findings(kind: str, setting: Setting, curves: Curves, unit: str) -> List[str]:
    """What the legend says, as lines."""
    drawing = Drawing(setting, curves, shown_units(kind, unit))
    entries = [entry.words for entry in drawing.legend()]
    heteroazeotropes = [three for three in curves.three_phases if three.heteroazeotrope]
    return entries if curves.azeotropes or heteroazeotropes else ["no azeotrope"] + entries


def shown_units(kind: str, unit: str) -> Units:
    return Units(temperature=unit) if kind == "txy" else Units(pressure=unit) if kind == "pxy" else Units()
