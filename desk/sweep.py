"""Sweeps over the composition of a pair: bubble and dew curves of liquids that pass their trials, the three-phase line
where the liquid splits, and azeotropes. Every point is an answer of the core."""

import math
from dataclasses import dataclass, field
from typing import Dict, List, NamedTuple, Optional, Sequence, Tuple

from . import answer, tasks, units
from .core import Core
from .errors import CoreRefusal
from .layers import Boiling, boiling_at, boiling_of, in_domain, layers_of
from .liquids import ONE_LAYER, SPLITS, Liquids, Refused, spread
from .progress import Progress
from .question import Options, Question
from .refusals import line
from .search import NotShown
from .sheet import NamedBook
from .tried import Tried

NEAR_PURE = 1e-6  # an azeotrope nearer to a pure solvent isn't looked for
FLAT = 1e-9  # of ln volatility
SEARCH_STEPS = 60
CLOSE = 1e-9  # step of x at which the search ends
EDGE_POINTS = 24  # points between the last stable one of the grid and a layer


@dataclass(frozen=True)
class Setting:
    """Two places in a book, and the temperature (K) or the pressure (Pa) that is held."""

    book: NamedBook
    first: int
    second: int
    temperature: Optional[float] = None
    pressure: Optional[float] = None
    options: Options = field(default_factory=Options)
    tried: Optional[Tried] = None  # then `book` is the copy that holds the pair

    @property
    def names(self) -> Tuple[str, str]:
        return self.book.names[self.first], self.book.names[self.second]

    def fractions(self, x: float) -> Tuple[float, ...]:
        """x of the first solvent, the rest of the second, nothing else."""
        values = [0.0] * len(self.book.names)
        values[self.first], values[self.second] = x, 1.0 - x
        return tuple(values)


@dataclass(frozen=True)
class Point:
    """Liquid x and vapor y in equilibrium, by the mole fractions of the first solvent, and of the second."""

    x: float
    y: float
    x_second: float
    y_second: float
    temperature: float
    pressure: float


@dataclass(frozen=True)
class ThreePhases:
    """Two layers and their vapor, by the first solvent's mole fractions, at T (K) and p (Pa)."""

    low: float
    high: float
    y: float
    temperature: float
    pressure: float

    @property
    def heteroazeotrope(self) -> bool:
        return self.low <= self.y <= self.high


class Missing(NamedTuple):
    """A point that isn't drawn: the core's number, or 0 where its liquid fails its trials."""

    curve: str
    at: float
    number: int


Piece = List[Point]  # of a curve, without a gap


@dataclass
class Curves:
    bubble: List[Piece]
    dew: List[Piece]
    three_phases: List[ThreePhases]
    azeotropes: List[Point]
    missing: List[Missing]
    reasons: List[str]  # why a three-phase line can't be shown

    def left_out(self, number: int) -> List[Missing]:
        return [missing for missing in self.missing if missing.number == number]

    @property
    def refused(self) -> List[int]:
        return sorted({missing.number for missing in self.missing if missing.number})


class Sweep:
    def __init__(self, core: Core, setting: Setting):
        self.core, self.setting, self.liquids = core, setting, Liquids(core)
        self.missing: List[Missing] = []
        self.splitting: List[float] = []  # x of liquids that fail their trials

    def saturation(self, at_temperature: tasks.Task, at_pressure: tasks.Task, x: float) -> Optional[Point]:
        setting = self.setting
        task = at_temperature if setting.temperature is not None else at_pressure
        question = Question(task, setting.fractions(x), setting.temperature, setting.pressure, options=setting.options)
        blocks = self.core.ask(question)
        if blocks.refusal:
            curve = "bubble" if task in (tasks.BUBBLE_PRESSURE, tasks.BUBBLE_TEMPERATURE) else "dew"
            self.missing.append(Missing(curve, x, blocks.refusal))
            return None
        fractions = (
            blocks.real(at + place) for place in (setting.first, setting.second) for at in (answer.LIQUID, answer.VAPOR)
        )
        return Point(*fractions, blocks.real(answer.T), blocks.real(answer.P))

    def bubble(self, x: float) -> Optional[Point]:
        return self.saturation(tasks.BUBBLE_PRESSURE, tasks.BUBBLE_TEMPERATURE, x)

    def dew(self, y: float) -> Optional[Point]:
        return self.saturation(tasks.DEW_PRESSURE, tasks.DEW_TEMPERATURE, y)

    def verdict(self, point: Point) -> str:
        """Of the trials of a point's liquid."""
        if not 0 < point.x < 1:
            return ONE_LAYER
        return self.liquids.trials(self.setting.fractions(point.x), point.temperature).kind

    def tested(self, curve: str, at: float, point: Optional[Point]) -> Optional[Point]:
        """The point, if its liquid passes its trials; otherwise it is missing."""
        if point is None:
            return None
        verdict = self.verdict(point)
        if verdict == ONE_LAYER:
            return point
        if verdict == SPLITS:
            self.splitting.append(point.x)
        number = (
            0 if verdict == SPLITS else self.liquids.trials(self.setting.fractions(point.x), point.temperature).number
        )
        self.missing.append(Missing(curve, at, number))
        return None

    def hides_layers(self, missing: Missing) -> bool:
        """A refused boiling point of a liquid that splits: as one liquid it boils out of the core's range."""
        if not 0 < missing.at < 1:
            return False
        held = self.setting.temperature
        kelvins = [held] if held is not None else spread(self.setting.options.bracket)
        return self.liquids.splits_at_one_of(self.setting.fractions(missing.at), kelvins)

    def three_phases(self, x: float) -> Optional[ThreePhases]:
        """Of a liquid that splits, at the temperature or the pressure held."""
        drum, setting = self.setting.fractions(x), self.setting
        if setting.temperature is not None:
            boiling = self._boiling_at_temperature(drum, setting.temperature)
        else:
            boiling = boiling_at(self.liquids, drum, setting.pressure, setting.options.bracket)
        if boiling is None:
            return None
        layers, place = boiling.layers, setting.first
        low, high = sorted((layers.first[place], layers.second[place]))
        return ThreePhases(low, high, boiling.vapor[place], layers.kelvin, boiling.pascals)

    def _boiling_at_temperature(self, drum: Tuple[float, ...], kelvin: float) -> Optional[Boiling]:
        layers = layers_of(self.liquids, drum, kelvin)
        try:
            boiling = boiling_of(self.liquids, layers) if layers else None
        except Refused as refused:
            raise NotShown(f"the core refused a vapor pressure with number {refused.number}") from None
        if boiling and not in_domain(boiling.pascals):
            raise NotShown(f"they boil at {units.in_unit(boiling.pascals, 'kPa'):.6g} kPa, outside 100 to 500,000 Pa")
        return boiling


def curves(core: Core, setting: Setting, points: int, with_dew: bool = True) -> Curves:
    sweep = Sweep(core, setting)
    grid = [k / (points - 1) for k in range(points)]
    with Progress(f"{setting.names[0]} and {setting.names[1]}", points * (1 + with_dew)) as progress:
        bubble = [progress.stepped(sweep.tested("bubble", x, sweep.bubble(x))) for x in grid]
        if not any(bubble):
            _raise_for(sweep)
        sweep.splitting += [missing.at for missing in sweep.missing if missing.number and sweep.hides_layers(missing)]
        dew: List[Optional[Point]] = []
        lines, reasons = _three_phase_lines(sweep)
        if with_dew and not lines:
            dew = [progress.stepped(sweep.tested("dew", y, sweep.dew(y))) for y in grid]
            lines, reasons = _three_phase_lines(sweep)  # a first drop may split between two points of the grid
    if lines:
        return _splitting(sweep, grid, bubble, lines, reasons)
    return Curves(_pieces(bubble), _pieces(dew), [], _azeotropes(sweep, [bubble]), sweep.missing, reasons)


def _raise_for(sweep: Sweep) -> None:
    refused = [missing.number for missing in sweep.missing if missing.number]
    reason = f"the first was {line(refused[0])}" if refused else "the liquid fails its trials at each of them"
    raise CoreRefusal(f"no point of the bubble curve has an answer; {reason}")


def _splitting(
    sweep: Sweep, grid: List[float], bubble: List[Optional[Point]], lines: List[ThreePhases], reasons: List[str]
) -> Curves:
    """Curves of the stable liquids alone. The dew curve of a pair is the vapor over them: no dew point is asked for."""
    found: Dict[float, Point] = {point.x: point for point in bubble if point}
    for x in _edges(grid, lines):
        point = sweep.tested("edge", x, sweep.bubble(x))
        if point:
            found[x] = point
    sweep.missing = [missing for missing in sweep.missing if missing.curve != "edge"]
    pieces = _parted(
        sorted(found.values(), key=lambda point: point.x), [(three.low + three.high) / 2 for three in lines]
    )
    vapor = [sorted(piece, key=lambda point: point.y) for piece in pieces]
    return Curves(pieces, vapor, lines, _azeotropes(sweep, pieces), sweep.missing, reasons)


def _three_phase_lines(sweep: Sweep) -> Tuple[List[ThreePhases], List[str]]:
    """One line for all compositions between two layers."""
    lines: List[ThreePhases] = []
    reasons: List[str] = []
    for x in sweep.splitting:
        if any(three.low < x < three.high for three in lines):
            continue
        try:
            three = sweep.three_phases(x)
        except NotShown as reason:
            reasons += [str(reason)] if str(reason) not in reasons else []
            continue
        lines += [three] if three else []
    return lines, reasons


def _edges(grid: List[float], lines: List[ThreePhases]) -> List[float]:
    """From the last point of the grid outside two layers up to each of them."""
    found: List[float] = []
    for three in lines:
        below, above = max(x for x in grid if x <= three.low), min(x for x in grid if x >= three.high)
        for outer, layer in ((below, three.low), (above, three.high)):
            found += [outer + (layer - outer) * k / EDGE_POINTS for k in range(1, EDGE_POINTS + 1)]
    return found


def _parted(points: Piece, gaps: Sequence[float]) -> List[Piece]:
    """Pieces with no gap between two of their points."""
    pieces: List[Piece] = [[]]
    for point in points:
        if pieces[-1] and any(pieces[-1][-1].x < gap < point.x for gap in gaps):
            pieces.append([])
        pieces[-1].append(point)
    return [piece for piece in pieces if piece]


def _pieces(points: Sequence[Optional[Point]]) -> List[Piece]:
    """Runs of points that are there."""
    pieces: List[Piece] = [[]]
    for point in points:
        if point is not None:
            pieces[-1].append(point)
        elif pieces[-1]:
            pieces.append([])
    return [piece for piece in pieces if piece]


def volatility(point: Point) -> float:
    """ln of the relative volatility (y1/x1)/(y2/x2), whose sign changes at an azeotrope."""
    inside = min(point.x, point.y, point.x_second, point.y_second) > 0
    return math.log(point.y / point.x) - math.log(point.y_second / point.x_second) if inside else 0.0


def _azeotropes(sweep: Sweep, pieces: Sequence[Sequence[Optional[Point]]]) -> List[Point]:
    """Of liquids that pass their trials. Questions of the search that are refused are no missing points."""
    missing = list(sweep.missing)
    found = [point for piece in pieces for point in azeotropes(sweep, piece) if sweep.verdict(point) == ONE_LAYER]
    sweep.missing = missing
    return found


def azeotropes(sweep: Sweep, bubble: Sequence[Optional[Point]]) -> List[Point]:
    """Every change of the sign of ln volatility, narrowed. Points too near to 0 are passed over: two solvents alike
    have no azeotrope."""
    there = [point for point in bubble if point]
    ends = [min(point.x for point in there), max(point.x for point in there)] if there else [1.0, 0.0]
    near_pure = [sweep.bubble(x) for x in (NEAR_PURE, 1 - NEAR_PURE) if ends[0] < x < ends[1]]
    points = sorted(
        (point for point in there + near_pure if point and abs(volatility(point)) > FLAT), key=lambda point: point.x
    )
    return [_narrowed(sweep, a, b) for a, b in zip(points, points[1:]) if volatility(a) * volatility(b) < 0]


def _narrowed(sweep: Sweep, low: Point, high: Point) -> Point:
    """False position; an end that stays has its value halved (Illinois), so that both close in."""
    at_low, at_high = volatility(low), volatility(high)
    best = min(low, high, key=lambda point: abs(volatility(point)))
    for _ in range(SEARCH_STEPS):
        point = sweep.bubble((low.x * at_high - high.x * at_low) / (at_high - at_low))
        if point is None:
            break
        value = volatility(point)
        moved = abs(point.x - best.x)
        best = min(best, point, key=lambda candidate: abs(volatility(candidate)))
        if value == 0 or moved <= CLOSE:
            break
        if value * at_low > 0:
            low, at_low, at_high = point, value, at_high / 2
        else:
            high, at_high, at_low = point, value, at_low / 2
    return best
