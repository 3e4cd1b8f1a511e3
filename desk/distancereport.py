"""The sheet of a distance as text and as JSON: where p lies between dew and bubble pressure, and how far it can rise or
fall until the phases change."""

from typing import Any, Dict, List, Optional, Tuple

from . import answer, jsonsheet, refusals, text, tryreport
from .distance import MOST_STEPS, ORDER, STEP
from .distancesheet import Change, DistanceSheet
from .report import Lines, Report
from .sheet import Sheet

TITLE = "DISTANCE: how far p can rise or fall until the phases change"
BAR = 74  # columns
AIR = 8  # of them on each side
ROUNDING = 1e-9
ZONES = {answer.VAPOR_ONLY: ".", answer.BOTH: "=", answer.LIQUID_ONLY: "~"}
BOUND, HERE = "|", "*"
LEGEND = ", ".join(f"{mark} {answer.OUTCOMES[outcome]}" for outcome, mark in ZONES.items())
LEGEND += f"; {BOUND} dew and bubble pressure, {HERE} p asked"
ORDERED = (
    f"Steps are {STEP:.0f} Pa, in turn 1 up, 1 down, 2 up, 2 down and on to {MOST_STEPS} each way. A step that the "
    "core refuses is passed over and counted."
)
UNSEEN = "What is there between two steps alone isn't seen"
WINDOW = (
    f"{UNSEEN}: close to an azeotrope both phases are there in a window of less than {STEP:.0f} Pa, and a step can go "
    "over it."
)
NARROW = f"{UNSEEN}. Here the window of both phases, between dew and bubble pressure, is {{}}: a step can go over it."
PURE = "One solvent alone goes from liquid to vapor at one pressure, with no window of both phases."


class DistanceReport(Report):
    def __init__(self, sheet: DistanceSheet, details: bool = False):
        super().__init__(sheet.flash, details)
        self.distance = sheet

    def text(self) -> str:
        body = self._refusal() if self.sheet.blocks.refusal else self._body()
        lines = self.head() + [text.RULE] + self._marks() + body + self._pairs()
        return "\n".join(lines + tryreport.tables(self.sheet.tried, self.details, self.sheet) + self._own()) + "\n"

    def title(self) -> str:
        return TITLE

    def _marks(self) -> Lines:
        """Those of the flash; where there are none, that of a change."""
        lines, mark = super()._marks(), self.distance.mark
        if not mark or self.sheet.judgement.mark:
            return lines
        return text.marked(mark.line) + text.sentences(mark.advice) + [""] + lines

    def _body(self) -> Lines:
        lines = text.fields(self.flash_rows()) + ["", *text.fields(self._rows(self.distance.nearest))]
        if self.distance.up:
            lines += ["", *self._both_ways(), *self._matters()]
        lines += self._bar() + ["", *text.wrapped(ORDERED), *text.wrapped(self._unseen())]
        return lines + self.flash_remarks()

    # the change

    def _rows(self, change: Change) -> List[Tuple[str, str]]:
        tried = change.found.before
        of = f"of the {tried} steps before it" if tried < len(ORDER) else f"of all {tried} steps"
        refused = _refused(change, of) if tried else "no step stands before it"
        return [("next change", self._words(change)), ("refused", refused)]

    def _words(self, change: Change) -> str:
        found, before = change.found, self.distance.outcome
        before += " (as one liquid)" if self.sheet.judgement.mark else ""
        if found.steps is None:
            return f"none within {_steps(MOST_STEPS)} each way: {before}, wherever the core answers"
        way = "up" if found.steps > 0 else "down"
        then = answer.outcome_words(found.outcome)
        return f"p {way} by {_steps(abs(found.steps))}, to {self._pascals(change.pascals)}: from {before} to {then}"

    def _both_ways(self) -> Lines:
        heads = ("nearest", "p by", "at", "phases then", "steps", "refused before")
        rows = [self._row("up", self.distance.up), self._row("down", self.distance.down)]
        return text.table(heads, rows, words=(0, 3))

    def _row(self, name: str, change: Change) -> Tuple[str, ...]:
        found = change.found
        refused = str(found.refused) + (f" ({_numbers(change)})" if found.refused else "")
        if found.steps is None:
            return name, "-", "-", "no change seen", f"{MOST_STEPS}", refused
        by, then = f"{STEP * found.steps:+.0f} Pa", answer.outcome_words(found.outcome)
        return name, by, self._pascals(change.pascals), then, f"{abs(found.steps)}", refused

    def _matters(self) -> Lines:
        """Of the numbers that refused a step up or down, as far as they aren't explained above."""
        found = sorted({*self.distance.up.numbers, *self.distance.down.numbers} - {*self.distance.nearest.numbers})
        return [line for number in found for line in text.wrapped(f"{number}: {refusals.matter(number)}.")]

    def _pascals(self, value: float) -> str:
        return f"{value!r} Pa" if self.details else f"{value:.8g} Pa"

    # between dew and bubble

    def _bar(self) -> Lines:
        if not self._holds():
            return []
        found = self._bounds()
        return ["", *text.fields([("p lies", place(*found))]), f"  {bar(*found)}", f"  {LEGEND}"]

    def _holds(self) -> bool:
        """Whether both pressures are those of stable liquids."""
        return self.sheet.judgement.bubble_holds and self.sheet.judgement.dew_holds

    def _bounds(self) -> Tuple[float, float, float]:
        """Dew pressure, bubble pressure and p."""
        blocks = self.sheet.blocks
        return blocks.real(answer.DEW), blocks.real(answer.BUBBLE), self.sheet.question.pressure

    def _unseen(self) -> str:
        dew, bubble, _ = self._bounds()
        if len(self.sheet.present()) == 1:
            return PURE
        return NARROW.format(_difference(bubble - dew)) if self._holds() and bubble - dew < STEP else WINDOW

    # with a pair that is tried

    def _own(self) -> Lines:
        own = self.distance.own
        if not own:
            return []
        refused = f"refused, number {own.flash.blocks.refusal}"
        said = DistanceReport(own, self.details)._words(own.nearest) if own.nearest else refused
        return text.wrapped(f"The next change by the book: {said}.")


def _steps(count: int) -> str:
    return f"{STEP * count:.0f} Pa ({text.counted(count, 'step')})"


def _difference(pascals: float) -> str:
    return f"{max(pascals, 0.0):.6g} Pa"


def _refused(change: Change, of: str) -> str:
    if not change.found.refused:
        return f"none {of}"
    listed = (f"{count} with number {number} ({refusals.matter(number)})" for number, count in change.numbers.items())
    return f"{change.found.refused} {of}: {', '.join(listed)}"


def _numbers(change: Change) -> str:
    return ", ".join(f"{count} with {number}" for number, count in change.numbers.items())


def place(dew: float, bubble: float, pascals: float) -> str:
    """Where a pressure lies, in words."""
    below = f"{_difference(bubble - pascals)} below the bubble pressure"
    above = f"{_difference(pascals - dew)} above the dew pressure"
    if pascals >= bubble:
        return f"{_difference(pascals - bubble)} above the bubble pressure"
    if pascals <= dew:
        return f"{_difference(dew - pascals)} below the dew pressure"
    return f"{below}, {above}"


def bar(dew: float, bubble: float, pascals: float) -> str:
    """To scale: vapor up to the dew pressure, liquid from the bubble pressure on, both between them. A pressure that
    isn't a bound never stands on one, nor beyond it. Bounds that differ by roundings are one."""
    dew = bubble if bubble - dew < ROUNDING * bubble else dew
    low, high = min(dew, pascals), max(bubble, pascals)
    inner = BAR - 2 * AIR - 1

    def column(value: float) -> int:
        return AIR + round((value - low) / (high - low) * inner) if high > low else BAR // 2

    first, last, at = column(dew), column(bubble), column(pascals)
    if pascals >= bubble:
        at = max(at, last + (pascals > bubble))
    elif pascals <= dew:
        at = min(at, first - (pascals < dew))
    else:
        at = min(max(at, first + 1), last - 1)
    drawn = [ZONES[_zone(k, first, last)] for k in range(BAR)]
    drawn[first] = drawn[last] = BOUND
    drawn[at] = HERE
    return "".join(drawn)


def _zone(column: int, first: int, last: int) -> int:
    return answer.VAPOR_ONLY if column < first else answer.LIQUID_ONLY if column > last else answer.BOTH


def render(sheet: DistanceSheet, details: bool = False) -> str:
    return DistanceReport(sheet, details).text()


def document(sheet: DistanceSheet, details: bool = False) -> Dict[str, Any]:
    """The flash's, and the distance behind it."""
    whole = jsonsheet.document(sheet.flash, details)
    numbers = jsonsheet.Numbers(sheet.flash.book.names, (), details)
    found = _document(sheet, numbers) if sheet.nearest else None
    return {**whole, "command": "distance", "warning": jsonsheet.mark_document(sheet.mark), "distance": found}


def _document(sheet: DistanceSheet, numbers: jsonsheet.Numbers) -> Dict[str, Any]:
    found = {
        "step_Pa": numbers.number(STEP),
        "most_steps_each_way": MOST_STEPS,
        "from": sheet.outcome,
        **{name: _change(getattr(sheet, name), numbers) for name in ("nearest", "up", "down")},
    }
    if not sheet.own:
        return found
    own = {"refusal": sheet.own.flash.blocks.refusal or None, "nearest": _change(sheet.own.nearest, numbers)}
    return {**found, "by_the_book": own}


def _change(change: Optional[Change], numbers: jsonsheet.Numbers) -> Optional[Dict[str, Any]]:
    if change is None:
        return None
    found = change.found
    return {
        "steps": found.steps,
        "difference_Pa": None if found.steps is None else numbers.number(STEP * found.steps),
        "pressure_Pa": numbers.number(change.pascals),
        "to": None if found.outcome is None else answer.outcome_words(found.outcome),
        "refused_before": found.refused,
        "refused_by_number": {str(number): count for number, count in change.numbers.items()},
    }
