"""The floor sheet: half a page for operators, the outcome of an answer and nothing of how it was found. Its numbers are
the floor reader's words; the lab has the whole sheet."""

from dataclasses import replace
from typing import Any, Callable, Dict

from . import answer, jsonsheet, report, text, tryreport
from .readers import Floor
from .report import Lines, Report
from .sheet import Sheet
from .tasks import EXCESS, STABILITY

WHOLE = "The lab's sheet is the whole one: the same command without --floor."
COEFFICIENTS = "The activity coefficients are on the lab's sheet: the same command without --floor."
HEAD = ("command", "task", "version", "date", "label", "preview", "book", "question")
ABOVE = ("warning", "one_liquid_layer", "refusal")
FIELDS = ("outcome", "temperature_K", "pressure_Pa", "vapor_fraction", "liquid", "vapor")


class FloorReport(Report):
    """In the words of the whole sheet, over an answer that holds the floor's words and no other."""

    short = True

    def __init__(self, sheet: Sheet, floor: Floor):
        super().__init__(_shown(sheet, floor))

    def text(self) -> str:
        sheet = self.sheet
        lines = self.head() + [text.RULE] + self._marks()
        body = self._refusal() if sheet.blocks.refusal else _BODIES[sheet.question.task.command](self)
        whole = COEFFICIENTS if sheet.question.task == EXCESS else WHOLE
        return "\n".join(lines + body + ([] if sheet.blocks.refusal else ["", *text.wrapped(whole)])) + "\n"

    def head(self) -> Lines:
        sheet, question = self.sheet, self.sheet.question
        rows = [("Label", sheet.label)] if sheet.label else []
        rows += [("Date", sheet.date), *tryreport.book_rows(sheet.book, sheet.tried, False)]
        rows += report.drum_rows(sheet.feed, None, self._listed)
        if question.k_values is not None:
            rows.append(("K", self._listed(question.k_values)))
        if question.task == STABILITY:  # whose answer has no T
            rows.append(("T asked", self.temperature(question.temperature)))
        return [tryreport.title(f"FLOOR SHEET, {question.task.title.upper()}", sheet.tried)] + text.fields(rows)

    def excess(self) -> Lines:
        return text.fields([("temperature", self.temperature(self.sheet.blocks.real(answer.T)))]) + self._layer()

    def stability(self) -> Lines:
        return self._one_layer()

    def flash(self) -> Lines:
        blocks = self.sheet.blocks
        phases, fraction = self._state()
        at = [("temperature", self.temperature(blocks.real(answer.T)))]
        at += [("pressure", self.pressure(blocks.real(answer.P)))]
        vapor = blocks.head[answer.OUTCOME] == answer.VAPOR_ONLY
        return text.fields([phases, *at, fraction]) + ["", *self._phases()] + ([] if vapor else self._layer())

    def _layer(self) -> Lines:
        return ["", *self._one_layer()]


def _shown(sheet: Sheet, floor: Floor) -> Sheet:
    """Of a refusal its place and sentence too, which aren't words of an answer."""
    return replace(sheet, blocks=replace(floor.blocks(), place=sheet.blocks.place, said=sheet.blocks.said))


def render(sheet: Sheet, floor: Floor) -> str:
    return FloorReport(sheet, floor).text()


def document(sheet: Sheet, floor: Floor) -> Dict[str, Any]:
    """As JSON: the whole sheet's head, and of its answer the floor's words."""
    whole = jsonsheet.document(_shown(sheet, floor))
    found = whole["answer"]
    shown = None if found is None else {name: found[name] for name in FIELDS if name in found}
    return {**{name: whole[name] for name in (*HEAD, *ABOVE) if name in whole}, "floor": shown}


_BODIES: Dict[str, Callable[[FloorReport], Lines]] = {
    "excess": FloorReport.excess,
    "bubble-pressure": FloorReport.saturation,
    "dew-pressure": FloorReport.saturation,
    "bubble-temperature": FloorReport.saturation,
    "dew-temperature": FloorReport.saturation,
    "stability": FloorReport.stability,
    "flash": FloorReport.flash,
    "rachford-rice": FloorReport.split,
    "rachford-rice-negative": FloorReport.split,
}
