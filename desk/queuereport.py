"""The sheet of a shift's questions as text, CSV and JSON."""

from typing import Any, Dict, List

from . import explain, jsonsheet, text
from .listsheet import ANSWERED, MARKED, REFUSED, reason
from .queuesheet import PUT_OFF, QueueRow, QueueSheet
from .rowreport import Lines, RowReport, csv_cell, csv_cells, row_document, settings_document, spreadsheet
from .sheet import book_words
from .version import VERSION

TITLE = "QUEUE: flashes in order, as far as one allowance of work goes"
WORK = (
    "Work is counted in evaluations: all activity coefficients at one composition. A flash asks for (m + 2) M + 4 of "
    "them, with m solvents in the drum and M its --max-iterations, and takes as many as it begins."
)
UNTOLD = (
    "(at most) The program still doesn't say how many evaluations a refused flash began: all that it asked for is "
    "counted. scripts/shared-library builds the library, which has the queue's own call."
)
ASKS_FOR_MORE = "It then asks for more of the allowance, so that others may be put off."
CSV_FIRST = (
    "line", "label", "status", "refusal", "reason", "warning", "asks_for", "took", "left", "one_liquid_layer", "feed"
)
HEADS = ["drum", "T", "p", "what came of it", "asks for", "took", "left"]
VERDICTS = {ANSWERED: "answered", MARKED: "SEE BELOW", PUT_OFF: "PUT OFF"}
UNKNOWN = ("warning", "one_liquid_layer", "refusal", "answer", "by_mass", "pairs")  # of a question put off


class QueueReport(RowReport):
    statuses = (*RowReport.statuses, PUT_OFF)

    def text(self) -> str:
        lines = self.head() + [text.RULE] + self._marks() + self._queue()
        lines += self._tables(self._answers(), *self._phases(), self._kilograms()) + self._remarks()
        notes = [WORK] if self.details or self.sheet.of(PUT_OFF) else []
        notes += [] if self.sheet.exact else [UNTOLD]
        return "\n".join(lines + self._tables(*map(text.wrapped, notes))) + "\n"

    def head(self) -> Lines:
        sheet = self.sheet
        rows = self._about([("Book", book_words(sheet.book, self.details))], "Queue")
        most, taken = "" if sheet.exact else "at most ", sheet.allowance - sheet.left
        rows.append(("Allowance", f"{sheet.allowance} evaluations: {most}{taken} taken, {sheet.left} left"))
        rows += [("Task", f"{self.task.number}, {self.task.function}")] if self.details else []
        return [TITLE] + text.fields(rows)

    def _marked(self) -> Lines:
        return super()._marked() + self._starred("PUT OFF", self.sheet.of(PUT_OFF))

    def _ranges(self) -> Lines:
        """Each at its own temperature."""
        found = ((row, row.sheet.ranges.line()) for row in self.sheet.of(ANSWERED))
        return [f"{self._name(row)}: {line}" for row, line in found if line]

    # tables, a line for each question

    def _queue(self) -> Lines:
        rows = [[self._name(row), *self._asked(row), self._verdict(row), *_counts(row)] for row in self.sheet.rows]
        return text.table(HEADS, rows, (0, 3))

    def _asked(self, row: QueueRow) -> List[str]:
        question = row.sheet.question
        return [text.celsius(question.temperature, self.details), f"{self._kilopascals(question.pressure)} kPa"]

    def _verdict(self, row: QueueRow) -> str:
        return VERDICTS.get(row.status) or f"REFUSED ({row.sheet.blocks.refusal})"

    def _answers(self) -> Lines:
        """Of ordinary answers alone: nobody takes those of a liquid that splits for its own."""
        columns = self._flash_columns() + self._effort()
        rows = [[self._name(row)] + [cells(row) for _, cells in columns] for row in self.sheet.of(ANSWERED)]
        heads = ["drum"] + [head for head, _ in columns]
        return text.table(heads, rows, (0, 1)) + ["  pressures in kPa"] if rows else []

    # below the tables

    def _remarks(self) -> Lines:
        enough = f"With --allowance {self.sheet.enough} none of them is put off."
        return super()._remarks() + self._tables(text.wrapped(enough) if self.sheet.of(PUT_OFF) else [])

    def _remark(self, row: QueueRow) -> str:
        return f"PUT OFF: {why(row)}" if row.status == PUT_OFF else super()._remark(row)

    def _advice(self, row: QueueRow) -> Lines:
        if row.status == PUT_OFF:
            return text.wrapped(advice(self.sheet, row))
        not_converged = row.sheet.blocks.refusal == explain.NOT_CONVERGED and not row.sheet.judgement.mark
        return super()._advice(row) + (text.wrapped(ASKS_FOR_MORE) if not_converged else [])


def _counts(row: QueueRow) -> List[str]:
    """What it asks for, what it took, and what was left behind it."""
    queued = row.queued
    took = f"{queued.took}{'' if queued.exact else ' (at most)'}"
    return [str(queued.asks) if row.asked_for_some else "-", took, str(queued.left)]


def why(row: QueueRow) -> str:
    """Of one that wasn't answered."""
    if row.status == REFUSED:
        return reason(row)
    return f"it asks for {row.queued.asks} evaluations, and {row.before} were left"


def advice(sheet: QueueSheet, row: QueueRow) -> str:
    """For a question that was put off. With more others before it may be run too, and take some."""
    more = sheet.allowance + row.queued.asks - row.before
    said = f"What to do: raise the allowance to at least {more}"
    limit = row.fitting_limit
    return said + (f", or lower its --max-iterations to {limit} or less." if limit else ".")


def render(sheet: QueueSheet, details: bool = False) -> str:
    return QueueReport(sheet, details).text()


# for programs


def document(sheet: QueueSheet, details: bool = False) -> Dict[str, Any]:
    """The allowance and what became of it, then what each question's own sheet has."""
    return {
        "command": "queue",
        "task": sheet.task.number,
        "version": VERSION,
        "date": sheet.date,
        "label": sheet.label or None,
        "book": jsonsheet.book_document(sheet.book, details),
        "file": sheet.file,
        "allowance": sheet.allowance,
        "taken": sheet.allowance - sheet.left,
        "left": sheet.left,
        "exact": sheet.exact,
        "enough": sheet.enough,
        "counts": {_key(status): len(sheet.of(status)) for status in QueueReport.statuses},
        "questions": [_question(sheet, row, details) for row in sheet.rows],
    }


def _question(sheet: QueueSheet, row: QueueRow, details: bool) -> Dict[str, Any]:
    off = row.status == PUT_OFF
    return {
        **row_document(row, details),
        **(dict.fromkeys(UNKNOWN) if off else {}),
        "status": _key(row.status),
        "question": settings_document(row.sheet.question, details),
        "asks_for": row.queued.asks if row.asked_for_some else None,
        "took": row.queued.took,
        "exact": row.queued.exact,
        "left": row.queued.left,
        "advice": advice(sheet, row) if off else None,
    }


def _key(status: str) -> str:
    return status.replace(" ", "_")


def written(sheet: QueueSheet) -> str:
    """For a spreadsheet."""
    return spreadsheet(sheet, CSV_FIRST, [_cells(sheet, row) for row in sheet.rows])


def _cells(sheet: QueueSheet, row: QueueRow) -> Dict[str, Any]:
    found = _question(sheet, row, False)
    asked = {f"asked_{name}": found["question"][name] for name in ("temperature_K", "pressure_Pa", "max_iterations")}
    counts = {name: csv_cell(found[name]) for name in ("asks_for", "took", "left")}
    return {**csv_cells(found, why(row) if row.status in (REFUSED, PUT_OFF) else ""), **counts, **asked}
