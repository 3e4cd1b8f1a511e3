"""The sheet of many drums as text, CSV and JSON."""

from typing import Any, Dict, List, Tuple

from . import answer, jsonsheet, ranges, text, tryreport
from .listsheet import ANSWERED, REFUSED, ListSheet, Row, reason
from .report import BUBBLE_POINTS, shown_exp
from .rowreport import Cells, Lines, RowReport, csv_cells, row_document, settings_document, spreadsheet
from .tasks import EXCESS, FLASH, STABILITY
from .version import VERSION

LABEL_HEAD, VERDICT_HEAD = "drum", "one liquid layer"
CSV_FIRST = ("line", "label", "status", "refusal", "reason", "warning", "one_liquid_layer", "feed")


class ListReport(RowReport):
    def text(self) -> str:
        lines = self.head() + [text.RULE] + tryreport.stars(self.sheet.tried) + self._marks() + self._table()
        lines += self._tables(*self._compositions(), self._kilograms()) + self._remarks()
        found = ranges.table(self.sheet.ranges)
        tried = tryreport.tables(self.sheet.tried, self.details)
        return "\n".join(lines + ([""] + found if found else []) + tried) + "\n"

    def head(self) -> Lines:
        sheet, question = self.sheet, self.sheet.question
        rows = self._about(tryreport.book_rows(sheet.book, sheet.tried, self.details), "Drums")
        rows.append(("T asked", text.temperature(question.temperature, self.details)))
        if question.pressure is not None:
            rows.append(("p asked", text.pressure(question.pressure, self.details)))
        rows += [("Task", f"{self.task.number}, {self.task.function}")] if self.details else []
        title = f"{self.task.title.upper()}, MANY DRUMS: {self.task.about}"
        return [tryreport.title(title, sheet.tried)] + text.fields(rows)

    def _ranges(self) -> Lines:
        """Of all drums at their one temperature."""
        return [line for line in [self.sheet.ranges.line()] if line]

    # tables, a line for each drum

    def _table(self) -> Lines:
        columns = self._columns()
        rows = [
            [self._name(row), self._verdict(row)] + [cells(row) or "" for _, cells in columns]
            for row in self.sheet.rows
        ]
        words = (0, 1, 2) if self.task == FLASH else (0, 1)
        lines = text.table([LABEL_HEAD, VERDICT_HEAD] + [head for head, _ in columns], rows, words)
        return lines + (["  pressures in kPa"] if self.task == FLASH else [])

    def _verdict(self, row: Row) -> str:
        number, judgement = row.sheet.blocks.refusal, row.sheet.judgement
        if number:
            return f"{'NO, ' if row.splits else ''}REFUSED ({number})"
        if judgement.mark:
            return "NO, IT SPLITS" if row.splits else "NOT TESTED" if judgement.mark.kind == "untested" else "SEE BELOW"
        if judgement.one_layer is None:
            return "no liquid"
        return "yes" if row.sheet.book.shows_layers(row.sheet.present()) else "assumed"

    def _columns(self) -> List[Tuple[str, Cells]]:
        """Numbers of ordinary answers alone: nobody takes those of a liquid that splits for its own."""
        columns = {
            EXCESS: self._excess_columns, STABILITY: self._stability_columns, FLASH: self._flash_columns
        }.get(self.task, self._saturation_columns)()
        columns += self._effort() if self.task not in (EXCESS, STABILITY) else []
        return [(head, _ordinary(cells)) for head, cells in columns]

    def _excess_columns(self) -> List[Tuple[str, Cells]]:
        return [("g^E/RT", lambda row: text.fraction(row.sheet.blocks.real(answer.ENERGIES), self.details))]

    def _stability_columns(self) -> List[Tuple[str, Cells]]:
        return [("trials", lambda row: str(len(row.sheet.blocks.trials)))]

    def _saturation_columns(self) -> List[Tuple[str, Cells]]:
        head = "begins to boil at, kPa" if self.task in BUBBLE_POINTS else "begins to condense at, kPa"
        return [(head, lambda row: self._kilopascals(row.sheet.blocks.real(answer.P)))]

    def _compositions(self) -> List[Lines]:
        """Of the phases that the task gives."""
        if self.task == STABILITY:
            return []
        if self.task == EXCESS:
            return [self._by_solvent("gamma", self._gamma)]
        if self.task == FLASH:
            return self._phases()
        name, at = ("first bubble", answer.VAPOR) if self.task in BUBBLE_POINTS else ("first drop", answer.LIQUID)
        return [self._composition(name, at)]

    def _gamma(self, row: Row, place: int) -> str:
        return text.plain(shown_exp(row.sheet.entries(answer.LIQUID)[place]), self.details)


def _ordinary(cells: Cells) -> Cells:
    return lambda row: cells(row) if row.status == ANSWERED else None


def render(sheet: ListSheet, details: bool = False) -> str:
    return ListReport(sheet, details).text()


# for programs


def document(sheet: ListSheet, details: bool = False) -> Dict[str, Any]:
    """What holds for all of them once, then what each drum's own sheet has."""
    return {
        "command": sheet.task.command,
        "task": sheet.task.number,
        "version": VERSION,
        "date": sheet.date,
        "label": sheet.label or None,
        **({"preview": jsonsheet.preview_document(sheet.tried, details, own=False)} if sheet.tried else {}),
        "book": jsonsheet.book_document(sheet.tried.book if sheet.tried else sheet.book, details),
        "file": sheet.file,
        "question": settings_document(sheet.question, details),
        "counts": {status: len(sheet.of(status)) for status in ListReport.statuses},
        "drums": [row_document(row, details) for row in sheet.rows],
    }


def written(sheet: ListSheet) -> str:
    """For a spreadsheet."""
    rows = [csv_cells(row_document(row, False), reason(row) if row.status == REFUSED else "") for row in sheet.rows]
    first = list(CSV_FIRST)
    if sheet.tried:
        first.insert(0, "preview")
        rows = [{"preview": f"{sheet.tried.pair} as tried, not as in the book", **row} for row in rows]
    return spreadsheet(sheet, first, rows)
