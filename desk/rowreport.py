"""What the sheets of many drums and of a queue's questions have in common: rows that are judged each by itself, their
marks and tables, and a table for a spreadsheet."""

import csv
import io
import math
from typing import Any, Callable, Dict, Iterable, List, Optional, Sequence, Tuple

from . import answer, explain, jsonsheet, text
from .feed import MASSES, Feed
from .jsonsheet import Document
from .listsheet import ANSWERED, MARKED, REFUSED, Row, RowSheet, reason
from .question import Options, Question
from .report import phase_amounts
from .sheet import book_options, feed_words
from .tasks import FLASH
from .units import in_unit

OWN_SHEET = "What holds is on its own sheet:"
NOT_IN_CSV = ("trials", "notes")
BY_SOLVENT = ("fractions", "kilograms", "liquid", "vapor")  # one column for each solvent, none where they aren't known
PHASES = (("liquid", answer.LIQUID), ("vapor", answer.VAPOR))

Lines = List[str]
Cells = Callable[[Row], Optional[str]]


class RowReport:
    statuses = (ANSWERED, MARKED, REFUSED)

    def __init__(self, sheet: RowSheet, details: bool = False):
        self.sheet, self.details, self.task = sheet, details, sheet.task

    def _about(self, books: List[Tuple[str, str]], called: str) -> List[Tuple[str, str]]:
        sheet = self.sheet
        rows = [("Label", sheet.label)] if sheet.label else []
        rows += [("Date", sheet.date), *books, (called, self._counts())]
        absent = [name for place, name in enumerate(sheet.book.names) if place not in sheet.present]
        return rows + ([("Absent", f"{', '.join(absent)} (from every drum)")] if absent else [])

    def _counts(self) -> str:
        sheet = self.sheet
        kinds = sorted({_kind(row.drum.feed) for row in sheet.rows})
        counted = [f"{len(sheet.of(status))} {status}" for status in self.statuses if sheet.of(status)]
        normalized = [row.drum.line for row in sheet.rows if row.drum.feed.given]
        said = f"; normalized: line{'s' if len(normalized) > 1 else ''} {_listed(normalized)}" if normalized else ""
        rows = f"{text.counted(len(sheet.rows), sheet.noun)} in {' and '.join(kinds)}"
        return f"{sheet.file}, {rows}: {', '.join(counted)}{said}"

    @staticmethod
    def _tables(*tables: Lines) -> Lines:
        """Each behind a blank line, where it is there."""
        return [line for table in tables if table for line in ["", *table]]

    # above the numbers

    def _marks(self) -> Lines:
        """Which rows aren't what their numbers say, and the pairs that are out of their range."""
        lines = self._marked()
        for label, where in self.sheet.repeated.items():
            many = f"{len(where)} {self.sheet.noun.upper()}S"
            lines += text.wrapped(f"ONE LABEL FOR {many}: {label}, in lines {_listed(where)}", indent="")
        for line in self._ranges():
            lines += text.wrapped(line, indent="")
        return lines + [""] if lines else []

    def _marked(self) -> Lines:
        untold = [row for row in self.sheet.of(MARKED) if not row.splits]
        lines = self._starred("SPLITS IN TWO LAYERS", [row for row in self.sheet.rows if row.splits])
        lines += self._starred("NOT WHAT IT LOOKS LIKE", untold)
        return lines + self._starred("REFUSED", [row for row in self.sheet.of(REFUSED) if not row.splits])

    def _ranges(self) -> Lines:
        """A line for what is out of its range."""
        raise NotImplementedError

    def _starred(self, words: str, rows: Sequence[Row]) -> Lines:
        return text.marked(f"{words}: {', '.join(row.drum.name for row in rows)}") if rows else []

    # tables, a line for each row

    def _name(self, row: Row) -> str:
        repeated = row.drum.label in self.sheet.repeated
        return row.drum.name if repeated or not row.drum.label else row.drum.label

    def _flash_columns(self) -> List[Tuple[str, Cells]]:
        def bound(at: int, holds: str) -> Cells:
            return lambda row: (
                self._kilopascals(row.sheet.blocks.real(at)) if getattr(row.sheet.judgement, holds) else "not known"
            )

        return [
            ("phases", lambda row: answer.OUTCOMES[row.sheet.blocks.head[answer.OUTCOME]]),
            ("vapor fraction", lambda row: text.fraction(row.sheet.blocks.real(answer.VAPOR_FRACTION), self.details)),
            ("boils from", bound(answer.BUBBLE, "bubble_holds")),
            ("all vapor below", bound(answer.DEW, "dew_holds")),
        ]

    def _effort(self) -> List[Tuple[str, Cells]]:
        """With --details, of a task that iterates."""
        if not self.details:
            return []
        columns = [
            ("iterations", lambda row: str(row.sheet.blocks.head[answer.ITERATIONS])),
            ("residual", lambda row: text.small(row.sheet.blocks.real(answer.RESIDUAL))),
        ]
        if self.task == FLASH:
            columns.append(("evaluations", lambda row: str(row.sheet.blocks.head[answer.EVALUATIONS])))
        return columns

    def _kilopascals(self, pascals: float) -> str:
        return text.plain(in_unit(pascals, "kPa"), self.details)

    def _entry(self, at: int) -> Callable[[Row, int], Optional[str]]:
        def entry(row: Row, place: int) -> Optional[str]:
            liquid, vapor = answer.phases(self.task, row.sheet.blocks)
            there = liquid if at == answer.LIQUID else vapor
            return text.fraction(row.sheet.entries(at)[place], self.details) if there else None

        return entry

    def _by_solvent(self, head: str, entry: Callable[[Row, int], Optional[str]]) -> Lines:
        """A column for each solvent of the list; - where a row has none of it."""
        places, names = self.sheet.present, self.sheet.book.names
        rows = []
        for row in self.sheet.of(ANSWERED):
            cells = [entry(row, place) if place in row.sheet.present() else "-" for place in places]
            if None not in cells:
                rows.append([self._name(row)] + cells)
        return text.table([head] + [names[place] for place in places], rows) if rows else []

    def _phases(self) -> List[Lines]:
        """Compositions of a flash."""
        return [self._composition(name, at) for name, at in PHASES]

    def _composition(self, name: str, at: int) -> Lines:
        return self._by_solvent(f"{name}, mole fractions", self._entry(at))

    def _kilograms(self) -> Lines:
        """Of a flash's phases, where a row was weighed."""
        rows = []
        for row in self.sheet.of(ANSWERED) if self.task == FLASH else []:
            mass, amounts = row.sheet.by_mass, dict(phase_amounts(row.sheet))
            if mass and row.drum.feed.kilograms:
                weights = [row.drum.feed.total] + [_weight(row, name, at, amounts) for name, at in PHASES]
                rows.append([self._name(row)] + [text.plain(weight, self.details) for weight in weights])
        if not rows:
            return []
        return text.table(["kg", "all", "liquid", "vapor"], rows) + text.wrapped(f"Reckoned by this tool: {MASSES}.")

    # below the tables

    def _remarks(self) -> Lines:
        lines: Lines = []
        for row in self.sheet.rows:
            if row.status != ANSWERED:
                lines += [""] + text.wrapped(f"{row.drum.name}: {self._remark(row)}.") + self._advice(row)
        return lines

    def _remark(self, row: Row) -> str:
        number, mark = row.sheet.blocks.refusal, row.sheet.judgement.mark
        said = [f"REFUSED, number {number}: {reason(row)}"] if number else []
        return "; ".join(said + ([mark.line] if mark else []))

    def _advice(self, row: Row) -> Lines:
        if row.sheet.judgement.mark:
            return text.sentences([OWN_SHEET, self._command(row)])
        if row.sheet.blocks.refusal == explain.FRACTIONS_DO_NOT_SUM and explain.detail(row.sheet):
            return text.wrapped("What to do: correct the line, or add --normalize.")
        return text.sentences(explain.advice(row.sheet))

    def _command(self, row: Row) -> str:
        """The row's own sheet, to paste."""
        question, book = row.sheet.question, self.sheet.book
        words = [f"./sheet {self.task.command}", feed_words(book, row.drum.feed)]
        words.append(f"--temperature {text.exact(question.temperature)}K")
        words += [f"--pressure {text.exact(question.pressure)}Pa"] if question.pressure is not None else []
        for name in ("max_iterations", "tolerance", "tm_threshold"):
            value, option = getattr(question.options, name), name.replace("tm_", "").replace("_", "-")
            words += [f"--{option} {value}"] if value != getattr(Options, name) else []
        return " ".join(words + book_options(book))


def _weight(row: Row, name: str, at: int, amounts: Dict[str, float]) -> float:
    """Of a phase, kg."""
    return math.fsum(row.sheet.by_mass.kilograms(row.sheet.entries(at), amounts[name])) if amounts[name] else 0.0


def _kind(feed: Feed) -> str:
    """What a drum was given in."""
    return "micromoles" if feed.charge else "kg" if feed.kilograms else feed.kind


def _listed(numbers: Iterable[int]) -> str:
    *most, last = map(str, numbers)
    return f"{', '.join(most)} and {last}" if most else last


# for programs


def row_document(row: Row, details: bool) -> Dict[str, Any]:
    """What its own sheet has."""
    own = Document(row.sheet, details)
    whole = own.whole()
    names = ("warning", "one_liquid_layer", "refusal", "answer", "by_mass", "pairs")
    return {
        "line": row.drum.line,
        "label": row.drum.label or None,
        "status": row.status,
        **jsonsheet.feed_document(row.drum.feed, own.numbers),
        **{name: whole[name] for name in names},
    }


def settings_document(question: Question, details: bool) -> Dict[str, Any]:
    number = jsonsheet.Numbers((), (), details).number
    return {
        "temperature_K": number(question.temperature),
        "pressure_Pa": number(question.pressure),
        **jsonsheet.options_document(question.options, number),
    }


def spreadsheet(sheet: RowSheet, first: Sequence[str], rows: Sequence[Dict[str, Any]]) -> str:
    """A line for each row, with the numbers of its answer and the names that JSON has for them, to all digits; some
    columns come first."""
    heads = list(first)
    for row in rows:
        heads += [head for head in row if head not in heads]
    out = io.StringIO()
    writer = csv.DictWriter(out, _ordered(heads, sheet), restval="", lineterminator="\n")
    writer.writeheader()
    writer.writerows(rows)
    return out.getvalue()


def _ordered(heads: List[str], sheet: RowSheet) -> List[str]:
    """Columns of one row of solvents side by side, in the book's order."""
    names = [sheet.book.names[place] for place in sheet.present]

    def place(head: str) -> Tuple[int, int]:
        row, _, name = head.partition(" ")
        first = next(k for k, other in enumerate(heads) if other.partition(" ")[0] == row)
        return first, names.index(name) if name in names else -1

    return sorted(heads, key=place)


def csv_cells(row: Dict[str, Any], why: str) -> Dict[str, Any]:
    refusal, warning = row["refusal"], row["warning"]
    found = {name: csv_cell(row[name]) for name in ("line", "label", "status", "one_liquid_layer", "feed")}
    found.update(refusal=refusal["number"] if refusal else "", reason=why, warning=warning["line"] if warning else "")
    given = {"fractions": row["fractions"], "kilograms": row["kilograms"], **(row["answer"] or {})}
    for name, value in given.items():
        if isinstance(value, dict):
            found.update({f"{name} {solvent}": csv_cell(number) for solvent, number in value.items()})
        elif name not in (*NOT_IN_CSV, *BY_SOLVENT):
            found[name] = csv_cell(value)
    return found


def csv_cell(value: Any) -> Any:
    if value is None:
        return ""
    return {True: "yes", False: "no"}[value] if isinstance(value, bool) else value
