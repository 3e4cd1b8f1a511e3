"""A list of drums: a table as CSV with a line for each drum, a column for each solvent and one for the label.

    label;ethanol (kg);water (kg)
    drum 17;40;12,5

A queue's questions have columns for what differs from line to line besides, as temperature and pressure. Every line is
read before anything is asked, and what can't be read is said with its line."""

import csv
import io
import re
from dataclasses import dataclass, field
from decimal import Decimal
from typing import Any, Callable, Dict, Iterator, List, NamedTuple, Optional, Sequence, Tuple

from . import files, units
from .errors import CoreRefusal, DeskError, quoted, suggestion
from .feed import Feed
from .openbook import Amount, drum_of, place_of
from .sheet import NamedBook

LABELS = ("label", "drum")
LABEL, SOLVENT, SETTING, SKIPPED, NAMELESS = "label", "solvent", "setting", "skipped", "nameless"
PERCENT = "%"
UNITS = (PERCENT, *units.WEIGHT_UNITS, *units.MOLE_UNITS)
SEPARATORS = (";", "\t", ",")
MOST_BYTES = 1 << 26
DECIMAL_COMMA = re.compile(r"([^.,]*),([^.,]*)")
MOST_NAMED = 5  # lines in a complaint


class Setting(NamedTuple):
    """A column that isn't a solvent's: how its head may begin, the units that may stand in it, and how a cell is
    read."""

    name: str
    heads: Tuple[str, ...]
    units: Tuple[str, ...]
    read: Callable[[str, str], Any]


@dataclass(frozen=True)
class Listed:
    """A drum, where it stands, and what its line gives of the settings."""

    line: int
    label: str
    feed: Feed
    given: Dict[str, Any] = field(default_factory=dict)

    @property
    def name(self) -> str:
        return f"{self.label} (line {self.line})" if self.label else f"line {self.line}"


class Column(NamedTuple):
    """What its cells are; of a solvent its place in the book, of a setting that; and the unit in the head."""

    kind: str
    head: str
    place: Optional[int] = None
    unit: str = ""
    setting: Optional[Setting] = None


class Row(NamedTuple):
    line: int
    cells: List[str]


def read(
    path: str,
    book: NamedBook,
    by_mass: bool = False,
    normalize: bool = False,
    skip: Sequence[str] = (),
    settings: Sequence[Setting] = (),
) -> List[Listed]:
    """Bare numbers are mole fractions, or mass fractions with `by_mass`. Columns of the names in `skip` are passed
    over."""
    separator, rows = _rows(path)
    if not rows:
        raise DeskError(f"{path} is empty; the table begins with a line of names")
    skipped = _skipped(path, rows[0].cells, skip)
    columns = _columns(f"{path}, line {rows[0].line}", rows[0].cells, book, skipped, settings)
    found: List[Listed] = []
    wrong: List[Tuple[int, str]] = []
    for row in rows[1:]:
        try:
            found.append(_drum(row, columns, book, separator, by_mass, normalize))
        except CoreRefusal:
            raise
        except DeskError as error:
            words = str(error)
            wrong.append((row.line, words if words.startswith("line ") else f"line {row.line}: {words}"))
    if wrong:
        raise DeskError(f"{path}, {wrong[0][1]}{_others([line for line, _ in wrong[1:]])}")
    if not found:
        raise DeskError(f"{path} has nothing below its line of names")
    return found


def _others(lines: List[int]) -> str:
    if not lines:
        return ""
    more = " and others" if len(lines) > MOST_NAMED else ""
    return f"; line{'s' if len(lines) > 1 else ''} {', '.join(map(str, lines[:MOST_NAMED]))}{more} can't be read either"


def _rows(path: str) -> Tuple[str, List[Row]]:
    """What separates the cells, and the lines that hold something."""
    content = files.read(path, "a table", MOST_BYTES)
    try:
        text = content.decode("utf-8-sig")
    except UnicodeDecodeError:
        text = "\0"
    if "\0" in text:
        raise DeskError(f"{path} is not a table: no text in UTF-8; save the table as CSV, in UTF-8")
    head = next((line for line in text.splitlines() if line.strip()), "")
    separator = next((sign for sign in SEPARATORS if sign in head), SEPARATORS[-1])
    return separator, [row for row in _numbered(path, text, separator) if any(row.cells)]


def _numbered(path: str, text: str, separator: str) -> Iterator[Row]:
    """Each with the number of its first line, and cells without blanks around them."""
    reader = csv.reader(io.StringIO(text, newline=""), delimiter=separator, skipinitialspace=True, strict=True)
    before = 0
    try:
        for cells in reader:
            yield Row(before + 1, [" ".join(cell.split()) for cell in cells])
            before = reader.line_num
    except csv.Error:
        words = "a cell in quotes doesn't end, or something stands behind it"
        raise DeskError(f"{path}, line {before + 1}: {words}") from None


def _skipped(path: str, heads: List[str], skip: Sequence[str]) -> List[str]:
    for name in skip:
        if name.lower() not in (head.lower() for head in heads):
            raise DeskError(f"--skip: {quoted(name)} is no column of {path}{suggestion(name, filter(None, heads))}")
    return [name.lower() for name in skip]


def _columns(
    where: str, heads: List[str], book: NamedBook, skip: List[str], settings: Sequence[Setting]
) -> List[Column]:
    columns: List[Column] = []
    for head in heads:
        column = Column(SKIPPED, head) if head.lower() in skip else _column(where, head, book, settings)
        same = [other for other in columns if _what(other) == _what(column)]
        if same and column.kind in (LABEL, SOLVENT, SETTING):
            what = column.setting.name if column.setting else column.kind
            raise DeskError(f"{where}: {quoted(same[0].head)} and {quoted(head)} are two columns of one {what}")
        columns.append(column)
    if not any(column.kind == SOLVENT for column in columns):
        raise DeskError(f"{where} names no solvent of {book.file}, which has {', '.join(book.names)}")
    return columns


def _what(column: Column) -> Tuple[Any, ...]:
    return column.kind, column.place, column.setting


def _column(where: str, head: str, book: NamedBook, settings: Sequence[Setting]) -> Column:
    """A name may be followed by a unit, in brackets or without."""
    if not head or head.lower() in LABELS:
        return Column(LABEL if head else NAMELESS, head)
    if _place(head, book) is not None:
        return Column(SOLVENT, head, _place(head, book))
    for setting in settings:
        found = _setting(where, head, setting)
        if found:
            return found
    name, _, behind = head.partition(" ")
    unit = behind.strip("()[] ")
    if _place(name, book) is None or not unit:
        names = ["'label'", *(quoted(setting.name) for setting in settings)]
        known = f"which has {', '.join(book.names)}; --skip passes over a column{suggestion(name, book.names)}"
        raise DeskError(
            f"{where}: {quoted(head)} is neither {', '.join(names)} nor a solvent of {book.file}, {known}"
        )
    return Column(SOLVENT, head, _place(name, book), _unit(where, head, unit, UNITS))


def _setting(where: str, head: str, setting: Setting) -> Optional[Column]:
    """Where the head is that of the setting, alone or with a unit."""
    lowered = head.lower().replace("-", " ")
    for name in setting.heads:
        if lowered == name:
            return Column(SETTING, head, setting=setting)
        if lowered.startswith(f"{name} ") and setting.units:
            unit = head[len(name) :].strip("()[] ")
            return Column(SETTING, head, unit=_unit(where, head, unit, setting.units), setting=setting)
    return None


def _unit(where: str, head: str, unit: str, known: Sequence[str]) -> str:
    if unit not in known:
        raise DeskError(
            f"{where}: unit {quoted(unit)} in {quoted(head)} is none of {', '.join(known)}{suggestion(unit, known)}"
        )
    return unit


def _place(name: str, book: NamedBook) -> Optional[int]:
    try:
        return place_of(book, name)
    except DeskError:
        return None


def _drum(
    row: Row, columns: List[Column], book: NamedBook, separator: str, by_mass: bool, normalize: bool
) -> Listed:
    where = f"line {row.line}"
    if len(row.cells) < len(columns):
        missing = ", ".join(column.head or "a column without a name" for column in columns[len(row.cells) :])
        raise DeskError(f"{where} ends after {len(row.cells)} of {len(columns)} columns: {missing} is missing")
    beyond = [cell for cell, column in zip(row.cells, columns) if cell and column.kind == NAMELESS]
    beyond += [cell for cell in row.cells[len(columns) :] if cell]
    if beyond:
        raise DeskError(f"{where}: {quoted(beyond[0])} stands in a column that has no name")
    label = next((cell for cell, column in zip(row.cells, columns) if column.kind == LABEL), "")
    amounts: Dict[int, Amount] = {}
    for cell, column in zip(row.cells, columns):
        if cell and column.kind == SOLVENT:
            name = book.names[column.place]
            amounts[column.place] = Amount(name, _value(cell, column.unit, separator, f"{where}: {name}"))
    if not amounts:
        raise DeskError(f"{where}: {quoted(label) if label else 'the drum'} has no amounts")
    given = {
        column.setting.name: column.setting.read(
            _with_unit(cell, column.unit, separator, f"{where}: {column.setting.name}"),
            f"{where}: {column.setting.name}",
        )
        for cell, column in zip(row.cells, columns)
        if cell and column.kind == SETTING
    }
    return Listed(row.line, label, drum_of(book, amounts, by_mass, normalize, where), given)


def _pointed(cell: str, separator: str) -> str:
    """Where cells aren't separated by commas, a comma is a decimal point."""
    comma = DECIMAL_COMMA.fullmatch(cell) if separator != "," else None
    return ".".join(comma.groups()) if comma else cell


def _with_unit(cell: str, unit: str, separator: str, what: str) -> str:
    """With the unit of its column, where it has none of its own."""
    value = _pointed(cell, separator)
    if unit and units.has_unit(value):
        raise DeskError(f"{what}: {quoted(cell)} has a unit, and its column too, {unit}")
    return value + unit


def _value(cell: str, unit: str, separator: str, what: str) -> str:
    """As --drum takes it."""
    value = _pointed(cell, separator)
    if "," in value or not (units.is_bare(value) or units.has_unit(value)):
        raise DeskError(f"{what}: {quoted(cell)} is not a number")
    if unit and not units.is_bare(value):
        raise DeskError(f"{what}: {quoted(cell)} has a unit, and its column too, {unit}")
    if unit == PERCENT or not units.is_bare(value) and units.spaced(value).endswith(f" {PERCENT}"):
        return str(Decimal(value.rstrip(f"{PERCENT} ")).scaleb(-2))
    return value + unit
