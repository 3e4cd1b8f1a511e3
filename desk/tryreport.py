"""What the sheet of a preview shows: that it is one, the words in which the pair that is tried differs from the book's,
and the numbers by both."""

from typing import List, Optional, Tuple, Union

from . import answer, text
from .sheet import NamedBook, Sheet, book_words
from .tasks import BUBBLE_PRESSURE, BUBBLE_TEMPERATURE, DEW_TEMPERATURE, EXCESS, FLASH, STABILITY
from .tried import Tried, value_of

IN_THE_BOOK, AS_TRIED = "in the book", "as tried"
NOT_WRITTEN = "nothing is written into the book"

Lines = List[str]
Rows = List[Tuple[str, str]]


def title(words: str, tried: Optional[Tried]) -> str:
    return f"PREVIEW, {words}" if tried else words


def book_rows(book: NamedBook, tried: Optional[Tried], details: bool) -> Rows:
    """For the head of a sheet: the book as it is, and the pair that stands in for its own."""
    if not tried:
        return [("Book", book_words(book, details))]
    said = f"{tried.pair}, from {tried.offered.source}, in place of the book's own pair; {NOT_WRITTEN}"
    return [("Book", book_words(tried.book, details)), ("Tried", said)]


def stars(tried: Optional[Tried]) -> Lines:
    """Above the numbers."""
    if not tried:
        return []
    return text.marked(f"PREVIEW: {tried.pair} as tried, not as in the book") + [""]


def tables(tried: Optional[Tried], details: bool, sheet: Optional[Sheet] = None) -> Lines:
    """Below the numbers: the pair, and where there is a sheet by the book its numbers too, side by side."""
    if not tried or tried.refusal or not tried.places:
        return []
    lines = [""] + _pair_table(tried, details)
    if not sheet or not tried.own:
        return lines
    absent = tried.absent(sheet.present())
    if sheet.question.k_values is not None:
        return lines + text.wrapped("A split by given K values reads no pair: it is as by the book.")
    if absent:
        said = f"The drum holds no {' and no '.join(absent)}: the pair doesn't show in what it holds"
        if sheet.question.task == EXCESS:
            return lines + text.wrapped(f"{said}, only in coefficients at infinite dilution.")
        return lines + text.wrapped(f"{said}, and all is as by the book.")
    return lines + [""] + _answers(sheet, tried.own, details)


def _pair_table(tried: Tried, details: bool) -> Lines:
    own, offered = tried.words()
    rows = [
        (word.name, _written(value_of(own, word), details), _written(value_of(offered, word), details))
        for word in tried.differing()
    ]
    if not rows:
        return [f"  the pair tried, {tried.pair}, is the book's own, word by word"]
    return text.table((f"pair of {tried.pair}", IN_THE_BOOK, AS_TRIED), rows)


def _written(value: Union[float, bool, None], details: bool) -> str:
    if value is None or isinstance(value, bool):
        return {None: "-", True: "yes", False: "no"}[value]
    return text.plain(value, details)


# numbers by both


def _answers(sheet: Sheet, own: Sheet, details: bool) -> Lines:
    columns = [dict(_numbers(own, details)), dict(_numbers(sheet, details))]
    names = dict.fromkeys([*columns[1], *columns[0]])
    rows = [[name] + [found.get(name, "-") for found in columns] for name in names]
    lines = text.table(("side by side", "by the book", AS_TRIED), rows)
    bracketed = any(cell.startswith("(") for row in rows for cell in row)
    return lines + (text.wrapped("In brackets: numbers of one liquid, which the drum isn't.") if bracketed else [])


def _numbers(sheet: Sheet, details: bool) -> Rows:
    """What a sheet says, in short: whether its liquid is one, then its numbers, in brackets where it isn't."""
    blocks, judgement = sheet.blocks, sheet.judgement
    layer = {True: sheet.book.one_layer_words(sheet.present()).split(" (")[0], False: "NO", None: "not tested"}
    verdict = [("one liquid layer", layer[judgement.one_layer])]
    if blocks.refusal:
        return [("refused", f"number {blocks.refusal}")] + (verdict if judgement.mark else [])
    vapor = blocks.head[answer.OUTCOME] == answer.VAPOR_ONLY and not judgement.mark
    found = _found(sheet, details)
    return ([] if vapor else verdict) + ([(name, f"({value})") for name, value in found] if judgement.mark else found)


def _found(sheet: Sheet, details: bool) -> Rows:
    blocks, task = sheet.blocks, sheet.question.task
    rows: Rows = []
    if task == STABILITY:
        return rows
    if task == EXCESS:
        rows.append(("excess Gibbs energy / RT", text.plain(blocks.real(answer.ENERGIES), details)))
        return rows + _entries(sheet, "ln gamma", answer.LIQUID, details)
    if task == FLASH:
        rows.append(("phases", answer.OUTCOMES.get(blocks.head[answer.OUTCOME], "unknown")))
        rows.append(("vapor fraction", text.fraction(blocks.real(answer.VAPOR_FRACTION), details)))
        judgement = sheet.judgement
        bounds = [("boils from", answer.BUBBLE, judgement.bubble_holds)]
        bounds.append(("all vapor below", answer.DEW, judgement.dew_holds))
        rows += [(name, _pressure(blocks.real(at), details) if holds else "not known") for name, at, holds in bounds]
        liquid, vapor = answer.phases(task, blocks)
        return (
            rows
            + (_entries(sheet, "liquid", answer.LIQUID, details) if liquid else [])
            + (_entries(sheet, "vapor", answer.VAPOR, details) if vapor else [])
        )
    if task in (BUBBLE_TEMPERATURE, DEW_TEMPERATURE):
        rows.append(("temperature", text.celsius(blocks.real(answer.T), details)))
    else:
        rows.append(("pressure", _pressure(blocks.real(answer.P), details)))
    if task in (BUBBLE_PRESSURE, BUBBLE_TEMPERATURE):
        return rows + _entries(sheet, "first bubble", answer.VAPOR, details)
    return rows + _entries(sheet, "first drop", answer.LIQUID, details)


def _pressure(pascals: float, details: bool) -> str:
    return text.pressure(pascals, True) if details else text.kilopascals(pascals)


def _entries(sheet: Sheet, name: str, at: int, details: bool) -> Rows:
    found = sheet.entries(at)
    return [(f"{name} {sheet.book.names[i]}", text.fraction(found[i], details)) for i in sheet.present()]
