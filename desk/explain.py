"""A refusal in the words of this sheet: what the drum, the temperatures and the book themselves show about it."""

import math
from typing import Iterator, List, Tuple

from . import places, refusals, tasks, text
from .book import decode, model_word, version_of
from .errors import DeskError
from .feed import Feed, normalized
from .question import Options
from .sheet import NamedBook, Sheet, drum_words

FRACTIONS_DO_NOT_SUM, SUM_TOLERANCE = 18, 1e-10
OUT_OF_DOMAIN, NOT_CONVERGED = 22, 27
NOT_NORMALIZABLE, MOLAR_MASS, MODEL = 34, 35, 37
DRUMS, TOTAL = 31, 32


def detail(sheet: Sheet) -> str:
    """What there is to say of the refusal in this sheet's own names and numbers."""
    number = sheet.blocks.refusal
    if sheet.blocks.place != places.NOWHERE:
        return places.named(sheet.blocks.place, sheet.book.names, sheet.tried.names if sheet.tried else None)
    if number == FRACTIONS_DO_NOT_SUM and not _sums(sheet):
        return f"as given they sum to {math.fsum(sheet.feed.fractions):.12g}"
    if number == OUT_OF_DOMAIN:
        return "; ".join(_violations(sheet.book, _temperatures(sheet)))
    if number == NOT_NORMALIZABLE and sheet.feed.by_mass and sheet.by_mass is None:
        return ", ".join(f"the moles of {name} at {mass:g} kg/mol" for name, mass in _too_light(sheet))
    if number == NOT_NORMALIZABLE:
        split = ", or a phase of the flash" if sheet.question.task == tasks.FLASH else ""
        return f"the dew point's liquid{split}"
    if number == DRUMS and sheet.feed.charge:
        return f"{len(sheet.feed.charge.drums)} were given"
    if number == TOTAL and sheet.feed.charge:
        return f"{sheet.feed.charge.total} in all"
    if number == MOLAR_MASS:
        return ", ".join(f"{name} {mass:g} kg/mol" for name, mass in _masses(sheet.book) if not 0 < mass < math.inf)
    if number == MODEL:
        content = sheet.book.content
        return f"word 3 of its first block is {model_word(content)}, in version {version_of(content)}"
    return ""


def sentences(sheet: Sheet) -> List[str]:
    """The core's sentence behind its number's name, then this sheet's own detail and what to do."""
    here = detail(sheet)
    return [f"REFUSED, number {sheet.blocks.sentence}", *([f"Here: {here}."] if here else []), *advice(sheet)]


def line(sheet: Sheet) -> str:
    """In one line."""
    blocks = sheet.blocks
    return ": ".join(filter(None, (refusals.line(blocks.refusal, blocks.place, blocks.said), detail(sheet))))


def _masses(book: NamedBook) -> List[Tuple[str, float]]:
    return list(zip(book.names, book.molar_masses or ()))


def _too_light(sheet: Sheet) -> Iterator[Tuple[str, float]]:
    """The solvents whose moles overflow."""
    return (pair for pair, w in zip(_masses(sheet.book), sheet.feed.fractions) if not math.isfinite(w / pair[1]))


def hint(sheet: Sheet) -> str:
    """For the one line on standard error: what to paste."""
    if sheet.blocks.refusal != FRACTIONS_DO_NOT_SUM or _sums(sheet):
        return ""
    pasted = to_paste(sheet.book, sheet.feed)
    return f"; add --normalize, or paste {pasted}" if pasted else ""


def _sums(sheet: Sheet) -> bool:
    return abs(sum(sheet.feed.fractions) - 1) <= SUM_TOLERANCE


def advice(sheet: Sheet) -> List[str]:
    """Sentences: what holds instead where the liquid splits, else what the number's entry says."""
    number = sheet.blocks.refusal
    if sheet.offered_refused:
        return [f"What to do: {refusals.OFFERED[number]}."]
    if sheet.judgement.mark:
        kept = [f"{refusals.KEPT}."] if number == NOT_CONVERGED else []
        return [*sheet.judgement.mark.advice, *kept]
    if number == FRACTIONS_DO_NOT_SUM and not _sums(sheet):
        pasted = to_paste(sheet.book, sheet.feed)
        look = f"What to do: look at {_option(sheet.feed)}."
        return ["What to do: add --normalize, or paste", pasted] if pasted else [look]
    if number == NOT_CONVERGED and sheet.question.task.takes_options and not sheet.book.shows_layers(sheet.present()):
        return [f"What to do: {refusals.HIGHER}; look at the data of its pairs. {refusals.KEPT}."]
    return [f"What to do: {refusals.advice(number, sheet.question.task.command)}."]


def to_paste(book: NamedBook, feed: Feed) -> str:
    whole = normalized(feed.fractions)
    if whole == feed.fractions or min(whole) < 0:
        return ""
    return f"{_option(feed)} {drum_words(book, whole, 12)}"


def _option(feed: Feed) -> str:
    return "--mass" if feed.by_mass else "--drum"


def _temperatures(sheet: Sheet) -> Tuple[float, ...]:
    asked = sheet.question.temperature
    return sheet.question.options.bracket if asked is None else (asked,)


def _violations(book: NamedBook, kelvins: Tuple[float, ...]) -> Iterator[str]:
    """Each range that a temperature leaves, with its bounds."""
    for kelvin in kelvins:
        for what, low, high in _ranges(book):
            if not low <= kelvin <= high:
                side = "below" if kelvin < low else "above"
                yield (
                    f"{text.temperature(kelvin)} lies {side} {what}, {text.interval(low, high)} ({low:g} to {high:g} K)"
                )


def _ranges(book: NamedBook) -> Iterator[Tuple[str, float, float]]:
    yield ("the model's range", *Options.bracket)
    try:
        solvents = decode(book.content).solvents
    except DeskError:
        return
    for name, solvent in zip(book.names, solvents):
        yield f"the range of {name}'s vapor pressure", solvent.vapor_pressure.low, solvent.vapor_pressure.high
        vapor, density = solvent.vapor_pressure, solvent.density
        if (vapor.low, vapor.high) != (density.low, density.high):
            yield f"the range of {name}'s density", density.low, density.high
