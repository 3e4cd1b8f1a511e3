"""Asking for layers: of a drum at T or where it boils at p, and of a pair at every composition."""

from typing import Iterator, Optional, Tuple

from . import answer, tasks, text
from .core import Core
from .explain import FRACTIONS_DO_NOT_SUM, to_paste
from .feed import Feed, by_mass
from .layers import NO_ROOT, Boiling, Layers, boiling_at, boiling_of, in_domain, layers_of
from .layersreport import COMPOSITIONS, LayersSheet
from .liquids import OUT_OF_PRESSURES, SPLITS, Fractions, Liquids, Refused
from .question import Options, Question
from .ranges import ranges_at
from .refusals import line, matter
from .search import NotShown
from .sheet import NamedBook, today
from .tried import Tried



def layers_sheet(
    core: Core,
    book: NamedBook,
    feed: Optional[Feed],
    pair: Optional[Tuple[int, int]],
    kelvin: Optional[float],
    pascals: Optional[float],
    bracket: Tuple[float, float],
    label: str = "",
    tried: Optional[Tried] = None,
) -> LayersSheet:
    liquids = Liquids(core)
    asked = {"book": book, "pair": pair, "kelvin": kelvin, "pascals": pascals, "label": label, "date": today()}
    feed = feed or Feed(splitting(liquids, len(book.names), pair, kelvin, pascals, bracket))
    mass = by_mass(book.molar_masses, feed)
    drum = mass.moles if mass else feed.fractions
    refused = _feed_refused(core, feed, bracket[0] if kelvin is None else kelvin)
    found = {"reason": refused} if refused else _found(liquids, drum, kelvin, pascals, bracket)
    if f"number {FRACTIONS_DO_NOT_SUM}:" in found.get("reason", "") and to_paste(book, feed):
        found["reason"] += f"; add --normalize, or paste {to_paste(book, feed)}"
    layers = found.get("layers")
    at = layers.kelvin if layers else kelvin if pair else found.get("one_layer_at") or kelvin
    ranges = ranges_at(core, book, drum, at) if at is not None and not found.get("reason") else None
    return LayersSheet(**asked, drum=drum, feed=feed, ranges=ranges, tried=tried, **found)


def _feed_refused(core: Core, feed: Feed, kelvin: float) -> str:
    """The core's own questions to a feed by mass or to drums, which the search below it is asked in moles."""
    question = Question(tasks.EXCESS, feed.fractions, kelvin, by_mass=feed.by_mass)
    if feed.charge:
        blocks = core.ask_pooled(question, feed.charge.counts)
    elif feed.by_mass:
        blocks = core.ask(question)
    else:
        return ""
    return _refused(blocks) if blocks.refusal else ""


def _found(
    liquids: Liquids, drum: Fractions, kelvin: Optional[float], pascals: Optional[float], bracket: Tuple[float, float]
) -> dict:
    try:
        if kelvin is None:
            return _at_pressure(liquids, drum, pascals, bracket)
        found = _at_temperature(liquids, drum, kelvin)
        return {**found, **_also_at_pressure(liquids, drum, pascals, bracket)} if pascals is not None else found
    except NotShown as reason:
        return {"reason": str(reason)}


def _at_temperature(liquids: Liquids, drum: Fractions, kelvin: float) -> dict:
    _expect(liquids.core.ask(Question(tasks.EXCESS, drum, kelvin)))
    low, high = Options.bracket
    if not low <= kelvin <= high:
        raise NotShown(f"{text.temperature(kelvin)} lies outside the model's range, {text.interval(low, high)}")
    layers: Optional[Layers] = layers_of(liquids, drum, kelvin)
    if layers is None:
        return {}
    try:
        boiling = boiling_of(liquids, layers)
    except Refused as refused:
        return {
            "layers": layers,
            "no_boiling": f"the core refused a vapor pressure, number {refused.number}: {matter(refused.number)}",
        }
    if not in_domain(boiling.pascals):
        return {"layers": layers, "no_boiling": f"at {text.kilopascals(boiling.pascals)} {matter(OUT_OF_PRESSURES)}"}
    return {"layers": layers, "boiling": boiling}


def _also_at_pressure(liquids: Liquids, drum: Fractions, pascals: float, bracket: Tuple[float, float]) -> dict:
    """Where the drum boils at p, beside its layers at T."""
    found = _at_pressure(liquids, drum, pascals, bracket)
    return {"boils_at": found["boiling"].layers.kelvin if "boiling" in found else found.get("one_layer_at")}


def _at_pressure(liquids: Liquids, drum: Fractions, pascals: float, bracket: Tuple[float, float]) -> dict:
    blocks = liquids.core.ask(
        Question(tasks.BUBBLE_TEMPERATURE, drum, pressure=pascals, options=Options(bracket=bracket))
    )
    if blocks.refusal != NO_ROOT:
        _expect(blocks)
    boiling: Optional[Boiling] = boiling_at(liquids, drum, pascals, bracket)
    if boiling is not None:
        return {"layers": boiling.layers, "boiling": boiling}
    return {"one_layer_at": blocks.real(answer.T)} if blocks.accepted else {}


def _expect(blocks: answer.Blocks) -> None:
    if blocks.refusal:
        raise NotShown(_refused(blocks))


def _refused(blocks: answer.Blocks) -> str:
    return f"the core {line(blocks.refusal, blocks.place, blocks.said)}"


def splitting(
    liquids: Liquids,
    count: int,
    pair: Tuple[int, int],
    kelvin: Optional[float],
    pascals: Optional[float],
    bracket: Tuple[float, float],
) -> Fractions:
    """A composition of the pair whose liquid splits, at T or at its own bubble point; an even one where none is
    found."""
    mixtures = [_mixture(count, pair, x) for x in _halvings()]
    for mixture in mixtures:
        at = kelvin
        if at is None:
            question = Question(tasks.BUBBLE_TEMPERATURE, mixture, pressure=pascals, options=Options(bracket=bracket))
            blocks = liquids.core.ask(question)
            at = blocks.real(answer.T) if blocks.accepted else bracket[0]
        if liquids.trials(mixture, at).kind == SPLITS:
            return mixture
    return mixtures[0]


def _halvings() -> Iterator[float]:
    """1/2, then 1/4 and 3/4, and on."""
    for power in range(1, (COMPOSITIONS + 1).bit_length()):
        yield from (k / 2**power for k in range(1, 2**power, 2))


def _mixture(count: int, pair: Tuple[int, int], x: float) -> Fractions:
    return tuple(x if i == pair[0] else 1 - x if i == pair[1] else 0.0 for i in range(count))
