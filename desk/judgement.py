"""Is the sheet what it looks like? The core's own trials of the sheet's liquid, and what holds where it splits.

Bubble points: the liquid at the T found; dew points: the first drop; flashes: the liquid, and a vapor's first drop at
T; refusals: the drum's liquid. A split by given K values: its vapor fraction and residual."""

import math
from dataclasses import dataclass, replace
from typing import Callable, Dict, Iterator, List, Optional, Tuple

from . import answer, tasks, text
from .core import Core
from .drops import Drop, drop_at, drop_under
from .feed import Feed, by_mass
from .layers import Boiling, boiling_at, boiling_of, layers_of
from .liquids import ONE_LAYER, OUT_OF_PRESSURES, SPLITS, UNTESTED, Fractions, Liquids, Refused, Verdict, spread
from .question import Question
from .refusals import matter
from .search import NotShown
from .sheet import NamedBook, book_options, feed_words

MAY_SPLIT = (26, 27, 28, 29, 30)  # refusals that a liquid in two layers can lead to
NO_RESIDUAL = 1e-5
SPLIT_LINE = "THE LIQUID SPLITS IN TWO LAYERS: {}"
UNTESTED_LINE = "THE LIQUID COULD NOT BE TESTED: it may split in two layers"


@dataclass(frozen=True)
class Mark:
    """A sheet that isn't what it looks like: one line that nobody overlooks, and sentences of advice."""

    kind: str
    line: str
    advice: Tuple[str, ...]


@dataclass(frozen=True)
class Judgement:
    """`one_layer` is the trials' verdict on the sheet's liquid, None where there is none. Of a flash also: whether its
    bubble and dew pressures are those of stable liquids."""

    mark: Optional[Mark] = None
    one_layer: Optional[bool] = None
    bubble_holds: bool = True
    dew_holds: bool = True


def judged(
    core: Core,
    book: NamedBook,
    question: Question,
    blocks: answer.Blocks,
    advise: bool = True,
    feed: Optional[Feed] = None,
) -> Judgement:
    """With `advise` false the verdict alone: what holds instead isn't searched. `feed` is the question's as it was
    given, for a command to paste."""
    return Judge(core, book, question, blocks, advise, feed).judgement()


class Judge:
    def __init__(
        self,
        core: Core,
        book: NamedBook,
        question: Question,
        blocks: answer.Blocks,
        advise: bool = True,
        feed: Optional[Feed] = None,
    ):
        self.liquids = Liquids(core)
        self.book, self.question, self.blocks, self._advise = book, question, blocks, advise
        self._feed = feed or Feed(question.fractions, question.by_mass)
        mass = by_mass(book.molar_masses, self._feed)
        self.drum = mass.moles if mass else question.fractions  # mole fractions, wherever the core has converted

    def judgement(self) -> Judgement:
        task = self.question.task
        if task.takes_k:
            return Judgement(self._split_mark() if self.blocks.accepted else None)
        if self.blocks.refusal:
            return self._refused()
        found = _BY_COMMAND[task.command](self)
        if found.mark or task in (tasks.EXCESS, tasks.STABILITY):
            return found
        return replace(found, mark=self._residual_mark())

    def _residual_mark(self) -> Optional[Mark]:
        """A residual or balance that is none: the core tests both, so this stands against a program that isn't the
        core."""
        for name, at in (("residual", answer.RESIDUAL), ("balance", answer.BALANCE)):
            value = self.blocks.real(at)
            if not abs(value) <= NO_RESIDUAL:
                line = f"THIS IS NO EQUILIBRIUM: a {name} of {text.small(value)} is none"
                return Mark("no equilibrium", line, ("What to do: ask with a smaller --tolerance.",))
        return None

    def entries(self, at: int) -> Fractions:
        return tuple(self.blocks.real(at + place) for place in range(len(self.drum)))

    # the liquid of an answer

    def _of(self, verdict: Verdict, words: str, truth: Callable[[], Iterator[str]]) -> Judgement:
        if verdict.kind == UNTESTED:
            reason = f"The core refused the liquid's trials with number {verdict.number}: {matter(verdict.number)}."
            return Judgement(Mark("untested", UNTESTED_LINE, (reason,)))
        if verdict.kind != SPLITS:
            return Judgement(one_layer=True)
        return Judgement(Mark("splits", SPLIT_LINE.format(words), self._said(truth)), one_layer=False)

    def excess(self) -> Judgement:
        verdict = self.liquids.trials(self.drum, self.question.temperature)
        return self._of(verdict, "these are no liquid's coefficients", self._layers_at_temperature)

    def stability(self) -> Judgement:
        verdict = self.liquids.trials(self.drum, self.question.temperature)
        return self._of(verdict, "it is no single liquid", self._layers_at_temperature)

    def bubble(self) -> Judgement:
        verdict = self.liquids.trials(self.drum, self.blocks.real(answer.T))
        return self._of(verdict, "this is not its boiling point", self._boils)

    def dew(self) -> Judgement:
        verdict = self.liquids.trials(self.entries(answer.LIQUID), self.blocks.real(answer.T))
        return self._of(verdict, "this is not the dew point", self._condenses)

    def flash(self) -> Judgement:
        kelvin = self.question.temperature
        feed, drop = self.liquids.trials(self.drum, kelvin), self._drop_verdict()
        if self.blocks.head[answer.OUTCOME] == answer.VAPOR_ONLY:
            found = self._of(drop, "this vapor's first drop is no liquid", self._state)
            found = found if found.mark else replace(found, one_layer=None)
        else:
            verdict = self.liquids.trials(self.entries(answer.LIQUID), kelvin)
            found = self._of(verdict, "this is not the state of the drum", self._state)
        return replace(found, bubble_holds=feed.one_layer is True, dew_holds=drop.one_layer is True)

    def _drop_verdict(self) -> Verdict:
        """The first drop at the flash's T: task 3's liquid, or the desk's where its pressure is out of the core's
        range."""
        kelvin = self.question.temperature
        blocks = self.liquids.core.ask(Question(tasks.DEW_PRESSURE, self.drum, kelvin, options=self.question.options))
        if blocks.accepted:
            return self.liquids.trials(tuple(blocks.real(answer.LIQUID + i) for i in range(len(self.drum))), kelvin)
        try:
            drop = drop_at(self.liquids, self.drum, kelvin)
        except NotShown:
            return Verdict(UNTESTED, number=blocks.refusal)
        same = math.isclose(drop.pascals, self.blocks.real(answer.DEW), rel_tol=1e-6)
        return Verdict(ONE_LAYER) if same else Verdict(SPLITS)

    # a refusal

    def _refused(self) -> Judgement:
        if not self._may_split() or not self.liquids.splits_at_one_of(self.drum, self._temperatures()):
            return Judgement()
        command = self.question.task.command
        truth = (
            self._boils
            if command.startswith("bubble")
            else self._condenses
            if command.startswith("dew")
            else self._state
        )
        words = f"the core refused (number {self.blocks.refusal})"
        return Judgement(Mark("splits", SPLIT_LINE.format(words), self._said(truth)), one_layer=False)

    def _may_split(self) -> bool:
        """A pressure out of range (23) that was found, not asked, may be that of a liquid that isn't one."""
        found_pressure = self.question.pressure is None and self.blocks.refusal == OUT_OF_PRESSURES
        return found_pressure or self.blocks.refusal in MAY_SPLIT

    def _temperatures(self) -> List[float]:
        """The one asked; or the core's bubble point at the pressure asked; or, without one, some of the bracket."""
        question = self.question
        if question.temperature is not None:
            return [question.temperature]
        blocks = self.liquids.core.ask(replace(question, task=tasks.BUBBLE_TEMPERATURE))
        return [blocks.real(answer.T)] if blocks.accepted else spread(question.options.bracket)

    # what holds instead

    def _said(self, truth: Callable[[], Iterator[str]]) -> Tuple[str, ...]:
        try:
            return tuple(truth()) if self._advise else ()
        except NotShown as reason:
            return (f"What holds instead can't be shown: {reason}.",)

    def _command(self, *options: str) -> str:
        return " ".join(["./sheet layers", feed_words(self.book, self._feed), *options, *book_options(self.book)])

    def _at_temperature(self) -> str:
        return self._command(f"--temperature {text.exact(self.question.temperature)}K")

    def _at_pressure(self) -> str:
        return self._command(f"--pressure {text.exact(self.question.pressure)}Pa")

    def _layers_at_temperature(self) -> Iterator[str]:
        yield "Both layers:"
        yield self._at_temperature()

    def _boils(self) -> Iterator[str]:
        if self.question.temperature is not None:
            yield from self._boils_at_temperature()
            return
        boiling = boiling_at(self.liquids, self.drum, self.question.pressure, self.question.options.bracket)
        if boiling:
            kelvin = text.temperature(boiling.layers.kelvin)
            yield f"What holds: the two layers boil together at {kelvin}; first bubble {self._listed(boiling.vapor)}."
        yield "Both layers:"
        yield self._at_pressure()

    def _boils_at_temperature(self) -> Iterator[str]:
        boiling = self._boiling()
        if boiling:
            pressure = text.kilopascals(boiling.pascals)
            yield f"What holds: the two layers boil together at {pressure}; first bubble {self._listed(boiling.vapor)}."
        yield "Both layers:"
        yield self._at_temperature()

    def _boiling(self) -> Optional[Boiling]:
        """The drum in two layers at the temperature asked, with the vapor over them."""
        layers = layers_of(self.liquids, self.drum, self.question.temperature)
        try:
            return boiling_of(self.liquids, layers) if layers else None
        except Refused as refused:
            raise NotShown(f"the core refused a vapor pressure with number {refused.number}") from None

    def _condenses(self) -> Iterator[str]:
        if self.question.temperature is not None:
            drop = drop_at(self.liquids, self.drum, self.question.temperature)
            where = text.kilopascals(drop.pascals)
        else:
            drop = drop_under(self.liquids, self.drum, self.question.pressure, self.question.options.bracket)
            where = text.temperature(drop.kelvin)
        yield f"What holds: the first drop comes at {where} and is {self._listed(drop.liquid)}."
        yield self._certificate(drop)

    def _certificate(self, drop: Drop) -> str:
        return (
            f"(Searched by this tool. By the core the fugacities of that drop and of the vapor differ by "
            f"{text.rounding(drop.difference)} at most, and the drop passes the core's trials.)"
        )

    def _state(self) -> Iterator[str]:
        """What a drum is at T and p, as far as its two layers and its first drop say."""
        pascals = self.question.pressure
        asked = f"at {text.celsius(self.question.temperature)} and {text.kilopascals(pascals)}"
        boiling = self._boiling()
        if boiling and pascals >= boiling.pascals:
            yield (
                f"What holds {asked}: two liquid layers and no vapor; they begin to boil below "
                f"{text.kilopascals(boiling.pascals)}."
            )
            yield "Both layers:"
            yield self._at_temperature()
            return
        drop = drop_at(self.liquids, self.drum, self.question.temperature)
        if pascals <= drop.pascals:
            yield (
                f"What holds {asked}: vapor; its first drop comes at {text.kilopascals(drop.pascals)} and is "
                f"{self._listed(drop.liquid)}."
            )
        else:
            starts = f", from {text.kilopascals(boiling.pascals)} down" if boiling else ""
            yield (
                f"What holds {asked}: part of the drum is vapor{starts}; it is all vapor below "
                f"{text.kilopascals(drop.pascals)}."
            )
        yield self._certificate(drop)

    def _listed(self, values: Fractions) -> str:
        names, of_moles = self.book.names, " (mole fractions)" if self._feed.by_mass else ""
        listed = (f"{names[i]} {text.fraction(value)}" for i, value in enumerate(values) if self.drum[i] != 0)
        return ", ".join(listed) + of_moles

    # a split by given K values

    def _split_mark(self) -> Optional[Mark]:
        if self.blocks.head[answer.OUTCOME] != answer.BOTH:
            return None
        fraction, residual = self.blocks.real(answer.VAPOR_FRACTION), self.blocks.real(answer.RESIDUAL)
        terms = _rice_terms(self._pairs(), fraction)
        if not abs(residual) <= NO_RESIDUAL * max(1.0, math.fsum(map(abs, terms)) if terms else 0.0):
            line = f"THIS IS NO SPLIT: a residual of {text.small(residual)} is none"
            return Mark("no root", line, tuple(self._root_words()))
        if not 0 < fraction < 1:
            phase = "liquid" if fraction <= 0 else "vapor"
            line = "THESE ARE NOT TWO PHASES: the vapor fraction lies outside 0 to 1"
            return Mark("one phase", line, (f"With these K values all of the drum is {phase}.",))
        return None

    def _pairs(self) -> List[Tuple[float, float]]:
        return [(z, k) for z, k in zip(self.drum, self.question.k_values) if z > 0]

    def _root_words(self) -> Iterator[str]:
        root = rice_root(self._pairs())
        if root is None:
            yield "The sum of Rachford and Rice has no root: the K values lie on one side of 1."
            return
        inside = "" if 0 < root < 1 else f", so that all of the drum is {'liquid' if root <= 0 else 'vapor'}"
        yield (
            f"What holds: the sum of Rachford and Rice is 0 at a vapor fraction of {text.fraction(root)}{inside} "
            "(halved by this tool, not by the core)."
        )


def _rice_terms(pairs: List[Tuple[float, float]], fraction: float) -> List[float]:
    """Of the sum; none where a term isn't finite."""
    try:
        return [z * (k - 1) / (1 + fraction * (k - 1)) for z, k in pairs if math.isfinite(fraction)]
    except ZeroDivisionError:
        return []


def rice_root(pairs: List[Tuple[float, float]]) -> Optional[float]:
    """Of Σ z (K − 1)/(1 + β (K − 1)) between its poles, by halving."""
    largest, smallest = max(k for _, k in pairs), min(k for _, k in pairs)
    if not smallest < 1 < largest:
        return None
    low, high = 1 / (1 - largest), 1 / (1 - smallest)
    for _ in range(2000):
        middle = (low + high) / 2
        if not low < middle < high:
            break
        low, high = (middle, high) if math.fsum(_rice_terms(pairs, middle)) > 0 else (low, middle)
    return (low + high) / 2


_BY_COMMAND: Dict[str, Callable[[Judge], Judgement]] = {
    "excess": Judge.excess,
    "bubble-pressure": Judge.bubble,
    "bubble-temperature": Judge.bubble,
    "dew-pressure": Judge.dew,
    "dew-temperature": Judge.dew,
    "stability": Judge.stability,
    "flash": Judge.flash,
}
