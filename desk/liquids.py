"""What the desk asks the core about a liquid: its activities (task 1), its trials (task 6), and the vapor pressures of
the pure solvents (task 2 of pure drums). Nothing is calculated here."""

from dataclasses import dataclass, replace
from typing import Dict, Iterable, List, Optional, Sequence, Tuple

from . import answer, tasks
from .blocks import float_of, floats_at
from .book import Model, model_of
from .core import Core
from .question import Options, Question

ONE_LAYER, SPLITS, UNTESTED = "one layer", "splits", "untested"
NOT_CONVERGED, OUT_OF_PRESSURES = 27, 23
MORE_ITERATIONS = 100_000  # for trials that 500 iterations don't bring to an end

Fractions = Tuple[float, ...]


class Refused(Exception):
    """The core refused a question of the desk's own."""

    def __init__(self, number: int):
        super().__init__(f"refused, number {number}")
        self.number = number


@dataclass(frozen=True)
class Verdict:
    """What the core's trials say of a liquid. `below` are compositions at which a trial found a lower tangent plane;
    such a composition may be a trial's start, and is no layer."""

    kind: str
    below: Tuple[Fractions, ...] = ()
    number: int = 0  # of the refusal, where the liquid is untested

    @property
    def one_layer(self) -> Optional[bool]:
        return {ONE_LAYER: True, SPLITS: False}.get(self.kind)


class Liquids:
    def __init__(self, core: Core):
        self.core = core

    def ln_gamma(self, fractions: Fractions, kelvin: float) -> List[float]:
        blocks = self._asked(Question(tasks.EXCESS, fractions, kelvin))
        return floats_at(blocks.head, answer.LIQUID, len(fractions))

    def _asked(self, question: Question) -> answer.Blocks:
        blocks = self.core.ask(question)
        if blocks.refusal:
            raise Refused(blocks.refusal)
        return blocks

    def trials(self, fractions: Fractions, kelvin: float) -> Verdict:
        """With the limits and the threshold of the core's defaults, whatever the sheet was asked with. By Wilson's
        equation none is needed: the energy of mixing, Σ x_i ln(x_i/S_i), is convex whatever the parameters, since S_i
        is linear in x."""
        if model_of(self.core.book) is Model.WILSON:
            return Verdict(ONE_LAYER)
        question = Question(tasks.STABILITY, fractions, kelvin)
        blocks = self.core.ask(question)
        if blocks.refusal == NOT_CONVERGED:
            blocks = self.core.ask(replace(question, options=Options(max_iterations=MORE_ITERATIONS)))
        return verdict_of(blocks, len(fractions))

    def splits_at_one_of(self, fractions: Fractions, kelvins: Iterable[float]) -> bool:
        return any(self.trials(fractions, kelvin).kind == SPLITS for kelvin in kelvins)

    def vapor_pressure(self, place: int, count: int, kelvin: float) -> float:
        """Of one pure solvent (Pa): its bubble pressure. Where that lies outside 100 to 500,000 Pa task 2 refuses it,
        and the flash of the pure solvent, which tests the pressure asked alone, still has it."""
        pure = tuple(float(other == place) for other in range(count))
        blocks = self.core.ask(Question(tasks.BUBBLE_PRESSURE, pure, kelvin))
        if blocks.refusal != OUT_OF_PRESSURES:
            return self._asked(Question(tasks.BUBBLE_PRESSURE, pure, kelvin)).real(answer.P)
        return self._asked(Question(tasks.FLASH, pure, kelvin, 1e5)).real(answer.BUBBLE)

    def vapor_pressures(self, fractions: Sequence[float], kelvin: float) -> Dict[int, float]:
        """Of the solvents present, by their places."""
        count = len(fractions)
        return {place: self.vapor_pressure(place, count, kelvin) for place in range(count) if fractions[place] != 0}


def spread(bracket: Tuple[float, float]) -> List[float]:
    """Five temperatures of a bracket, its ends among them."""
    low, high = bracket
    return [low + (high - low) * k / 4 for k in range(5)]


def verdict_of(blocks: answer.Blocks, count: int) -> Verdict:
    """The verdict in an answer of task 6, or of a flash that tested its liquid."""
    if blocks.refusal:
        return Verdict(UNTESTED, number=blocks.refusal)
    if blocks.head[answer.STABLE]:
        return Verdict(ONE_LAYER)
    below = [
        tuple(floats_at(words, answer.TRIAL_FRACTIONS, count))
        for words in blocks.trials
        if not words[answer.TRIAL_TRIVIAL] and float_of(words[answer.TRIAL_DISTANCE]) < Options.tm_threshold
    ]
    return Verdict(SPLITS, tuple(below))
