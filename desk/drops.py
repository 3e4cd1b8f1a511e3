"""The first drop of a vapor at T, searched so that the drop is a stable liquid. The core decides: the drop's fugacities
(task 1, and task 2 of pure drums) equal the vapor's, and the drop passes the core's trials."""

import math
from dataclasses import dataclass, replace
from typing import Dict, Iterator, List, Optional, Tuple

from . import answer, tasks
from .liquids import Fractions, Liquids, Refused
from .question import Options, Question
from .search import OUT_OF_RANGE, NotShown, Search, root_in

NEAR_PURE = 1e-3


@dataclass(frozen=True)
class Drop:
    kelvin: float
    pascals: float
    liquid: Fractions
    difference: float  # largest of ln fugacity between drop and vapor
    mismatch: float = 0.0  # of ln p, where a pressure was asked


def drop_at(liquids: Liquids, vapor: Fractions, kelvin: float) -> Drop:
    """Of the liquids in equilibrium with the vapor the one with the lowest pressure, which comes first."""
    try:
        pure = liquids.vapor_pressures(vapor, kelvin)
    except Refused as refused:
        raise NotShown(f"the core refused a vapor pressure with number {refused.number}") from None
    found = [drop for start in _starts(vapor) if (drop := _search(liquids, vapor, kelvin, pure, start))]
    for drop in sorted(found, key=lambda drop: drop.pascals):
        if liquids.trials(drop.liquid, kelvin).one_layer:
            return drop
    raise NotShown("no first drop was found that passes the core's trials")


def _starts(vapor: Fractions) -> Iterator[Dict[int, float]]:
    present = [i for i, y in enumerate(vapor) if y != 0]
    for rich in present:
        poor = NEAR_PURE / max(len(present) - 1, 1)
        yield {i: math.log(1 - NEAR_PURE if i == rich else poor) for i in present}


def _search(
    liquids: Liquids, vapor: Fractions, kelvin: float, pure: Dict[int, float], start: Dict[int, float]
) -> Optional[Drop]:
    """Over ln W of W = y/(γ p°), whose fractions are the drop's and whose sum is 1/p."""
    places = sorted(pure)
    first = [start[i] - math.log(1e5) for i in places]
    try:
        return Search(lambda ln_w: _state(liquids, vapor, kelvin, pure, dict(zip(places, ln_w))), first).run()
    except OUT_OF_RANGE:
        return None


def _state(
    liquids: Liquids, vapor: Fractions, kelvin: float, pure: Dict[int, float], ln_w: Dict[int, float]
) -> Tuple[Drop, List[float]]:
    total = math.fsum(map(math.exp, ln_w.values()))
    liquid = tuple(math.exp(ln_w[i]) / total if i in ln_w else 0.0 for i in range(len(vapor)))
    ln_gamma = liquids.ln_gamma(liquid, kelvin)
    residual = [math.log(vapor[i] / pure[i]) - ln_gamma[i] - ln_w[i] for i in sorted(ln_w)]
    return Drop(kelvin, 1 / total, liquid, max(map(abs, residual))), residual


def drop_under(liquids: Liquids, vapor: Fractions, pascals: float, bracket: Tuple[float, float]) -> Drop:
    """The temperature at which the first stable drop comes at p."""

    def at(kelvin: float) -> Tuple[float, Drop]:
        drop = drop_at(liquids, vapor, kelvin)
        return math.log(drop.pascals / pascals), drop

    drop, mismatch = root_in(at, _start(liquids, vapor, pascals, bracket), bracket)
    return replace(drop, mismatch=mismatch)


def _start(liquids: Liquids, vapor: Fractions, pascals: float, bracket: Tuple[float, float]) -> float:
    """The core's dew point, or its bubble point, where it has one."""
    for task in (tasks.DEW_TEMPERATURE, tasks.BUBBLE_TEMPERATURE):
        blocks = liquids.core.ask(Question(task, vapor, pressure=pascals, options=Options(bracket=bracket)))
        if blocks.accepted:
            return blocks.real(answer.T)
    return bracket[0]
