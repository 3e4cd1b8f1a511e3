"""Two liquid layers of a drum, and where they boil. The desk searches by asking the core for ln gamma; what it hands
out is a pair of compositions with equal activities by the core's task 1, each of which passes the core's trials."""

import math
from dataclasses import dataclass, replace
from typing import Dict, Iterator, List, Optional, Tuple

from . import answer, tasks
from .liquids import SPLITS, UNTESTED, Fractions, Liquids, Refused
from .question import Options, Question
from .search import OUT_OF_RANGE, NotShown, Search, root_in

NO_ROOT = 26  # the core's number
MOST_STARTS = 6
APART = 1e-4  # of ln K: nearer liquids are one


@dataclass(frozen=True)
class Layers:
    """Two liquids in equilibrium at T (K). `amount` is the second's, in moles per mole of drum."""

    kelvin: float
    first: Fractions
    second: Fractions
    amount: float
    ln_activities: Tuple[Dict[int, float], Dict[int, float]]
    difference: float  # largest of ln activity


@dataclass(frozen=True)
class Boiling:
    """Layers with the vapor over them: p (Pa) and y from the first layer's activities and the pure vapor pressures."""

    layers: Layers
    pascals: float
    vapor: Fractions
    mismatch: float = 0.0  # of ln p, where a pressure was asked


def layers_of(liquids: Liquids, drum: Fractions, kelvin: float, near: Optional[Layers] = None) -> Optional[Layers]:
    """None where the drum passes its trials: it is one layer."""
    verdict = liquids.trials(drum, kelvin)
    if verdict.kind == UNTESTED:
        raise NotShown(f"the core refused the trials of the drum's liquid with number {verdict.number}")
    if verdict.kind != SPLITS:
        return None
    starts = [(near.first, near.second)] if near else []
    tried = list(zip(verdict.below, verdict.below[1:])) + [(drum, below) for below in verdict.below]
    starts += sorted(tried, key=lambda pair: -max(abs(a - b) for a, b in zip(*pair)))  # the farthest apart first
    for first, second in _tried(starts):
        found = _search(liquids, drum, kelvin, first, second)
        if found is None:
            continue
        below = [w for layer in (found.first, found.second) for w in _below(liquids, layer, kelvin)]
        if not below:
            return found
        starts += [pair for w in below for pair in ((found.first, w), (w, found.second))]
    raise NotShown(
        "no two liquids were found that have equal activities and pass the core's trials (there may be three)"
    )


def _tried(starts: List[Tuple[Fractions, Fractions]]) -> Iterator[Tuple[Fractions, Fractions]]:
    """The starts in their order, those too that are added on the way, up to a number."""
    for k in range(MOST_STARTS):
        if k < len(starts):
            yield starts[k]


def _below(liquids: Liquids, layer: Fractions, kelvin: float) -> Tuple[Fractions, ...]:
    """Nothing for a layer that passes its trials; where they are refused, the layer itself, so that it isn't shown."""
    verdict = liquids.trials(layer, kelvin)
    return () if verdict.one_layer else verdict.below or (layer,)


def _ratios(drum: Fractions, first: Fractions, second: Fractions) -> Dict[int, float]:
    """ln K = ln of the second's fraction by the first's, for the solvents present."""
    return {i: math.log(second[i] / first[i]) for i, z in enumerate(drum) if z != 0}


def _search(
    liquids: Liquids, drum: Fractions, kelvin: float, first: Fractions, second: Fractions
) -> Optional[Layers]:
    """Over ln K, whose residual is the difference of ln activity: substitutions lower the Gibbs energy."""
    try:
        start = _ratios(drum, first, second)
        places = sorted(start)
        search = Search(lambda ln_k: _state(liquids, drum, kelvin, dict(zip(places, ln_k))), [start[i] for i in places])
    except OUT_OF_RANGE:
        return None
    found = search.run()
    return found if found and 0 < found.amount < 1 and max(map(abs, search.at)) > APART else None


def _state(liquids: Liquids, drum: Fractions, kelvin: float, ln_k: Dict[int, float]) -> Tuple[Layers, List[float]]:
    k = {i: math.exp(value) for i, value in ln_k.items()}
    amount = _amount(drum, k)
    first = _whole([drum[i] / (1 + amount * (k[i] - 1)) if i in k else 0.0 for i in range(len(drum))])
    second = _whole([first[i] * k[i] if i in k else 0.0 for i in range(len(drum))])
    activities = tuple(_ln_activities(liquids, layer, kelvin) for layer in (first, second))
    residual = [activities[0][i] - activities[1][i] for i in sorted(k)]
    return Layers(kelvin, first, second, amount, activities, max(map(abs, residual))), residual


def _ln_activities(liquids: Liquids, layer: Fractions, kelvin: float) -> Dict[int, float]:
    ln_gamma = liquids.ln_gamma(layer, kelvin)
    return {i: math.log(x) + ln_gamma[i] for i, x in enumerate(layer) if x != 0}


def _whole(parts: List[float]) -> Fractions:
    total = math.fsum(parts)
    return tuple(part / total for part in parts)


def _amount(drum: Fractions, k: Dict[int, float]) -> float:
    """Rachford and Rice between the poles: outside 0 to 1 the two liquids are still positive."""
    if not min(k.values()) < 1 < max(k.values()):
        raise ValueError("no two liquids")
    low, high = 1 / (1 - max(k.values())), 1 / (1 - min(k.values()))
    for _ in range(200):
        middle = (low + high) / 2
        if not low < middle < high:
            break
        if math.fsum(drum[i] * (k[i] - 1) / (1 + middle * (k[i] - 1)) for i in k) > 0:
            low = middle
        else:
            high = middle
    return (low + high) / 2


def in_domain(pascals: float) -> bool:
    """Of the pressures that the core takes and gives."""
    return 100.0 <= pascals <= 500_000.0


def boiling_of(liquids: Liquids, layers: Layers) -> Boiling:
    """The vapor over two layers at their temperature."""
    pure = liquids.vapor_pressures(layers.first, layers.kelvin)
    partial = [math.exp(layers.ln_activities[0][i]) * pure[i] if i in pure else 0.0 for i in range(len(layers.first))]
    return Boiling(layers, math.fsum(partial), _whole(partial))


def boiling_at(liquids: Liquids, drum: Fractions, pascals: float, bracket: Tuple[float, float]) -> Optional[Boiling]:
    """The boiling point of a drum in two layers at p; None where the drum boils as one layer.

    A bubble point of the core whose liquid passes its trials is the boiling point. Where it fails, the drum is in two
    layers at its boiling point too: one layer there would have been the core's answer."""
    near: List[Optional[Layers]] = [None]

    def at(kelvin: float) -> Tuple[float, Optional[Boiling]]:
        boiling = _boiling(liquids, drum, kelvin, near[0])
        if boiling is None:
            return _ln_bubble(liquids, drum, kelvin) - math.log(pascals), None
        near[0] = boiling.layers
        return math.log(boiling.pascals / pascals), boiling

    blocks = liquids.core.ask(
        Question(tasks.BUBBLE_TEMPERATURE, drum, pressure=pascals, options=Options(bracket=bracket))
    )
    if blocks.accepted and liquids.trials(drum, blocks.real(answer.T)).one_layer:
        return None
    if blocks.refusal not in (0, NO_ROOT):
        raise NotShown(f"the core refused the bubble temperature with number {blocks.refusal}")
    found, mismatch = root_in(at, blocks.real(answer.T) if blocks.accepted else bracket[0], bracket)
    return replace(found, mismatch=mismatch) if found else None


def _boiling(liquids: Liquids, drum: Fractions, kelvin: float, near: Optional[Layers]) -> Optional[Boiling]:
    try:
        layers = layers_of(liquids, drum, kelvin, near)
        return boiling_of(liquids, layers) if layers else None
    except Refused as refused:
        raise NotShown(f"the core refused a vapor pressure with number {refused.number}") from None


def _ln_bubble(liquids: Liquids, drum: Fractions, kelvin: float) -> float:
    """Of one layer, from its activities; a pressure out of the core's range counts too."""
    try:
        activities = _ln_activities(liquids, drum, kelvin)
        pure = liquids.vapor_pressures(drum, kelvin)
    except Refused as refused:
        raise NotShown(f"the core refused with number {refused.number} at {kelvin:g} K") from None
    return math.log(math.fsum(math.exp(activities[i]) * pure[i] for i in pure))
