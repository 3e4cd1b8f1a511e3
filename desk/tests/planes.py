"""An independent check of a pair's liquid: its own NRTL (Renon and Prausnitz 1968), and the tangent plane over a dense
grid.

It shares no code with desk/ but the numbers of the book. The tests hold its ln gamma to the core's."""

import math
from typing import List, Tuple

from desk.book import Pair

GRID = sorted(
    {k / 100 for k in range(1, 100)} | {10.0**-k for k in (3, 4, 5, 6)} | {1 - 10.0**-k for k in (3, 4, 5, 6)}
)
LOWER = -1e-7  # a plane lower than this counts; the core's own threshold is -1e-8


def log_gammas(pair: Pair, kelvin: float, x: float) -> Tuple[float, float]:
    return Liquid(pair, kelvin).log_gammas(x)


class Liquid:
    """A pair at one temperature."""

    def __init__(self, pair: Pair, kelvin: float):
        self.t12, self.t21 = (_tau(terms, kelvin) for terms in (pair.tau_ij, pair.tau_ji))
        alpha = pair.alpha[0] + pair.alpha[1] * kelvin
        self.g12, self.g21 = math.exp(-alpha * self.t12), math.exp(-alpha * self.t21)
        self._planes: List[Tuple[float, float]] = []

    def log_gammas(self, x: float) -> Tuple[float, float]:
        y = 1 - x
        a, b = x + y * self.g21, y + x * self.g12
        first = y * y * (self.t21 * (self.g21 / a) ** 2 + self.t12 * self.g12 / (b * b))
        second = x * x * (self.t12 * (self.g12 / b) ** 2 + self.t21 * self.g21 / (a * a))
        return first, second

    def log_activities(self, x: float) -> Tuple[float, float]:
        first, second = self.log_gammas(x)
        return math.log(x) + first, math.log(1 - x) + second

    def mixing(self) -> List[Tuple[float, float]]:
        """Gibbs energy of mixing / RT over the grid."""
        if not self._planes:
            for w in GRID:
                first, second = self.log_activities(w)
                self._planes.append((w, w * first + (1 - w) * second))
        return self._planes

    def lowest(self, x: float) -> float:
        """Smallest distance of the Gibbs energy above the tangent plane at x."""
        first, second = self.log_activities(x)
        return min(energy - w * first - (1 - w) * second for w, energy in self.mixing())

    def splits(self, x: float) -> bool:
        return self.lowest(x) < LOWER

    def condenses(self, y: float, pascals: float, pure: Tuple[float, float]) -> bool:
        """Whether a liquid lies below the tangent plane of an ideal-gas vapor y at p."""
        first, second = math.log(y * pascals / pure[0]), math.log((1 - y) * pascals / pure[1])
        return min(energy - w * first - (1 - w) * second for w, energy in self.mixing()) < LOWER


def _tau(terms: Tuple[float, float, float, float], kelvin: float) -> float:
    t0, t1, t2, t3 = terms
    return t0 + t1 / kelvin + t2 * math.log(kelvin) + t3 * kelvin
