"""An independent check of the core: Wilson's equation (1964) in plain floats."""

import math
from typing import List, NamedTuple, Sequence

from desk.book import Book, due_pairs

GAS_CONSTANT = 8.31446261815324  # J/(mol K)


class Excess(NamedTuple):
    log_gammas: List[float]
    reduced_gibbs: float


def excess(book: Book, kelvin: float, x: Sequence[float]) -> Excess:
    places = range(len(book.solvents))
    ratio = [[1.0 for _ in places] for _ in places]
    for (i, j), pair in zip(due_pairs(len(places)), book.pairs):
        ratio[i][j] = math.exp(pair.ij[0] + pair.ij[1] / kelvin)
        ratio[j][i] = math.exp(pair.ji[0] + pair.ji[1] / kelvin)
    sums = [math.fsum(x[j] * ratio[i][j] for j in places) for i in places]
    gammas = [1 - math.log(sums[i]) - math.fsum(x[k] * ratio[k][i] / sums[k] for k in places) for i in places]
    return Excess(gammas, -math.fsum(x[i] * math.log(sums[i]) for i in places))
