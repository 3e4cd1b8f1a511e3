"""Searches by asking the core: a state whose residual is 0, and a temperature at which a pressure is met."""

from typing import Callable, List, Optional, Protocol, Tuple, TypeVar

from . import text
from .liquids import Refused

EQUAL = 1e-9  # largest difference of ln activity, ln fugacity or ln pressure that is shown
AIM = 2e-14  # of a state's difference: the search ends here
ROUNDS, SUBSTITUTIONS, NEWTONS = 6, 10, 8
LENGTHENED, LONGEST = 5, 40.0  # every fifth substitution is lengthened, at most by this factor
FARTHEST = 2.0  # length of a step
NUDGE = 1e-6  # for a derivative
MOST_TEMPERATURES, FIRST_STEP = 60, 2.0  # K
CLOSE = 1e-13  # relative step of 1/T, and
MATCH = 1e-11  # difference of ln p, at which the search for T ends
OUT_OF_RANGE = (Refused, ArithmeticError, ValueError)  # a step that led out of the core's or the floats' range

Found = TypeVar("Found")


class NotShown(Exception):
    """What was looked for can't be shown, and why."""


class State(Protocol):
    """Something whose residuals are at most `difference`."""

    @property
    def difference(self) -> float: ...


Residual = List[float]
Evaluated = Callable[[List[float]], Tuple[State, Residual]]


class Search:
    """For a state whose residual is 0, from a start: substitutions (x + residual), every fifth of them lengthened by
    the
    ratio at which the residual falls (Orbach and Crowe's dominant eigenvalue), and Newton's method in turn."""

    def __init__(self, evaluated: Evaluated, start: List[float]):
        self._evaluated = evaluated
        self.at = start
        self.state, self.residual = evaluated(start)

    def run(self) -> Optional[State]:
        """The state, if it came near enough."""
        for _ in range(ROUNDS):
            self._substitute()
            if self.state.difference <= AIM or not self._newton() and self.state.difference <= EQUAL:
                break
        return self.state if self.state.difference <= EQUAL else None

    def _move(self, step: List[float], only_down: bool) -> bool:
        """By the step, or by a half, a quarter or an eighth of it where that leads out of range or, with `only_down`,
        up."""
        factor = min(1.0, FARTHEST / (max(map(abs, step)) or 1.0))
        for _ in range(4):
            at = [value + factor * part for value, part in zip(self.at, step)]
            try:
                state, residual = self._evaluated(at)
            except OUT_OF_RANGE:
                factor /= 2
                continue
            if not only_down or state.difference < self.state.difference:
                self.at, self.state, self.residual = at, state, residual
                return True
            factor /= 2
        return False

    def _substitute(self) -> None:
        for k in range(1, SUBSTITUTIONS + 1):
            if self.state.difference <= AIM:
                return
            before = self.residual
            if not self._move(self.residual, only_down=False):
                return
            if k % LENGTHENED == 0:
                self._lengthen(before)

    def _lengthen(self, before: Residual) -> None:
        size = sum(part * part for part in before)
        ratio = sum(a * b for a, b in zip(self.residual, before)) / size if size else 0.0
        if 0 < ratio < 1:
            self._move([part * min(1 / (1 - ratio), LONGEST) for part in self.residual], only_down=True)

    def _newton(self) -> bool:
        """Whether a step went down."""
        moved = False
        for _ in range(NEWTONS):
            try:
                step = solved(self._slopes(), [-part for part in self.residual])
            except OUT_OF_RANGE:
                return moved
            if not self._move(step, only_down=True):
                return moved
            moved = True
            if self.state.difference <= AIM:
                break
        return moved

    def _slopes(self) -> List[List[float]]:
        """Rows of the residual's derivatives, by differences."""
        columns = []
        for k in range(len(self.at)):
            nudged = [value + NUDGE * (i == k) for i, value in enumerate(self.at)]
            residual = self._evaluated(nudged)[1]
            columns.append([(b - a) / NUDGE for a, b in zip(self.residual, residual)])
        return [list(row) for row in zip(*columns)]


def solved(matrix: List[List[float]], right: List[float]) -> List[float]:
    """Gauss elimination with row exchange."""
    rows = [row + [value] for row, value in zip(matrix, right)]
    n = len(rows)
    for k in range(n):
        pivot = max(range(k, n), key=lambda i: abs(rows[i][k]))
        rows[k], rows[pivot] = rows[pivot], rows[k]
        for i in range(n):
            if i != k:
                factor = rows[i][k] / rows[k][k]
                rows[i] = [a - factor * b for a, b in zip(rows[i], rows[k])]
    return [rows[k][n] / rows[k][k] for k in range(n)]


def root_in(
    at: Callable[[float], Tuple[float, Found]], start: float, bracket: Tuple[float, float]
) -> Tuple[Found, float]:
    """What is found where ln p meets the pressure asked, and how far it is off: from a first temperature in growing
    steps to one on the other side, then between the two."""
    low, high = bracket
    near, far, step = (start, *at(start)), None, FIRST_STEP
    while far is None or near[1] * far[1] > 0:
        near = far or near
        up = near[1] < 0
        if near[0] == (high if up else low):
            end = f"above {text.temperature(high)}, the highest" if up else f"below {text.temperature(low)}, the lowest"
            raise NotShown(f"at this pressure it boils {end} temperature that was tried")
        kelvin = min(high, near[0] + step) if up else max(low, near[0] - step)
        far, step = (kelvin, *at(kelvin)), 2 * step
    ends = sorted((near, far), key=lambda end: end[1])
    return _between(at, ends[0], ends[1])


def _between(
    at: Callable[[float], Tuple[float, Found]], below: Tuple[float, float, Found], above: Tuple[float, float, Found]
) -> Tuple[Found, float]:
    """From an end whose pressure is too low and one whose pressure is too high. ln p over 1/T is nearly a straight
    line: false position there. An end that stays has its value halved (Illinois)."""
    (low, at_low, found), (high, at_high, other) = below, above
    value, side = at_low, 0
    if abs(at_high) < abs(at_low):
        value, found = at_high, other
    a, b = 1 / low, 1 / high
    for _ in range(MOST_TEMPERATURES):
        if abs(value) <= MATCH or abs(a - b) <= CLOSE * a:
            break
        middle = (a * at_high - b * at_low) / (at_high - at_low)
        value, found = at(1 / middle)
        if value < 0:
            a, at_low, at_high, side = middle, value, at_high / (2 if side == 1 else 1), 1
        else:
            b, at_high, at_low, side = middle, value, at_low / (2 if side == 2 else 1), 2
    if abs(value) > EQUAL:
        raise NotShown("the search for the temperature didn't come to an end")
    return found, abs(value)
