"""The question block (docs/FORMAT.md, "The question")."""

from dataclasses import dataclass, field
from typing import Optional, Tuple

from .blocks import CHECK, Rule, Words, bits_of, put_floats, sealed
from .book import MOST_SOLVENTS
from .tasks import Task

KIND = 8
TASK, TEMPERATURE, PRESSURE, FRACTIONS, MAX_ITERATIONS, TOLERANCE, MAX_TEMPERATURE_ITERATIONS = 1, 2, 3, 4, 12, 13, 14
ENERGY_TOLERANCE, TM_THRESHOLD, BRACKET, K_VALUES, FEED = 15, 16, 17, 19, 27
MOLES, MASS = 0, 1  # what the fractions are of


@dataclass(frozen=True)
class Options:
    """Limits and tolerances; the defaults are the Rust's."""

    max_iterations: int = 500
    tolerance: float = 1e-13
    max_temperature_iterations: int = 200
    energy_tolerance: float = 1e-10
    tm_threshold: float = -1e-8
    bracket: Tuple[float, float] = (273.16, 450.0)  # K


@dataclass(frozen=True)
class Question:
    """Fractions, of moles or of mass, and K stand in the book's order. What a task doesn't take is None, and +0 in its
    word."""

    task: Task
    fractions: Tuple[float, ...]
    temperature: Optional[float] = None  # K
    pressure: Optional[float] = None  # Pa
    k_values: Optional[Tuple[float, ...]] = None
    options: Options = field(default_factory=Options)
    by_mass: bool = False

    def words(self) -> Words:
        words = [0] * CHECK
        words[:2] = [KIND, self.task.number]
        for at, value in ((TEMPERATURE, self.temperature), (PRESSURE, self.pressure)):
            words[at] = 0 if value is None else bits_of(value)
        put_floats(words, FRACTIONS, eight(self.fractions))
        put_floats(words, K_VALUES, eight(self.k_values or ()))
        words[FEED] = MASS if self.by_mass else MOLES
        self._put_options(words)
        return words

    def _put_options(self, words: Words) -> None:
        options = self.options
        words[MAX_ITERATIONS] = options.max_iterations
        words[MAX_TEMPERATURE_ITERATIONS] = options.max_temperature_iterations
        words[TOLERANCE] = bits_of(options.tolerance)
        words[ENERGY_TOLERANCE] = bits_of(options.energy_tolerance)
        words[TM_THRESHOLD] = bits_of(options.tm_threshold)
        put_floats(words, BRACKET, options.bracket)

    def block(self, rule: Rule = Rule.PLAIN) -> bytes:
        """Checked by the rule of the book that is asked about."""
        return sealed(self.words(), rule)


def eight(values: Tuple[float, ...]) -> Tuple[float, ...]:
    """+0 past the solvents of the book."""
    return values + (0.0,) * (MOST_SOLVENTS - len(values))
