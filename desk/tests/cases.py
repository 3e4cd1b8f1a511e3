"""Books and questions for the encoder, and their plain numbers as reference/src/bin/encode.rs reads them."""

import random
from dataclasses import replace
from typing import Iterable, List

from desk import tasks
from desk.blocks import Rule
from desk.book import (
    RUNNING_VERSION, VERSION, Book, Correlation, Interval, Model, Pair, Solvent, WilsonPair, due_pairs
)
from desk.openbook import open_yard
from desk.question import Options, Question, eight

from .support import ALCOHOLS, SAMPLE, YARD

TINY, HUGE = 5e-324, 1.7976931348623157e308


def books() -> List[Book]:
    """The two yards, and books of 1 to 8 solvents with floats from all over the range, without and with molar
    masses."""
    rng = random.Random(7)
    plain = [_book(rng, n) for n in range(1, 9)]
    return [open_yard(str(path)).book for path in (SAMPLE, YARD)] + plain + [_weighed(rng, book) for book in plain]


def wilson_books() -> List[Book]:
    """The alcohol yard, and books of 1 to 8 solvents with floats from all over the range."""
    rng = random.Random(23)
    weighed = [book for book in books() if book.version != VERSION]
    return [open_yard(str(ALCOHOLS)).book] + [_as_wilson(rng, book) for book in weighed]


def _as_wilson(rng: random.Random, book: Book) -> Book:
    pairs = (WilsonPair(floats(rng, 2), floats(rng, 2), pair.interval) for pair in book.pairs)
    return replace(book, pairs=tuple(pairs), model=Model.WILSON)


def questions() -> List[Question]:
    """By moles, then by mass."""
    rng = random.Random(11)
    plain = [_question(rng, task) for task in tasks.TASKS for _ in range(3)]
    return plain + [replace(question, by_mass=True) for question in plain[::3]]


def _float(rng: random.Random) -> float:
    return rng.choice(
        (
            0.0,
            -0.0,
            TINY,
            -TINY,
            HUGE,
            -HUGE,
            1 / 3,
            rng.uniform(-9, 9),
            rng.uniform(-1, 1) * 10.0 ** rng.randint(-300, 300),
        )
    )


def floats(rng: random.Random, count: int):
    return tuple(_float(rng) for _ in range(count))


def _correlation(rng: random.Random) -> Correlation:
    terms = tuple((_float(rng), _float(rng)) for _ in range(rng.randint(1, 8)))
    low, high, t_r = sorted(rng.sample(range(100, 900), 3))
    return Correlation(
        t_r + rng.random(), rng.choice((TINY, HUGE, rng.uniform(1, 1e7))), float(low), high + rng.random() / 2, terms
    )


def _book(rng: random.Random, n: int) -> Book:
    numbers = rng.sample(range(1, 10**6), n - 1) + [2**64 - 1]
    solvents = tuple(Solvent(cas, _correlation(rng), _correlation(rng)) for cas in numbers)
    return Book(solvents, tuple(_pair(rng) for _ in due_pairs(n)))


def _weighed(rng: random.Random, book: Book) -> Book:
    masses = [rng.choice((TINY, HUGE, rng.uniform(0.001, 1))) for _ in book.solvents]
    solvents = (replace(solvent, molar_mass=mass) for solvent, mass in zip(book.solvents, masses))
    return replace(book, solvents=tuple(solvents))


def _pair(rng: random.Random) -> Pair:
    interval = rng.choice((None, Interval(_float(rng), _float(rng), True), Interval(300.0, 400.0, False)))
    return Pair(floats(rng, 4), floats(rng, 4), floats(rng, 2), interval)


def _question(rng: random.Random, task: tasks.Task) -> Question:
    n = rng.randint(1, 8)
    limits = rng.choice((0, 1, 500, 10**6, 2**64 - 1))
    options = Options(limits, _float(rng), limits, _float(rng), _float(rng), (_float(rng), _float(rng)))
    k_values = floats(rng, n) if task.takes_k else None
    return Question(task, floats(rng, n), _float(rng), _float(rng), k_values, options)


def book_line(book: Book, version: int) -> str:
    with_masses = version != VERSION
    numbers: List[object] = ["running"] if version == RUNNING_VERSION else []
    wilson = book.model is Model.WILSON
    numbers += ["wilsonbook" if wilson else "massbook" if with_masses else "book", len(book.solvents)]
    for solvent in book.solvents:
        numbers += [solvent.cas, solvent.molar_mass] if with_masses else [solvent.cas]
        for record in (solvent.vapor_pressure, solvent.density):
            numbers += [record.t_r, record.reducing, record.low, record.high, len(record.terms)]
            numbers += [n for n, _ in record.terms] + [exponent for _, exponent in record.terms]
    for pair in book.pairs:
        interval = pair.interval
        bounds = [1, interval.low, interval.high, int(interval.inferred)] if interval else [0, 0.0, 0.0, 0]
        numbers += [*pair.ij, *pair.ji] if wilson else [*pair.tau_ij, *pair.tau_ji, *pair.alpha]
        numbers += bounds
    return _line(numbers)


def question_line(question: Question, rule: Rule) -> str:
    options = question.options
    numbers: List[object] = ["running"] if rule is Rule.RUNNING else []
    numbers += ["massquestion" if question.by_mass else "question", question.task.number]
    numbers += [question.temperature, question.pressure, *eight(question.fractions)]
    numbers += [
        options.max_iterations,
        options.tolerance,
        options.max_temperature_iterations,
        options.energy_tolerance,
        options.tm_threshold,
    ]
    return _line(numbers + [*options.bracket, *eight(question.k_values or ())])


def _line(numbers: Iterable[object]) -> str:
    return " ".join(str(number) for number in numbers)
