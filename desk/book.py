"""The book: records of solvents and pairs, their blocks, and reading them back (docs/FORMAT.md, "The book")."""

from dataclasses import dataclass
from enum import Enum
from typing import List, Optional, Tuple, Union

from .blocks import BLOCK, CHECK, Words, bits_of, float_of, floats_at, joined, put_floats, split
from .errors import DeskError

MOST_SOLVENTS = 8
MOST_TERMS = 8
VERSION, MASS_VERSION, RUNNING_VERSION = 1, 2, 3  # without molar masses, with them, and with running sums as checks
VERSIONS = (VERSION, MASS_VERSION, RUNNING_VERSION)
KIND_HEAD, KIND_SOLVENT, KIND_PAIR = 1, 2, 3
MODEL = 3  # of block 0

# first word of a solvent's two records, and the places in a record
VAPOR_PRESSURE, DENSITY = 3, 24
COUNT, COEFFICIENTS, EXPONENTS = 4, 5, 13
MOLAR_MASS = 45  # of a solvent, from MASS_VERSION on
# places in a pair block, and in one of a Wilson book
TAU_IJ, TAU_JI, ALPHA_IJ, ALPHA_JI, FLAG, BOUNDS, INFERRED = 3, 7, 11, 13, 15, 16, 18
A_IJ, B_IJ, A_JI, B_JI = 3, 4, 5, 6


class Model(Enum):
    """By which equation the liquid's activity coefficients come about; the number is word 3 of block 0."""

    NRTL = 0
    WILSON = 1

    @property
    def title(self) -> str:
        return {Model.NRTL: "NRTL", Model.WILSON: "Wilson"}[self]


@dataclass(frozen=True)
class Correlation:
    """p = reducing exp((t_r/T) Σ n θ^exponent) with θ = 1 − T/t_r for the vapor pressure (Pa, K); of a density only the
    range is used."""

    t_r: float
    reducing: float
    low: float
    high: float
    terms: Tuple[Tuple[float, float], ...]


@dataclass(frozen=True)
class Solvent:
    cas: int
    vapor_pressure: Correlation
    density: Correlation
    molar_mass: Optional[float] = None  # kg/mol


@dataclass(frozen=True)
class Interval:
    """Regression interval (K) of a pair, and whether it was inferred instead of reported."""

    low: float
    high: float
    inferred: bool


@dataclass(frozen=True)
class Pair:
    """τ = t0 + t1/T + t2 ln T + t3 T both ways, α = a0 + a1 T (T in K)."""

    tau_ij: Tuple[float, float, float, float]
    tau_ji: Tuple[float, float, float, float]
    alpha: Tuple[float, float]
    interval: Optional[Interval] = None

    def turned(self) -> "Pair":
        """The same pair seen from the other solvent."""
        return Pair(self.tau_ji, self.tau_ij, self.alpha, self.interval)

    @property
    def ideal(self) -> bool:
        return not any(self.tau_ij) and not any(self.tau_ji)


@dataclass(frozen=True)
class WilsonPair:
    """ln Λ = a + b/T both ways (T in K)."""

    ij: Tuple[float, float]
    ji: Tuple[float, float]
    interval: Optional[Interval] = None

    def turned(self) -> "WilsonPair":
        """The same pair seen from the other solvent."""
        return WilsonPair(self.ji, self.ij, self.interval)

    @property
    def ideal(self) -> bool:
        return not any(self.ij) and not any(self.ji)


AnyPair = Union[Pair, WilsonPair]
PAIRS = {Model.NRTL: Pair, Model.WILSON: WilsonPair}


@dataclass(frozen=True)
class Book:
    solvents: Tuple[Solvent, ...]
    pairs: Tuple[AnyPair, ...]  # all of the model, in the order of due_pairs
    model: Model = Model.NRTL

    def __post_init__(self) -> None:
        if not all(isinstance(pair, PAIRS[self.model]) for pair in self.pairs):
            raise DeskError(f"a pair is not one of a {self.model.title} book")

    @property
    def version(self) -> int:
        """The latest that it has the numbers for: molar masses stand in a book of all of them or of none."""
        return VERSION if any(solvent.molar_mass is None for solvent in self.solvents) else RUNNING_VERSION


def due_pairs(n: int) -> List[Tuple[int, int]]:
    """(0,1), (0,2) and on: the order of the pair blocks."""
    return [(i, j) for i in range(n) for j in range(i + 1, n)]


def pair_place(n: int, i: int, j: int) -> int:
    """Which block of a book of n solvents is the pair of i < j."""
    return 1 + n + due_pairs(n).index((i, j))


def block_count(n: int) -> int:
    return 1 + n + n * (n - 1) // 2


def encode(book: Book, version: Optional[int] = None) -> bytes:
    """In the book's own version, or in an earlier one for who reads no later."""
    n, version = len(book.solvents), version or book.version
    if book.model is Model.WILSON and version == VERSION:
        raise DeskError("a Wilson book is of version 2 or 3, with the molar mass of every solvent")
    head = [KIND_HEAD, version, n, book.model.value]
    solvents = [_solvent_words(i, solvent, version) for i, solvent in enumerate(book.solvents)]
    pairs = [pair_words(i, j, pair) for (i, j), pair in zip(due_pairs(n), book.pairs)]
    return joined([head] + solvents + pairs)


def _solvent_words(index: int, solvent: Solvent, version: int) -> Words:
    words = [KIND_SOLVENT, index, solvent.cas] + [0] * (CHECK - 3)
    for at, record in ((VAPOR_PRESSURE, solvent.vapor_pressure), (DENSITY, solvent.density)):
        put_floats(words, at, (record.t_r, record.reducing, record.low, record.high))
        words[at + COUNT] = len(record.terms)
        put_floats(words, at + COEFFICIENTS, (n for n, _ in record.terms))
        put_floats(words, at + EXPONENTS, (exponent for _, exponent in record.terms))
    if version != VERSION:
        words[MOLAR_MASS] = bits_of(solvent.molar_mass)
    return words


def pair_words(i: int, j: int, pair: AnyPair) -> Words:
    words = [KIND_PAIR, i, j] + [0] * (CHECK - 3)
    for at, values in _parameters(pair):
        put_floats(words, at, values)
    if pair.interval:
        words[FLAG] = 1
        put_floats(words, BOUNDS, (pair.interval.low, pair.interval.high))
        words[INFERRED] = int(pair.interval.inferred)
    return words


def _parameters(pair: AnyPair) -> List[Tuple[int, Tuple[float, ...]]]:
    """Places and floats."""
    if isinstance(pair, WilsonPair):
        return [(A_IJ, pair.ij), (A_JI, pair.ji)]
    return [(TAU_IJ, pair.tau_ij), (TAU_JI, pair.tau_ji), (ALPHA_IJ, pair.alpha), (ALPHA_JI, pair.alpha)]


def solvent_count(content: bytes) -> int:
    """n of a file that has the blocks of a book. Checks and floats are left to the core's own questions."""
    blocks = split(content)
    if not blocks or len(content) % BLOCK:
        raise DeskError(f"it has {len(content)} bytes, and a book is whole blocks of {BLOCK}")
    kind, version, n = blocks[0][:3]
    if kind == KIND_HEAD and version not in VERSIONS:
        raise DeskError(f"its first block gives version {version}, and this desk knows 1 to 3; or the block is damaged")
    if kind != KIND_HEAD or not 1 <= n <= MOST_SOLVENTS:
        raise DeskError("its first block is not that of a book with 1 to 8 solvents")
    if len(blocks) != block_count(n):
        raise DeskError(f"it has {len(blocks)} blocks, and a book of {n} solvents has {block_count(n)}")
    return n


def version_of(content: bytes) -> int:
    solvent_count(content)
    return split(content)[0][1]


def model_of(content: bytes) -> Optional[Model]:
    """None of a model that there isn't, or not in the book's version: the core refuses it with 37."""
    version, word = version_of(content), model_word(content)
    known = {model.value: model for model in Model if version != VERSION or model is Model.NRTL}
    return known.get(word)


def model_word(content: bytes) -> int:
    solvent_count(content)
    return split(content)[0][MODEL]


def cas_numbers(content: bytes) -> List[int]:
    n = solvent_count(content)
    return [words[2] for words in split(content)[1 : 1 + n]]


def molar_masses(content: bytes) -> Optional[Tuple[float, ...]]:
    """In kg/mol, as they stand there; None of a book that has none."""
    n = solvent_count(content)
    if version_of(content) == VERSION:
        return None
    return tuple(float_of(words[MOLAR_MASS]) for words in split(content)[1 : 1 + n])


def decode(content: bytes) -> Book:
    """The records of an accepted book. Words that docs/FORMAT.md doesn't name are passed over."""
    n = solvent_count(content)
    blocks = split(content)
    masses = molar_masses(content) or (None,) * n
    model = model_of(content)
    if model is None:
        raise DeskError(
            f"its first block gives model {model_word(content)}; there are 0, NRTL, and 1, Wilson, from version 2 on"
        )
    pairs = tuple(pair_of(words, model) for words in blocks[1 + n :])
    return Book(tuple(map(_solvent, blocks[1 : 1 + n], masses)), pairs, model)


def common_range(book: Book) -> Tuple[float, float]:
    """The temperatures (K) that lie in every solvent's two ranges."""
    records = [record for solvent in book.solvents for record in (solvent.vapor_pressure, solvent.density)]
    return max(record.low for record in records), min(record.high for record in records)


def _solvent(words: Words, molar_mass: Optional[float]) -> Solvent:
    return Solvent(words[2], _correlation(words, VAPOR_PRESSURE), _correlation(words, DENSITY), molar_mass)


def _correlation(words: Words, at: int) -> Correlation:
    count = words[at + COUNT]
    if not 1 <= count <= MOST_TERMS:
        raise DeskError(f"solvent {words[1]} has {count} terms, and 1 to 8 are due")
    coefficients = floats_at(words, at + COEFFICIENTS, count)
    exponents = floats_at(words, at + EXPONENTS, count)
    return Correlation(*floats_at(words, at, 4), tuple(zip(coefficients, exponents)))


def pair_of(words: Words, model: Model) -> AnyPair:
    """What a pair's block says."""
    return {Model.NRTL: _pair, Model.WILSON: _wilson_pair}[model](words)


def _pair(words: Words) -> Pair:
    tau_ij, tau_ji = (tuple(floats_at(words, at, 4)) for at in (TAU_IJ, TAU_JI))
    return Pair(tau_ij, tau_ji, tuple(floats_at(words, ALPHA_IJ, 2)), _interval(words))


def _wilson_pair(words: Words) -> WilsonPair:
    return WilsonPair(tuple(floats_at(words, A_IJ, 2)), tuple(floats_at(words, A_JI, 2)), _interval(words))


def _interval(words: Words) -> Optional[Interval]:
    return Interval(*floats_at(words, BOUNDS, 2), words[INFERRED] == 1) if words[FLAG] == 1 else None
