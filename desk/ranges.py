"""Which pairs of a drum are out of their regression interval at T, or inferred, or estimated as ideal."""

from dataclasses import dataclass
from typing import List, Optional, Sequence, Tuple

from . import answer, tasks, text
from .book import AnyPair, Interval, decode, due_pairs
from .core import Core
from .errors import DeskError
from .question import Options, Question
from .sheet import NamedBook


@dataclass(frozen=True)
class PairRemark:
    """What there is to say of a pair at a temperature (K)."""

    names: Tuple[str, str]
    interval: Optional[Interval]
    outside: bool
    ideal: bool

    @property
    def inferred(self) -> bool:
        return bool(self.interval and self.interval.inferred)

    @property
    def pair(self) -> str:
        return " and ".join(self.names)

    def fitted(self) -> str:
        return text.interval(self.interval.low, self.interval.high) if self.interval else "no interval known"

    def words(self) -> str:
        said = ["OUTSIDE" if self.outside else "inside"] if self.interval else ["not assessed"]
        said += ["interval inferred"] * self.inferred + ["estimated as ideal"] * self.ideal
        return ", ".join(said)


@dataclass(frozen=True)
class Ranges:
    """The core's own verdict at T (task 1: validity and inferred), and the pairs with something to say."""

    kelvin: float
    validity: Optional[int]
    inferred: Optional[bool]
    remarks: Tuple[PairRemark, ...]

    @property
    def outside(self) -> List[PairRemark]:
        return [remark for remark in self.remarks if remark.outside]

    @property
    def outside_model(self) -> bool:
        """Tasks 1 and 6 answer there too."""
        low, high = Options.bracket
        return not low <= self.kelvin <= high

    def line(self) -> str:
        """One line for the head of a sheet, or nothing."""
        found = [f"the model (made for {text.interval(*Options.bracket)})"] * self.outside_model
        found += [f"{remark.pair} (fitted for {remark.fitted()})" for remark in self.outside]
        return f"OUT OF RANGE at {text.celsius(self.kelvin)}: {'; '.join(found)}" if found else ""


def pairs_of(content: bytes, names: Sequence[str], fractions: Sequence[float]) -> List[Tuple[Tuple[str, str], AnyPair]]:
    """The pairs of solvents present; none of a book that can't be read, which the core refuses anyway."""
    try:
        pairs = decode(content).pairs
    except DeskError:
        return []
    return [
        ((names[i], names[j]), pair)
        for (i, j), pair in zip(due_pairs(len(names)), pairs)
        if fractions[i] > 0 and fractions[j] > 0
    ]


def is_outside(pair: AnyPair, kelvin: float) -> bool:
    return bool(pair.interval) and not pair.interval.low <= kelvin <= pair.interval.high


def ranges_at(core: Core, book: NamedBook, fractions: Tuple[float, ...], kelvin: float) -> Ranges:
    remarks = [
        PairRemark(names, pair.interval, is_outside(pair, kelvin), pair.ideal)
        for names, pair in pairs_of(book.content, book.names, fractions)
    ]
    said = tuple(
        remark for remark in remarks if remark.outside or remark.inferred or remark.ideal or not remark.interval
    )
    blocks = core.ask(Question(tasks.EXCESS, fractions, kelvin))
    if blocks.refusal:
        return Ranges(kelvin, None, None, said)
    return Ranges(kelvin, blocks.head[answer.VALIDITY], bool(blocks.head[answer.INFERRED]), said)


def table(ranges: Ranges) -> List[str]:
    if not ranges.remarks:
        return []
    rows = [(remark.pair, remark.fitted(), remark.words()) for remark in ranges.remarks]
    return text.table(("pair of the drum", "fitted for", f"at {text.celsius(ranges.kelvin)}"), rows, words=(0, 1, 2))
