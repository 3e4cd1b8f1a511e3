"""Drums that are tipped into one charge: their amounts in mol or kg as whole micromoles, and what a sheet shows of
them."""

import math
from dataclasses import dataclass
from fractions import Fraction
from typing import TYPE_CHECKING, Any, Dict, List, Optional, Sequence, Tuple

from . import text, units
from .errors import CoreRefusal, DeskError
from .feed import Feed, Fractions
from .pool import MOST_COUNT, Drum, fractions_of, pool_of, refusal_of
from .refusals import line

if TYPE_CHECKING:
    from .jsonsheet import Numbers
    from .openbook import Amount
    from .sheet import NamedBook

PER_MOLE = 10**6
MOLAR_MASS = 35
RECKONED = (
    "this tool: amounts in whole micromoles, and the pool's mole fractions in the core's steps; with these the core "
    "was asked, and by its law it answers the drums themselves alike"
)


@dataclass(frozen=True)
class GivenDrum:
    """Amounts as they were written, by name, and the micromoles that they come to."""

    amounts: Tuple[Tuple[str, str], ...]
    counts: Drum

    @property
    def words(self) -> str:
        return ", ".join(f"{name} {amount}" for name, amount in self.amounts)

    @property
    def option(self) -> str:
        """That gives the drum again."""
        return "--drum " + ",".join(f"{name}={amount.replace(' ', '')}" for name, amount in self.amounts)


@dataclass(frozen=True)
class Charge:
    """The drums, the sum of their counts, and the number that the core refuses them with, or 0."""

    drums: Tuple[GivenDrum, ...]
    pool: Drum
    refusal: int

    @property
    def counts(self) -> Tuple[Drum, ...]:
        return tuple(drum.counts for drum in self.drums)

    @property
    def total(self) -> int:
        return sum(self.pool)

    def name(self, place: int, noun: str) -> str:
        """Of a drum; the only one has no number."""
        return f"{noun} {place + 1}" if len(self.drums) > 1 else noun


def charged(book: "NamedBook", drums: Sequence[Dict[int, "Amount"]], called: Sequence[str] = ()) -> Feed:
    """The feed that drums pool to; `called` is what complaints call each of them, where that isn't its option."""
    called = called or [option(place, len(drums)) for place in range(len(drums))]
    _expect_amounts(drums, called)
    masses = _masses(book, drums)
    given = tuple(_given(book, drum, name, masses) for name, drum in zip(called, drums))
    counts = [drum.counts for drum in given]
    pool = pool_of(counts, len(book.names))
    charge = Charge(given, pool, refusal_of(counts, len(book.names)))
    return Feed(fractions_of(pool), kilograms=_kilograms(pool, book.molar_masses), charge=charge)


def option(place: int, count: int) -> str:
    """For a complaint about one of so many drums."""
    return f"--drum {place + 1}" if count > 1 else "--drum"


def _expect_amounts(drums: Sequence[Dict[int, "Amount"]], called: Sequence[str]) -> None:
    """Fractions don't say how much a drum holds."""
    bare = [[given.name for given in drum.values() if units.is_bare(given.value)] for drum in drums]
    if all(len(names) == len(drum) for names, drum in zip(bare, drums)):
        raise DeskError(
            f"--drum stands there {len(drums)} times: several drums are pooled by what they hold, with units "
            f"({units.AMOUNTS}), which fractions don't say; the solvents of one drum go into one --drum"
        )
    for place, names in enumerate(bare):
        if names:
            raise DeskError(
                f"{called[place]}: {', '.join(names)} has no unit: fractions don't say how much a drum "
                f"holds, so that it can't be pooled; give amounts of all ({units.AMOUNTS})"
            )


def _masses(book: "NamedBook", drums: Sequence[Dict[int, "Amount"]]) -> Optional[Fractions]:
    """Molar masses (kg/mol), where a drum was weighed."""
    if all(units.in_moles(given.value) for drum in drums for given in drum.values()):
        return None
    book.expect_masses("amounts in mol")
    if not all(0 < mass < math.inf for mass in book.molar_masses):
        raise CoreRefusal(line(MOLAR_MASS))
    return book.molar_masses


def _given(book: "NamedBook", drum: Dict[int, "Amount"], option: str, masses: Optional[Fractions]) -> GivenDrum:
    counts = [0] * len(book.names)
    for place, amount in drum.items():
        counts[place] = _micromoles(amount, f"{option}: {amount.name}", masses[place] if masses else None)
    listed = tuple((book.names[place], units.spaced(drum[place].value)) for place in sorted(drum))
    return GivenDrum(listed, tuple(counts))


def _micromoles(amount: "Amount", what: str, molar_mass: Optional[float]) -> int:
    """To the nearest; halfway to the even one."""
    exact = units.moles(amount.value, what, molar_mass) * PER_MOLE
    count = round(exact)
    if exact < 0:
        raise DeskError(f"{what} {amount.value}: no drum holds less than nothing")
    if exact and not count:
        raise DeskError(f"{what} {amount.value} is half a micromole or less, and would be absent unseen")
    if count > MOST_COUNT:
        raise DeskError(f"{what} {amount.value} is more than a drum's count can say, 2^64 - 1 micromoles")
    return count


def _kilograms(pool: Drum, masses: Optional[Fractions]) -> Optional[Fractions]:
    """Of the pool; None where they aren't known, or past all floats."""
    if masses is None or not all(0 < mass < math.inf for mass in masses):
        return None
    try:
        found = tuple(float(Fraction(mass) * count / PER_MOLE) for mass, count in zip(masses, pool))
        return found if 0 < math.fsum(found) < math.inf else None
    except OverflowError:
        return None


# on a sheet


def rows(charge: Charge) -> List[Tuple[str, str]]:
    """Each drum as it was given."""
    return [(charge.name(place, "Drum"), drum.words) for place, drum in enumerate(charge.drums)]


def table(feed: Feed, names: Sequence[str], details: bool) -> List[str]:
    """The drums in micromoles, one below the other, and the pool; of one that the core refuses no fractions."""
    charge = feed.charge
    places = [place for place, count in enumerate(charge.pool) if count]

    def row(name: str, counts: Drum) -> List[str]:
        return [name] + [str(counts[place]) for place in places] + [str(sum(counts))]

    found = [row(charge.name(place, "drum"), counts) for place, counts in enumerate(charge.counts)]
    found = [*found, row("pool", charge.pool)] if len(found) > 1 else [row("drum", charge.pool)]
    if not charge.refusal:
        found.append(["mole fraction"] + [text.fraction(feed.fractions[place], details) for place in places] + [""])
        if feed.kilograms:
            weights = [feed.kilograms[place] for place in places] + [feed.total]
            found.append(["kg"] + [text.plain(weight, details) for weight in weights])
    lines = [""] + text.table(["micromoles"] + [names[place] for place in places] + ["all"], found)
    return lines + ([] if charge.refusal else text.wrapped(f"Reckoned by {RECKONED}."))


def document(feed: Feed, numbers: "Numbers") -> Dict[str, Any]:
    charge = feed.charge

    def by_name(counts: Drum) -> Dict[str, int]:
        return {numbers.names[place]: counts[place] for place in numbers.places}

    drums = [{"given": dict(drum.amounts), "micromoles": by_name(drum.counts)} for drum in charge.drums]
    return {
        "reckoned_by": RECKONED,
        "drums": drums,
        "micromoles": by_name(charge.pool),
        "total_micromoles": charge.total,
        "kilograms": numbers.by_name(feed.kilograms) if feed.kilograms else None,
    }
