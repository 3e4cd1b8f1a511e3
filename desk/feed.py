"""What a drum holds: mole fractions, mass fractions, or weights, which are divided by their sum; or what several drums
pool to. The core converts a feed by mass; here are its steps once more, and the way back, for what a sheet shows beside
the core's numbers."""

import math
from dataclasses import dataclass
from typing import TYPE_CHECKING, Optional, Tuple

if TYPE_CHECKING:
    from .charge import Charge

Fractions = Tuple[float, ...]

MASSES = "mass fractions and kg, from the core's mole fractions and the book's molar masses"
RECKONED = f"this tool: the drum's mole fractions, in the core's steps; {MASSES}"


@dataclass(frozen=True)
class Feed:
    """`fractions` go to the core as they are, of moles or of mass; `given` are those before --normalize, and
    `kilograms` the weights that they come from. Of a `charge` both are its pool's."""

    fractions: Fractions
    by_mass: bool = False
    given: Optional[Fractions] = None
    kilograms: Optional[Fractions] = None
    charge: Optional["Charge"] = None

    @property
    def called(self) -> str:
        return "pool" if self.charge and len(self.charge.drums) > 1 else "drum"

    @property
    def reckoned(self) -> str:
        """Who is behind the numbers by mass."""
        return f"this tool: {MASSES}" if self.charge else RECKONED

    @property
    def kind(self) -> str:
        return "mass fractions" if self.by_mass else "mole fractions"

    @property
    def total(self) -> Optional[float]:
        """In kg."""
        return math.fsum(self.kilograms) if self.kilograms else None


def normalized(fractions: Fractions) -> Fractions:
    """Each divided by the sum; as they are where that is no positive number."""
    total = math.fsum(fractions)
    return tuple(x / total for x in fractions) if 0 < total < math.inf else fractions


def moles_of(masses: Fractions, fractions: Fractions) -> Optional[Fractions]:
    """Mass fractions as mole fractions, in the core's steps: each by its molar mass, then by the sum in index order.
    None where the core refuses with 34."""
    parts = [fraction / mass for fraction, mass in zip(fractions, masses)]
    total = 0.0
    for part in parts:
        total += part
    return tuple(part / total for part in parts) if 0 < total < math.inf else None


@dataclass(frozen=True)
class ByMass:
    """A drum that was given by mass: the book's molar masses (kg/mol), its mole fractions, its weight (kg) if known."""

    masses: Fractions
    moles: Fractions
    total: Optional[float] = None

    def fractions(self, moles: Fractions) -> Fractions:
        """Mass fractions of a phase."""
        weight = self._weight(moles)
        return tuple(x * mass / weight for x, mass in zip(moles, self.masses))

    def kilograms(self, moles: Fractions, amount: float) -> Fractions:
        """Of each solvent in a phase that has so many moles per mole of drum."""
        scale = self.total * amount / self._weight(self.moles)
        return tuple(scale * x * mass for x, mass in zip(moles, self.masses))

    def _weight(self, moles: Fractions) -> float:
        """Of one mole, kg."""
        return math.fsum(x * mass for x, mass in zip(moles, self.masses))


def by_mass(masses: Optional[Fractions], feed: Feed) -> Optional[ByMass]:
    """None of a drum by moles, of one that the core can't convert, and of a pool without weights or that it refuses."""
    if feed.charge:
        moles = feed.fractions if feed.kilograms and not feed.charge.refusal else None
    else:
        moles = moles_of(masses, feed.fractions) if feed.by_mass and masses else None
    return ByMass(masses, moles, feed.total) if moles else None
