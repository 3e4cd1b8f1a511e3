"""A yard: a book with the names of its solvents, and what its text says besides."""

from dataclasses import dataclass, field
from fractions import Fraction
from typing import Dict, List, Optional, Tuple

from .book import Book


@dataclass(frozen=True)
class BoilingCheck:
    """A published boiling point of a solvent."""

    kelvin: float
    pascals: float
    within: float


@dataclass(frozen=True)
class MixtureCheck:
    """A published azeotrope or boiling point of a pair, at the named solvent's mole fraction. An azeotrope may have
    limits of its own, in K and in the mole fraction."""

    solvent: str
    fraction: float
    kelvin: float
    pascals: float
    within: Optional[Tuple[float, float]] = None


@dataclass(frozen=True)
class SolubilityCheck:
    """A published mole fraction of a solvent in the layer of another."""

    solvent: str
    fraction: float
    layer: str
    kelvin: float


@dataclass(frozen=True)
class Yard:
    """A book with the names of its solvents, and what its text says besides."""

    names: Tuple[str, ...]
    book: Book
    sources: Dict[Tuple[str, ...], str] = field(default_factory=dict)
    boiling: Dict[str, BoilingCheck] = field(default_factory=dict)
    azeotropes: Dict[Tuple[str, str], MixtureCheck] = field(default_factory=dict)
    mixtures: Dict[Tuple[str, str], List[MixtureCheck]] = field(default_factory=dict)
    heteroazeotropes: Dict[Tuple[str, str], MixtureCheck] = field(default_factory=dict)  # the fraction is the vapor's
    solubilities: Dict[Tuple[str, str], List[SolubilityCheck]] = field(default_factory=dict)
    volumes: Dict[str, Fraction] = field(default_factory=dict)  # molar, m3/mol, as the text has them
    version: Optional[int] = None  # of the book.bin that it came from

    @property
    def lacking(self) -> Tuple[str, ...]:
        """The solvents without a molar mass."""
        return tuple(name for name, solvent in zip(self.names, self.book.solvents) if solvent.molar_mass is None)

    @property
    def has_published(self) -> bool:
        return any((self.boiling, self.azeotropes, self.mixtures, self.heteroazeotropes, self.solubilities))
