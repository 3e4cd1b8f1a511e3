"""Where a book said no, beside the number that it was refused with (docs/FORMAT.md, "Where a book said no"): a block, a
pair of solvents with one CAS number, or the block that was offered. The library gives it as three words, the program
`still` in its sentence."""

import re
from typing import NamedTuple, Optional, Sequence, Tuple

from .book import due_pairs

WORDS = 3
KIND, BLOCK, I, J = 0, 1, 1, 2
NO_PLACE, A_BLOCK, A_PAIR, AN_OFFERED_BLOCK = range(4)  # kinds
_IN_A_SENTENCE = re.compile(r" \((?:block (\d+)|solvents (\d+) and (\d+)|the offered block)\)\.$")


class Place(NamedTuple):
    """The core's three words."""

    kind: int = NO_PLACE
    first: int = 0
    second: int = 0

    @property
    def words(self) -> str:
        """As they stand in a sentence; blocks and solvents count from 0."""
        return {
            A_BLOCK: f"block {self.first}",
            A_PAIR: f"solvents {self.first} and {self.second}",
            AN_OFFERED_BLOCK: "the offered block",
        }.get(self.kind, "")

    def solvents(self, n: int) -> Tuple[int, ...]:
        """In a book of n: the one of a solvent's block, or the two of a pair."""
        if self.kind == A_PAIR:
            return (self.first, self.second)
        own = [(i,) for i in range(n)] + due_pairs(n)
        return own[self.first - 1] if self.kind == A_BLOCK and 0 < self.first <= len(own) else ()


NOWHERE, OFFERED = Place(), Place(AN_OFFERED_BLOCK)


def read(sentence: str) -> Place:
    """What a sentence of the core names."""
    found = _IN_A_SENTENCE.search(sentence)
    if not found:
        return NOWHERE
    block, i, j = found.groups()
    return Place(A_BLOCK, int(block)) if block else Place(A_PAIR, int(i), int(j)) if i else OFFERED


def named(place: Place, names: Sequence[str], offered: Optional[Sequence[str]] = None) -> str:
    """Whose it is in a book of these solvents; `offered` are those of the offered block."""
    of = names_in(place, names, offered)
    if not of:
        return "block 0 is the head of the book" if place[:2] == (A_BLOCK, 0) else ""
    verb = "are" if place.kind == A_PAIR else "is that of"
    return f"{place.words} {verb} {' and '.join(of)}"


def names_in(place: Place, names: Sequence[str], offered: Optional[Sequence[str]] = None) -> Tuple[str, ...]:
    if place.kind == AN_OFFERED_BLOCK:
        return tuple(offered or ())
    return tuple(names[i] for i in place.solvents(len(names)))
