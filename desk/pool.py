"""Pooled drums (docs/FORMAT.md, "Drums"): counts of micromoles, their pool, and its mole fractions in the core's steps.
The library takes the drums themselves. The program `still` takes none: by the core's law a pooled call is answered as
the plain one with the pool's mole fractions in the question (crates/pools/specs/Plain.antt, `PoolAsPlain`), and that is
what it is asked."""

import struct
from dataclasses import replace
from typing import TYPE_CHECKING, Sequence, Tuple

from . import answer
from .blocks import sealed
from .book import MOST_SOLVENTS
from .feed import Fractions
from .question import Question

if TYPE_CHECKING:
    from .core import Core

Drum = Tuple[int, ...]  # micromoles of each solvent in the book's order; those left out are 0

DRUM_BYTES = 8 * MOST_SOLVENTS
MOST_DRUMS, MOST_TOTAL, MOST_COUNT = 64, 2**53, 2**64 - 1
DRUMS, TOTAL, NOT_MOLES = 31, 32, 36  # refusals: how many drums, how much in all, and a question by mass


def bytes_of(drums: Sequence[Drum]) -> bytes:
    """One drum behind the other."""
    return b"".join(struct.pack("<8Q", *drum, *[0] * (MOST_SOLVENTS - len(drum))) for drum in drums)


def pool_of(drums: Sequence[Drum], n: int) -> Drum:
    """The sum over the drums for each of n solvents."""
    return tuple(sum(drum[i] for drum in drums if i < len(drum)) for i in range(n))


def refusal_of(drums: Sequence[Drum], n: int) -> int:
    """31 or 32 as the core gives them, else 0."""
    if not 1 <= len(drums) <= MOST_DRUMS:
        return DRUMS
    return 0 if 1 <= sum(pool_of(drums, n)) <= MOST_TOTAL else TOTAL


def fractions_of(pool: Drum) -> Fractions:
    """Each count as a float over their sum in index order; zeros of a pool that holds nothing."""
    amounts = [float(count) for count in pool]
    total = 0.0
    for amount in amounts:
        total += amount
    return tuple(amount / total for amount in amounts) if total else (0.0,) * len(pool)


def solvents_in(book: bytes) -> int:
    """As word 2 of block 0 says."""
    return min(int.from_bytes(book[16:24], "little"), MOST_SOLVENTS)


def ask_plainly(core: "Core", question: Question, drums: Sequence[Drum]) -> answer.Blocks:
    """Numbers that stand ahead of 31 have task 0 in their block, and come from the core; without fractions it is never
    asked to calculate."""
    n = solvents_in(core.book)
    number = refusal_of(drums, n) or (NOT_MOLES if question.by_mass else 0)
    fractions = () if number else fractions_of(pool_of(drums, n))
    blocks = core.ask(replace(question, fractions=fractions, by_mass=False))
    if not number or blocks.head[answer.TASK] == 0:
        return blocks
    return answer.read(sealed([answer.KIND_ANSWER, question.task.number, number], core.rule), core.rule)
