"""Striking: the shorter book and question of the drum's solvents alone, and the words in which the two sheets must
agree (docs/FORMAT.md, "The shorter sheet")."""

from dataclasses import dataclass
from typing import List, NamedTuple, Sequence, Tuple

from . import question as places
from .answer import LIQUID, TRIAL_COMPONENT, TRIAL_FRACTIONS, TRIALS, VAPOR, Blocks
from .blocks import Rule, Words, float_of, joined, sealed, split
from .book import due_pairs


def kept_places(fractions: Sequence[float]) -> List[int]:
    """A solvent is absent if its fraction is +0 or -0, otherwise kept."""
    return [place for place, fraction in enumerate(fractions) if fraction != 0]


def shorter_book(content: bytes, kept: List[int]) -> bytes:
    """Kept solvents' blocks and the pairs of two kept ones in the old order, numbered anew; all other words stay."""
    blocks = split(content)
    n = blocks[0][2]
    head = blocks[0][:2] + [len(kept)] + blocks[0][3:]
    solvents = [blocks[1 + i][:1] + [place] + blocks[1 + i][2:] for place, i in enumerate(kept)]
    pairs = [
        words[:1] + [kept.index(i), kept.index(j)] + words[3:]
        for (i, j), words in zip(due_pairs(n), blocks[1 + n :])
        if i in kept and j in kept
    ]
    return joined([head] + solvents + pairs)


def shorter_question(words: Words, kept: List[int], rule: Rule) -> bytes:
    """The kept fractions and K move up to the front; what stands behind them is left."""
    shorter = list(words)
    for at in (places.FRACTIONS, places.K_VALUES):
        for place, i in enumerate(kept):
            shorter[at + place] = words[at + i]
    return sealed(shorter, rule)


class Compared(NamedTuple):
    """A word of the longer sheet and its place, beside that of the shorter sheet. Block 0 is the answer, the trials
    follow."""

    block: int
    place: int
    shorter_place: int
    word: int
    shorter_word: int
    equal: bool


@dataclass(frozen=True)
class Comparison:
    """One of the groups of words that docs/FORMAT.md lists."""

    name: str
    words: Tuple[Compared, ...]

    @property
    def differing(self) -> List[Compared]:
        return [compared for compared in self.words if not compared.equal]


def same(a: int, b: int) -> bool:
    """Equal as 64 bits, or as floats +0 and -0."""
    return a == b or float_of(a) == 0 == float_of(b)


def compare(longer: Blocks, shorter: Blocks, kept: List[int]) -> List[Comparison]:
    head = [(0, longer.head, shorter.head)]
    groups = [
        _group("answer, words 0 to 13", head, _plain(range(0, 14))),
        _group("answer, words 30 to 62", head, _plain(range(30, 63))),
        _group("words 14 to 21, the kept solvents (liquid, or ln gamma)", head, _moved(LIQUID, kept)),
        _group("words 22 to 29, the kept solvents (vapor, or slopes)", head, _moved(VAPOR, kept)),
    ]
    if longer.trials or shorter.trials:
        trials = [(k, a, b) for k, (a, b) in enumerate(zip(longer.trials, shorter.trials), 1)]
        groups += [
            Comparison("number of trials", (_counted(len(longer.trials), len(shorter.trials)),)),
            _group("trials, words 0, 2 to 4 and 13 to 62", trials, _plain([0, 2, 3, 4, *range(13, 63)])),
            _group("trials, words 5 to 12, the kept solvents", trials, _moved(TRIAL_FRACTIONS, kept)),
            Comparison(
                "trials, word 1, the component at its new place", tuple(_component(*trial, kept) for trial in trials)
            ),
        ]
    return groups


def _plain(words: Sequence[int]) -> List[Tuple[int, int]]:
    return [(at, at) for at in words]


def _moved(at: int, kept: List[int]) -> List[Tuple[int, int]]:
    return [(at + i, at + place) for place, i in enumerate(kept)]


def _group(name: str, blocks: List[Tuple[int, Words, Words]], pairs: List[Tuple[int, int]]) -> Comparison:
    compared = (
        Compared(k, a, b, longer[a], shorter[b], same(longer[a], shorter[b]))
        for k, longer, shorter in blocks
        for a, b in pairs
    )
    return Comparison(name, tuple(compared))


def _counted(longer: int, shorter: int) -> Compared:
    return Compared(0, TRIALS, TRIALS, longer, shorter, longer == shorter)


def _component(k: int, longer: Words, shorter: Words, kept: List[int]) -> Compared:
    """A kept solvent, given by its new place."""
    a, b = longer[TRIAL_COMPONENT], shorter[TRIAL_COMPONENT]
    return Compared(k, TRIAL_COMPONENT, TRIAL_COMPONENT, a, b, a in kept and kept.index(a) == b)
