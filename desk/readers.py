"""What the floor is shown of an answer, and what the lab is (docs/FORMAT.md, "The floor sheet and the lab sheet"). The
shared library reads the same (`library.floor`, `library.lab`), to a bit."""

from dataclasses import dataclass
from typing import List, Tuple

from . import answer
from .answer import Blocks
from .blocks import BLOCK, WORDS, float_of, floats_at, split, words_of
from .errors import DeskError
from .tasks import EXCESS

NO_ANSWER, NO_ROOM = 1, 10  # numbers
MOST_TRIALS = 8
TASK, REFUSAL, OUTCOME, T, P, VAPOR_FRACTION, LIQUID, VAPOR = 0, 1, 2, 3, 4, 5, 6, 14
PLACES = (*range(1, 6), answer.VAPOR_FRACTION, *range(answer.LIQUID, answer.VAPOR + 8))  # in the answer's block
FLOOR_WORDS = len(PLACES)
OF_EVERY_TASK = 5


class NoAnswer(DeskError):
    """Number 1."""

    def __init__(self) -> None:
        super().__init__("these bytes don't begin with the blocks of an answer (number 1)")


@dataclass(frozen=True)
class Floor:
    """The floor's 22 words, in order."""

    words: Tuple[int, ...]

    @property
    def task(self) -> int:
        return self.words[TASK]

    @property
    def refusal(self) -> int:
        return self.words[REFUSAL]

    @property
    def outcome(self) -> int:
        return self.words[OUTCOME]

    def real(self, at: int) -> float:
        return float_of(self.words[at])

    def entries(self, at: int, count: int) -> List[float]:
        """Of the first solvents, from LIQUID or VAPOR on."""
        return floats_at(list(self.words), at, count)

    def blocks(self) -> Blocks:
        """An answer that holds these words and no other: what isn't the floor's is 0."""
        head = [0] * WORDS
        head[0] = answer.KIND_ANSWER
        for place, word in zip(PLACES, self.words):
            head[place] = word
        return Blocks(head, ())


def lab(content: bytes) -> bytes:
    """The answer's block and its trials. Checks aren't tested, and what stands behind them isn't read."""
    kinds = [words[0] for words in split(content[: BLOCK * (1 + MOST_TRIALS)])]
    trials = words_of(content[:BLOCK])[answer.TRIALS] if kinds else 0
    due = [answer.KIND_ANSWER] + [answer.KIND_TRIAL] * min(trials, MOST_TRIALS)
    if trials > MOST_TRIALS or kinds[: len(due)] != due:
        raise NoAnswer
    return content[: BLOCK * len(due)]


def floor(content: bytes) -> Floor:
    """Words 1 to 5, 11 and 14 to 29; of task 1 with 0 for all after the first five."""
    head = words_of(lab(content)[:BLOCK])
    words = [head[place] for place in PLACES]
    if head[answer.TASK] == EXCESS.number:
        words[OF_EVERY_TASK:] = [0] * (FLOOR_WORDS - OF_EVERY_TASK)
    return Floor(tuple(words))
