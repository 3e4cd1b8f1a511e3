"""How far to the next phase change (docs/FORMAT.md, "A distance"): from a flash's pressure P the steps P + 100 s Pa for
s = 1, -1, 2, -2 and on to 1000, -1000, each one rounded addition, up to the first whose flash is accepted with another
outcome. The library has a call for it. The program `still` has none: by the core's law the steps are plain flashes
(crates/distances/specs), and that is how it is asked."""

from dataclasses import dataclass, replace
from typing import TYPE_CHECKING, Callable, Iterable, List, Optional, Sequence, Tuple, Union

from .answer import OUTCOME, Blocks
from .batch import OF_THE_BOOK, TASK, CallRefused
from .question import Question
from .tasks import FLASH

if TYPE_CHECKING:
    from .core import Core
    from .library import Library
    from .preview import Preview

STEP = 100.0  # Pa
MOST_STEPS = 1000  # each way
UP, DOWN = range(1, MOST_STEPS + 1), range(-1, -MOST_STEPS - 1, -1)
ORDER = tuple(s for both in zip(UP, DOWN) for s in both)
FOUND, STEPS, CHANGED, REFUSED = range(4)  # words of the call's result
WORDS = 4


@dataclass(frozen=True)
class Distance:
    """The first step with another outcome than at P, that outcome, and how many steps before it are refused. Where no
    step has another `steps` and `outcome` are None, and all that are refused are counted."""

    refused: int
    steps: Optional[int] = None
    outcome: Optional[int] = None

    @property
    def before(self) -> int:
        """How many of the core's steps stand before it."""
        return len(ORDER) if self.steps is None else ORDER.index(self.steps)


def of_words(words: Sequence[int]) -> Distance:
    """The call's result; s is in two's complement."""
    if not words[FOUND]:
        return Distance(words[REFUSED])
    steps = words[STEPS] - (1 << 64) if words[STEPS] >> 63 else words[STEPS]
    return Distance(words[REFUSED], steps, words[CHANGED])


def at_step(question: Question, steps: int) -> Question:
    """100 s is a float, so that the pressure is rounded once."""
    return replace(question, pressure=question.pressure + STEP * steps)


def tried(
    core: Union["Core", "Library", "Preview"],
    question: Question,
    outcome: int,
    steps: Iterable[int],
    done: Callable[[Blocks], Blocks] = lambda blocks: blocks,
) -> Tuple[Distance, List[int]]:
    """By plain flashes at these steps: the first with another outcome, and the numbers of those that are refused before
    it."""
    numbers: List[int] = []
    for s in steps:
        blocks = done(core.ask(at_step(question, s)))
        if blocks.refusal:
            numbers.append(blocks.refusal)
        elif blocks.head[OUTCOME] != outcome:
            return Distance(len(numbers), s, blocks.head[OUTCOME]), numbers
    return Distance(len(numbers)), numbers


def ask_plainly(core: Union["Core", "Preview"], question: Question) -> Distance:
    """The book's numbers, 12 for all tasks but the flash, those of the flash at P, then its steps in order."""
    found = core.ask_block(b"")
    if found.refusal in OF_THE_BOOK:
        raise CallRefused.by(found)
    if question.task != FLASH:
        raise CallRefused(TASK)
    blocks = core.ask(question)
    if blocks.refusal:
        raise CallRefused.by(blocks)
    return tried(core, question, blocks.head[OUTCOME], ORDER)[0]
