"""A shift's flash questions under one allowance of activity evaluations (docs/FORMAT.md, "A queue"): up to 64 in one
call, each run where all that it could begin is left. The library takes them all. The program `still` takes one, and of
a refused flash it doesn't say how many evaluations it began: there one that may have begun some takes all that it asked
for, so that the allowance is never exceeded."""

from dataclasses import dataclass, replace
from typing import TYPE_CHECKING, Callable, List, Optional, Sequence, Tuple, Union

from . import answer
from .batch import OF_THE_BOOK, CallRefused
from .blocks import Rule, sealed
from .book import molar_masses
from .errors import DeskError
from .feed import Fractions, moles_of
from .question import Question
from .tasks import FLASH

if TYPE_CHECKING:
    from .core import Core
    from .library import Library

MOST_QUESTIONS = 64
QUEUE = 39  # refusal: how many questions, and a task that isn't the flash
MOST_ITERATIONS = 1_000_000
NOT_FINITE, SUM, NORMALIZED, ALPHA = 15, 18, 34, 24
SUM_TOLERANCE = 1e-10
AHEAD = (11, 13, 14, 16, 19, 20, 21, 22, 23, 36)  # refusals that stand ahead of every evaluation


def most_evaluations(present: int, max_iterations: int) -> int:
    """What a flash can begin at most, and asks for in a queue; `present` mole fractions of its feed are positive."""
    return (present + 2) * max_iterations + 4


def moles(question: Question, book: bytes) -> Optional[Fractions]:
    """Of a question's feed, one by mass converted in the core's steps; None where that can't be."""
    masses = molar_masses(book)
    if not question.by_mass:
        return question.fractions
    return moles_of(masses, question.fractions) if masses else None


def asks_for(question: Question, book: bytes) -> int:
    """In a queue, of a question that isn't refused ahead of its first evaluation."""
    present = sum(fraction > 0 for fraction in moles(question, book) or ())
    return most_evaluations(present, question.options.max_iterations)


def bytes_of(questions: Sequence[Question], rule: Rule) -> bytes:
    """One question behind the other."""
    return b"".join(question.block(rule) for question in questions)


@dataclass(frozen=True)
class Queued:
    """What became of a question: it asked for so many evaluations, took some, and so many were left behind it. Not
    `exact` where it took what it asked for, since nothing tells how many it began."""

    blocks: answer.Blocks
    asks: int
    took: int
    left: int
    exact: bool = True


def run(
    core: Union["Core", "Library"],
    questions: Sequence[Question],
    allowance: int,
    done: Callable[[Queued], Queued] = lambda entry: entry,
) -> List[Queued]:
    """Any number of them, up to 64 in a call: what one call leaves is the next one's allowance."""
    found: List[Queued] = []
    left = allowance
    for start in range(0, len(questions), MOST_QUESTIONS):
        part = questions[start : start + MOST_QUESTIONS]
        for question, blocks in zip(part, core.ask_queue(part, left)):
            found.append(done(_queued(core, question, blocks, left)))
            left = found[-1].left
    return found


def _queued(core: Union["Core", "Library"], question: Question, blocks: answer.Blocks, left: int) -> Queued:
    asks, exact = asks_for(question, core.book), True
    if blocks.put_off:
        took = 0
    elif blocks.accepted:
        took = blocks.head[answer.EVALUATIONS]
    else:
        took, exact = core.begun(question, blocks.refusal)
    if blocks.put_off != (asks > left) and (took or not blocks.refusal) or took > asks:
        raise DeskError("the core's queue doesn't agree with its own counts of evaluations")
    return Queued(blocks, asks, took, left - took, exact)


# by the program, a question at a time


def ask_plainly(core: "Core", questions: Sequence[Question], allowance: int) -> List[answer.Blocks]:
    """In order. One that doesn't fit is asked with a limit of one iteration, to see whether it is refused ahead of its
    first evaluation."""
    whole = core.ask_block(b"")
    if whole.refusal in OF_THE_BOOK:
        raise CallRefused.by(whole)
    if not 1 <= len(questions) <= MOST_QUESTIONS or any(question.task != FLASH for question in questions):
        raise CallRefused(QUEUE)
    found: List[answer.Blocks] = []
    left = allowance
    for question in questions:
        fits = asks_for(question, core.book) <= left
        blocks = core.ask(question if fits else _with_one_iteration(question))
        if fits and blocks.accepted:
            left -= blocks.head[answer.EVALUATIONS]
        elif fits:
            left -= begun_at_most(core, question, blocks.refusal)[0]
        elif blocks.accepted or not _ahead(core, question, blocks.refusal):
            blocks = put_off(core.rule)
        found.append(blocks)
    return found


def put_off(rule: Rule) -> answer.Blocks:
    """The block of a question that isn't run."""
    return answer.read(sealed([answer.KIND_ANSWER, FLASH.number, 0, answer.PUT_OFF], rule), rule)


def _with_one_iteration(question: Question) -> Question:
    """The same up to its first evaluation."""
    if not 1 <= question.options.max_iterations <= MOST_ITERATIONS:
        return question
    return replace(question, options=replace(question.options, max_iterations=1))


def begun_at_most(core: "Core", question: Question, number: int) -> Tuple[int, bool]:
    """What a question that was refused with the number began, and whether that is exact. An alpha that isn't positive
    is found in the first evaluation."""
    if _ahead(core, question, number):
        return 0, True
    return (1, True) if number == ALPHA else (asks_for(question, core.book), False)


def _ahead(core: "Core", question: Question, number: int) -> bool:
    """Whether the refusal stands ahead of every evaluation. 15, 18 and 34 do where they are the feed's own; of 25 that
    isn't known here."""
    return number in AHEAD or number == _of_the_feed(question, core.book)


def _of_the_feed(question: Question, book: bytes) -> int:
    """15, 18 or 34 as the core puts them to a feed, else 0."""
    fractions = question.fractions
    if not all(abs(fraction) < float("inf") for fraction in fractions):
        return NOT_FINITE
    total = 0.0
    for fraction in fractions:
        total += fraction
    if not abs(total - 1) <= SUM_TOLERANCE:
        return SUM
    return 0 if moles(question, book) else NORMALIZED


# by the library


def begun_by(library: "Library", question: Question, number: int) -> Tuple[int, bool]:
    """What a question that was refused with the number began. No call says so; but behind it another question is run
    just where enough is left, and so the count is found by halving."""
    if number in AHEAD or not library.ask_queue([question], 0)[0].put_off:
        return 0, True
    limit, asks = question.options.max_iterations, asks_for(question, library.book)
    each = (asks - 4) // limit  # m + 2

    def is_at_most(count: int) -> bool:
        shorter = max(1, limit - count // each)
        behind = replace(question, options=replace(question.options, max_iterations=shorter))
        return not library.ask_queue([question, behind], each * shorter + 4 + count)[1].put_off

    low, high = 1, asks
    while low < high:
        middle = (low + high) // 2
        low, high = (low, middle) if is_at_most(middle) else (middle + 1, high)
    return low, True
