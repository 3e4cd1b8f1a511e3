"""A pair tried in place of the book's own (docs/FORMAT.md, "A pair that is offered"). The library takes the offered
block. The program `still` takes none: by the core's law a preview is answered as the plain call on a copy of the book
that holds it (crates/previews/specs/Copy.antt, `PreviewAsCopy`), and that is what it is asked about."""

from typing import TYPE_CHECKING, List, Sequence, Union

from . import answer, batch, distance, pool
from .blocks import BLOCK, check_right, float_of, rule_of, sealed, words_of
from .book import ALPHA_IJ, ALPHA_JI, B_JI, BOUNDS, FLAG, INFERRED, KIND_PAIR, TAU_IJ, AnyPair, Model
from .book import model_of, pair_place, pair_words, solvent_count
from .distance import Distance
from .feed import Fractions
from .pool import Drum
from .question import Question

if TYPE_CHECKING:
    from .core import Core
    from .library import Library

LENGTH, CHECK, PLACES, NUMBERS, ALPHAS = 1, 2, 7, 8, 9  # refusals of the offered block, in this order
QUESTION = 11  # what the core says to no question at all, once book and offered block have passed
LAST = {Model.NRTL: ALPHA_JI + 1, Model.WILSON: B_JI}  # word of a pair's parameters
I, J = 1, 2


def refusal_of(offered: bytes, book: bytes) -> int:
    """1, 2, 7, 8 or 9 as the core gives them to the block that is offered to an accepted book, else 0."""
    if len(offered) != BLOCK:
        return LENGTH
    words, model = words_of(offered), model_of(book)
    if not check_right(words, rule_of(book)):
        return CHECK
    placed = words[0] == KIND_PAIR and words[I] < words[J] < solvent_count(book)
    if not placed or words[FLAG] > 1 or words[INFERRED] > 1:
        return PLACES
    read = words[TAU_IJ : LAST[model] + 1] + (words[BOUNDS : BOUNDS + 2] if words[FLAG] else [])
    if not all(_finite(word) for word in read):
        return NUMBERS
    alphas = [[float_of(word) for word in words[at : at + 2]] for at in (ALPHA_IJ, ALPHA_JI)]
    return ALPHAS if model is Model.NRTL and alphas[0] != alphas[1] else 0


def _finite(word: int) -> bool:
    return word >> 52 & 0x7FF != 0x7FF


def pair_block(book: bytes, i: int, j: int, pair: AnyPair) -> bytes:
    """A pair of solvents i < j as it is offered to a book, checked by the book's rule."""
    return sealed(pair_words(i, j, pair), rule_of(book))


def copy_of(book: bytes, offered: bytes) -> bytes:
    """The book with the offered block in place of the pair that it names."""
    words = words_of(offered)
    at = BLOCK * pair_place(solvent_count(book), words[I], words[J])
    return book[:at] + offered + book[at + BLOCK :]


class Preview:
    """Asks about a book with an offered block in place of its pair, as `Core` and `Library` ask about a book. `refusal`
    is the number that the core gives to the offered block, or 0; then `book` is the copy that holds it."""

    def __init__(self, core: Union["Core", "Library"], offered: bytes):
        self.core, self.offered, self.rule = core, offered, core.rule
        number = core.ask_preview(b"", offered).refusal
        self.of_the_book = core.ask_block(b"").refusal != QUESTION
        self.refusal = 0 if self.of_the_book or number == QUESTION else number
        self.book = core.book if self.of_the_book or self.refusal else copy_of(core.book, offered)

    def __enter__(self) -> "Preview":
        return self

    def __exit__(self, *_: object) -> None:
        self.core.__exit__()

    def ask(self, question: Question) -> answer.Blocks:
        return self.ask_block(question.block(self.rule))

    def ask_block(self, block: bytes) -> answer.Blocks:
        return self.core.ask_preview(block, self.offered)

    def ask_pooled(self, question: Question, drums: Sequence[Drum]) -> answer.Blocks:
        """The core has no call for both: the pool's fractions go into the question."""
        return pool.ask_plainly(self, question, drums)

    def ask_feeds(self, question: Question, feeds: Sequence[Fractions]) -> List[answer.Blocks]:
        """One after another: the core has no call for both."""
        return batch.ask_plainly(self, question, feeds)

    def ask_distance(self, question: Question) -> Distance:
        """Step by step: the core has no call for both."""
        return distance.ask_plainly(self, question)
