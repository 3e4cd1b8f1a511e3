"""A pair that is tried before it is entered: from --try, a section of a yard text, written out or in a file, or a
file that is a pair's block of 512 bytes. Nothing is written into the book."""

import re
import shlex
from dataclasses import dataclass, replace
from typing import TYPE_CHECKING, List, NamedTuple, Optional, Tuple, Union

from . import files, preview
from .blocks import BLOCK, Words, float_of, split, words_of
from .book import A_IJ, A_JI, ALPHA_IJ, BOUNDS, FLAG, INFERRED, TAU_IJ, TAU_JI, Model, pair_place, solvent_count
from .core import Core
from .errors import DeskError
from .library import Library
from .openbook import is_binary, shown
from .preview import Preview
from .sheet import NamedBook
from .yardtext import parse_pair

if TYPE_CHECKING:
    from .sheet import Sheet

WRITTEN_OUT = re.compile(r"\s*(?:\[\s*(pair\s[^\]]*)\]|(pair\s[^:=]*):)(.*)", re.DOTALL)
ON_THE_COMMAND_LINE = "the command line"
TRY_FORM = "'pair NAME NAME: key = value; key = value'"


class Word(NamedTuple):
    """Of a pair's block: what it is in the yard text's words, and whether it is a float."""

    name: str
    at: int
    is_float: bool = True


@dataclass(frozen=True)
class Offered:
    """A pair's block, as it goes to the core, and where it comes from."""

    block: bytes
    source: str
    option: str  # that gives it again


@dataclass(frozen=True)
class Tried:
    """What a sheet says of the pair: the book as it is, what was offered, the number that the core refuses the offered
    block with, or 0, and the book's own sheet of the same question."""

    book: NamedBook
    offered: Offered
    refusal: int = 0
    own: Optional["Sheet"] = None

    @property
    def places(self) -> Optional[Tuple[int, int]]:
        """Of the two solvents; None where the block doesn't name two of the book."""
        if len(self.offered.block) != BLOCK:
            return None
        i, j = words_of(self.offered.block)[preview.I : preview.J + 1]
        return (i, j) if i < j < solvent_count(self.book.content) else None

    @property
    def names(self) -> Optional[Tuple[str, str]]:
        return tuple(self.book.names[place] for place in self.places) if self.places else None

    @property
    def pair(self) -> str:
        return " and ".join(self.names) if self.names else "a pair"

    def absent(self, present: List[int]) -> List[str]:
        """Those of the two that aren't in a drum."""
        return [self.book.names[place] for place in self.places or () if place not in present]

    def words(self) -> Tuple[Words, Words]:
        """Those of the book's pair and of the offered one."""
        at = pair_place(solvent_count(self.book.content), *self.places)
        return split(self.book.content)[at], words_of(self.offered.block)

    def differing(self) -> List[Word]:
        """The words that are read and are not the same in both. An interval's bounds are read where it has one."""
        own, offered = self.words()
        bounds = range(BOUNDS, INFERRED + 1)
        return [
            word
            for word in words_of_pair(self.book.model, *self.names)
            if own[word.at] != offered[word.at] and (word.at not in bounds or own[FLAG] or offered[FLAG])
        ]


def words_of_pair(model: Model, first: str, second: str) -> List[Word]:
    rows = {
        Model.NRTL: [
            *_row(f"tau {first} {second}", TAU_IJ, ("t0", "t1, K", "t2", "t3, 1/K")),
            *_row(f"tau {second} {first}", TAU_JI, ("t0", "t1, K", "t2", "t3, 1/K")),
            *_row("alpha", ALPHA_IJ, ("a0", "a1, 1/K")),
        ],
        Model.WILSON: [
            *_row(f"wilson {first} {second}", A_IJ, ("a", "b, K")),
            *_row(f"wilson {second} {first}", A_JI, ("a", "b, K")),
        ],
    }[model]
    bounds = [Word("interval from, K", BOUNDS), Word("interval to, K", BOUNDS + 1)]
    return [*rows, Word("interval", FLAG, False), *bounds, Word("inferred", INFERRED, False)]


def _row(name: str, first: int, terms: Tuple[str, ...]) -> List[Word]:
    return [Word(f"{name} {term}", first + k) for k, term in enumerate(terms)]


def value_of(words: Words, word: Word) -> Union[float, bool, None]:
    """None of a bound of no interval."""
    if not word.is_float:
        return bool(words[word.at])
    return float_of(words[word.at]) if words[FLAG] or word.at not in (BOUNDS, BOUNDS + 1) else None


def offered_of(book: NamedBook, given: str) -> Offered:
    """From --try."""
    match = WRITTEN_OUT.fullmatch(given)
    if match:
        text = "\n".join([f"[{(match.group(1) or match.group(2)).strip()}]", *match.group(3).split(";")])
        return _from_text(book, text, ON_THE_COMMAND_LINE, given)
    try:
        content = files.read(given, "a pair to try")
    except DeskError as error:
        raise DeskError(f"--try: {error} (a file, or {TRY_FORM})") from None
    if is_binary(content):
        return Offered(content, shown(given), _option(shown(given)))
    try:
        text = content.decode("utf-8-sig")
    except UnicodeDecodeError:
        raise DeskError(f"--try: {given} is neither a text in UTF-8 nor a block of {BLOCK} bytes") from None
    return _from_text(book, text, shown(given), shown(given))


def _from_text(book: NamedBook, text: str, source: str, given: str) -> Offered:
    try:
        (i, j), pair = parse_pair(text, book.names, book.model or Model.NRTL, dict(book.volumes))
    except DeskError as error:
        where = "" if source == ON_THE_COMMAND_LINE else f" {source} is no pair to try:"
        raise DeskError(f"--try:{where} {error}") from None
    return Offered(preview.pair_block(book.content, i, j, pair), source, _option(given))


def _option(given: str) -> str:
    return f"--try {shlex.quote(given)}"


def trying(core: Union[Core, Library], book: NamedBook, offered: Offered) -> Tuple[Preview, NamedBook, Tried]:
    """Who is asked, the copy of the book that holds the pair, and what a sheet says of it."""
    asked = Preview(core, offered.block)
    copy = replace(book, content=asked.book, trying=offered.option)
    return asked, copy, Tried(book, offered, asked.refusal)
