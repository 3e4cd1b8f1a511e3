"""One sheet: a book with its names, a question, the core's answer to it, and what the desk found about the answer."""

import hashlib
import os
import time
from dataclasses import dataclass
from fractions import Fraction
from typing import TYPE_CHECKING, List, Optional, Sequence, Tuple

from .answer import Blocks
from .blocks import floats_at
from .book import Model, model_of, model_word, molar_masses
from .errors import DeskError
from .feed import ByMass, Feed, Fractions, by_mass
from .question import Options, Question
from .text import counted, exact

if TYPE_CHECKING:  # both need the names below
    from .judgement import Judgement
    from .ranges import Ranges
    from .tried import Tried

DEFAULT_BOOK = "yard/yard.txt"  # from the root of the repository
SHORT = 12  # hex digits of a checksum that are enough to tell two books apart
UNCONVERTED = (*range(1, 19), 35, 36, 37, 38)  # refusals that stand ahead of the conversion of a feed by mass
DATE_SETTING = "SOURCE_DATE_EPOCH"  # seconds since 1970; fixes the date (UTC), as reproducible builds have it


@dataclass(frozen=True)
class NamedBook:
    """The bytes of a book, the names and CAS numbers of its solvents in order, the file that it came from, and those
    solvents whose molar mass its text lacks; molar volumes (m3/mol) that the text has. Of a copy with a pair that is
    tried the option that tries it."""

    content: bytes
    names: Tuple[str, ...]
    cas: Tuple[int, ...]
    file: str
    lacking: Tuple[str, ...] = ()
    volumes: Tuple[Tuple[str, Fraction], ...] = ()
    trying: str = ""

    @property
    def molar_masses(self) -> Optional[Fractions]:
        """In kg/mol; None of a book that has none."""
        return molar_masses(self.content)

    def expect_masses(self, otherwise: str = "mole fractions") -> None:
        """A drum by mass needs the molar mass of every solvent of the book, absent ones too."""
        if self.lacking:
            raise DeskError(
                f"a drum by mass needs the molar mass of every solvent of {self.file}, which lacks that of "
                f"{', '.join(self.lacking)}: add 'molar mass = ... g/mol' there, or give {otherwise}"
            )
        if self.molar_masses is None:
            raise DeskError(
                f"a drum by mass needs molar masses, and {self.file} is a book of version 1, which has none: make it "
                f"again with ./sheet book from a text that has them, or give {otherwise}"
            )

    @property
    def model(self) -> Optional[Model]:
        """None of a book that the core refuses with 37."""
        return model_of(self.content)

    @property
    def model_words(self) -> str:
        return self.model.title if self.model else f"model {model_word(self.content)}"

    def shows_layers(self, present: Sequence[int]) -> bool:
        """Whether the book's model could show two layers of these solvents. Of one alone it needn't."""
        return self.model is not Model.WILSON or len(present) < 2

    def one_layer(self, passed: Optional[bool], present: Sequence[int]) -> Optional[bool]:
        """What a liquid that passed its trials says of the drum: nothing where none can fail."""
        return None if passed and not self.shows_layers(present) else passed

    def one_layer_words(self, present: Sequence[int]) -> str:
        """Of a liquid that passed its trials."""
        return "yes" if self.shows_layers(present) else "assumed (Wilson's equation can't show two)"

    @property
    def checksum(self) -> str:
        return checksum(self.content)


def book_words(book: NamedBook, details: bool) -> str:
    """For the head of a sheet."""
    digest = book.checksum if details else book.checksum[:SHORT]
    return f"{book.file}, {counted(len(book.names), 'solvent')}, {book.model_words}, SHA-256 {digest}"


def book_options(book: NamedBook) -> List[str]:
    """For a command to paste."""
    return ([f"--book {book.file}"] if book.file != DEFAULT_BOOK else []) + ([book.trying] if book.trying else [])


def checksum(content: bytes) -> str:
    """SHA-256 of the book.bin, as sha256sum prints it."""
    return hashlib.sha256(content).hexdigest()


def today() -> str:
    fixed = os.environ.get(DATE_SETTING, "")
    moment = time.gmtime(int(fixed)) if fixed.isdigit() else time.localtime()
    return time.strftime("%Y-%m-%d %H:%M", moment)


@dataclass(frozen=True)
class Sheet:
    """`ranges` is None where there is no temperature. With a pair that is tried `book` is the copy that holds it, and
    `tried` has the book itself."""

    book: NamedBook
    feed: Feed
    question: Question
    blocks: Blocks
    judgement: "Judgement"
    ranges: Optional["Ranges"] = None
    label: str = ""
    date: str = ""
    tried: Optional["Tried"] = None

    @property
    def offered_refused(self) -> bool:
        """Whether the refusal is of the pair that is tried, and not of the book."""
        return bool(self.tried and self.tried.refusal)

    @property
    def by_mass(self) -> Optional[ByMass]:
        """None too where the core refused before it converted."""
        return None if self.blocks.refusal in UNCONVERTED else by_mass(self.book.molar_masses, self.feed)

    @property
    def moles(self) -> Fractions:
        """Mole fractions of the drum; of one by mass that the core can't convert the mass fractions."""
        found = self.by_mass
        return found.moles if found else self.feed.fractions

    def present(self) -> List[int]:
        """Places of the solvents in the drum: fraction neither +0 nor -0."""
        return [place for place, fraction in enumerate(self.question.fractions) if fraction != 0]

    def absent(self) -> List[int]:
        return [place for place, fraction in enumerate(self.question.fractions) if fraction == 0]

    def entries(self, at: int) -> List[float]:
        """One float for each solvent of the book, from word `at` of the answer block."""
        return floats_at(self.blocks.head, at, len(self.book.names))


def feed_words(book: NamedBook, feed: Feed) -> str:
    """The option that gives a drum again."""
    if feed.charge:
        return " ".join(drum.option for drum in feed.charge.drums)
    if feed.kilograms:
        return f"--drum {drum_words(book, feed.kilograms, unit='kg')}"
    return f"{'--mass' if feed.by_mass else '--drum'} {drum_words(book, feed.fractions)}"


def flash_command(book: NamedBook, feed: Feed, question: Question) -> str:
    """A flash's own sheet, to paste."""
    words = [f"./sheet flash {feed_words(book, feed)}"]
    words += [f"--temperature {exact(question.temperature)}K", f"--pressure {exact(question.pressure)}Pa"]
    for name in ("max_iterations", "tolerance", "tm_threshold"):
        value, option = getattr(question.options, name), name.replace("tm_", "").replace("_", "-")
        words += [f"--{option} {value}"] if value != getattr(Options, name) else []
    return " ".join(words + book_options(book))


def drum_words(book: NamedBook, fractions: Sequence[float], digits: int = 17, unit: str = "") -> str:
    """As --drum takes it; no more digits than the float needs."""

    def written(value: float) -> str:
        return f"{value:.12g}" if digits == 12 or float(f"{value:.12g}") == value else repr(value)

    return ",".join(f"{book.names[i]}={written(x)}{unit}" for i, x in enumerate(fractions) if x != 0)
