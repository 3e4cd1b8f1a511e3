"""The desk's side of the proved core: books, questions and answers in the words of the field.

Every number of an answer comes from the core; this package encodes, decodes, converts units and prints. Where a liquid
splits it searches for the two layers, and shows them only if the core's own answers bear them out. `./sheet` is its
command line, over the program target/bin/still. Another program imports it from the repository's root:

    import desk

    yard = desk.open_yard("yard/sample.txt")  # ethanol and water
    with desk.open_core(desk.encode(yard.book)) as core:
        blocks = core.ask(desk.Question(desk.FLASH, (0.5, 0.5), temperature=351.44, pressure=90000.0))

docs/LINKING.md has more of this, docs/FORMAT.md what the words of an answer hold."""

from pathlib import Path
from typing import Union

from . import answer, batch, distance, library, places, pool, queue, readers, refusals
from .answer import Blocks
from .book import Book, Correlation, Interval, Model, Pair, Solvent, WilsonPair, encode
from .core import Core
from .distance import Distance
from .errors import DeskError
from .library import Library, find
from .openbook import open_book, open_yard
from .pool import Drum
from .preview import Preview, pair_block
from .question import Options, Question
from .readers import Floor, NoAnswer
from .tasks import BUBBLE_PRESSURE, BUBBLE_TEMPERATURE, DEW_PRESSURE, DEW_TEMPERATURE, FLASH, STABILITY, TASKS, Task

EXCESS, RACHFORD_RICE, RACHFORD_RICE_NEGATIVE = TASKS[0], TASKS[7], TASKS[8]

__version__ = (Path(__file__).resolve().parent.parent / "VERSION").read_text(encoding="utf-8").strip()


def open_core(book: bytes) -> Union[Library, Core]:
    """Who answers about a book: the shared library in this process where it is built, the program `still` where not."""
    return Library(book) if find() else Core(book)


def floor(content: bytes) -> Floor:
    """What the floor is shown of an answer's blocks: by the shared library where it is built, else by `readers`."""
    return (library if library.offers("zektonk_floor") else readers).floor(content)


def lab(content: bytes) -> bytes:
    """What the lab is shown: the answer's block and its trials."""
    return (library if library.offers("zektonk_lab") else readers).lab(content)


__all__ = [
    "Blocks", "Book", "Core", "Correlation", "DeskError", "Distance", "Drum", "Floor", "Interval", "Library", "Model",
    "NoAnswer", "Options", "Pair", "Preview", "Question", "Solvent", "Task", "WilsonPair", "BUBBLE_PRESSURE",
    "BUBBLE_TEMPERATURE", "DEW_PRESSURE", "DEW_TEMPERATURE", "EXCESS", "FLASH", "RACHFORD_RICE",
    "RACHFORD_RICE_NEGATIVE", "STABILITY", "TASKS", "answer", "batch", "distance", "encode", "find", "floor", "lab",
    "open_book", "open_core", "open_yard", "pair_block", "places", "pool", "queue", "readers", "refusals",
]  # fmt: skip
