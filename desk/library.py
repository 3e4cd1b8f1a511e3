"""The core as a shared library in this process: where libzektonk.so is, and one call of it (docs/LINKING.md)."""

import ctypes
import os
from dataclasses import replace
from pathlib import Path
from typing import Callable, List, Optional, Sequence, Tuple

from . import answer, batch, distance, places, queue, readers
from .blocks import BLOCK, rule_of, sealed, words_of
from .core import ROOT
from .distance import Distance
from .errors import DeskError
from .feed import Fractions
from .places import NOWHERE, Place
from .pool import Drum, bytes_of
from .question import Question
from .readers import FLOOR_WORDS, Floor, NoAnswer

NAME = "libzektonk.so"
FOLDER = ROOT / "target" / "staticlib"
ANSWER_ROOM, SENTENCE_ROOM = 9 * BLOCK, 160
# as much as the program reads: one block more than any book has, one byte more than a question
BOOK_MOST, QUESTION_MOST = 38 * BLOCK, BLOCK + 1
WITHOUT_TASK = (*range(1, 13), 35, 37, 38)  # refusals that are found before the task is known
_LENT = [ctypes.c_char_p, ctypes.c_size_t]
_WORDS = [ctypes.POINTER(ctypes.c_uint64), ctypes.c_size_t]
_ARGUMENTS = {
    "zektonk_answer_placed": [*_LENT * 3, *_WORDS],
    "zektonk_queue_placed": [*_LENT * 2, ctypes.c_uint64, *_LENT, *_WORDS],
    "zektonk_distance_placed": [*_LENT * 2, *_WORDS * 2],
    "zektonk_floor": [*_LENT, *_WORDS],
    "zektonk_lab": _LENT,
    "zektonk_sentence": [ctypes.c_uint64, *_WORDS, *_LENT, ctypes.POINTER(ctypes.c_uint64)],
}  # of the calls that don't take four slices of bytes and a place


def folder() -> Path:
    """The folder in ZEKTONK_LIB, seen from where the user stands; by default that of the repository."""
    return Path(os.environ["ZEKTONK_LIB"]) if os.environ.get("ZEKTONK_LIB") else FOLDER


def find() -> Optional[Path]:
    """The library, where it is built."""
    path = folder() / NAME
    return path.resolve() if path.is_file() else None


def offers(name: str) -> bool:
    """Whether it is built, and has a call of this name."""
    path = find()
    try:
        return path is not None and bool(_loaded(path, name))
    except DeskError:
        return False


class Library:
    """Asks the core about one book, as `Core` does. Threads may share one: a call keeps nothing."""

    def __init__(self, book: bytes, path: Optional[Path] = None):
        self.path = _there(path)
        self.book = book[:BOOK_MOST]
        self.rule = rule_of(self.book)
        _loaded(self.path, "zektonk_answer_placed")

    def __enter__(self) -> "Library":
        return self

    def __exit__(self, *_: object) -> None:
        pass

    def ask(self, question: Question) -> answer.Blocks:
        return self.ask_block(question.block(self.rule))

    def ask_block(self, block: bytes) -> answer.Blocks:
        return self._read(*self._written("zektonk_answer_placed", block))

    def ask_bytes(self, block: bytes) -> bytes:
        """What the program `still` writes: the answer's blocks, or one block with the refusal's number."""
        return self._written("zektonk_answer_placed", block)[0]

    def ask_pooled(self, question: Question, drums: Sequence[Drum]) -> answer.Blocks:
        """With the pool of the drums as the feed."""
        written = self._written("zektonk_pooled_placed", question.block(self.rule), bytes_of(drums))
        return self._read(*written)

    def pooled_bytes(self, block: bytes, drums: bytes) -> bytes:
        """The same as `ask_bytes` with drums, 64 bytes each."""
        return self._written("zektonk_pooled_placed", block, drums)[0]

    def ask_feeds(self, question: Question, feeds: Sequence[Fractions]) -> List[answer.Blocks]:
        """With each of 1 to 64 feeds in place of the question's fractions, in one call."""
        lent = _lent(self.book, question.block(self.rule), batch.bytes_of(feeds))
        return self._parts("zektonk_feeds_placed", len(feeds), *lent)

    def ask_preview(self, block: bytes, offered: bytes) -> answer.Blocks:
        """With an offered block in place of the book's pair of the same two solvents."""
        return self._read(*self._previewed(block, offered))

    def preview_bytes(self, block: bytes, offered: bytes) -> bytes:
        """The same as `ask_bytes` with an offered block."""
        return self._previewed(block, offered)[0]

    def _previewed(self, block: bytes, offered: bytes) -> Tuple[bytes, Place]:
        asked = block[:QUESTION_MOST]
        return self._ended("zektonk_preview_placed", asked, _lent(self.book, offered, asked))

    def ask_queue(self, questions: Sequence[Question], allowance: int) -> List[answer.Blocks]:
        """1 to 64 flash questions in one call, under one allowance of evaluations."""
        lent = _lent(self.book, queue.bytes_of(questions, self.rule))
        return self._parts("zektonk_queue_placed", len(questions), *lent, allowance)

    def begun(self, question: Question, number: int) -> Tuple[int, bool]:
        """How many evaluations a flash began that was refused with the number."""
        return queue.begun_by(self, question, number)

    def ask_distance(self, question: Question) -> Distance:
        """From a flash's pressure to the first step with another outcome, in one call."""
        words = (ctypes.c_uint64 * distance.WORDS)()
        lent = _lent(self.book, question.block(self.rule))
        self._expect_answered(*self._called("zektonk_distance_placed", *lent, words, distance.WORDS))
        return distance.of_words(words)

    def _parts(self, name: str, count: int, *lent: object) -> List[answer.Blocks]:
        """What a call writes that has so many parts of the answer slice."""
        room = ctypes.create_string_buffer(ANSWER_ROOM * max(count, 1))
        self._expect_answered(*self._called(name, *lent, room, len(room)))
        return [self._with_sentence(blocks) for blocks in batch.parts_of(room.raw, count, self.rule)]

    def _written(self, name: str, block: bytes, *drums: bytes) -> Tuple[bytes, Place]:
        asked = block[:QUESTION_MOST]
        return self._ended(name, asked, _lent(self.book, asked, *drums))

    def _ended(self, name: str, asked: bytes, lent: List[object]) -> Tuple[bytes, Place]:
        room = ctypes.create_string_buffer(ANSWER_ROOM)
        number, place = self._called(name, *lent, room, ANSWER_ROOM)
        if number:
            task = 0 if number in WITHOUT_TASK else words_of(asked)[answer.TASK]
            return sealed([answer.KIND_ANSWER, task, number], self.rule), place
        trials = int.from_bytes(room[8 * answer.TRIALS : 8 * answer.TRIALS + 8], "little")
        return room[: BLOCK * (1 + trials)], place

    def _called(self, name: str, *lent: object) -> Tuple[int, Place]:
        """The number, and where the book said no."""
        words = (ctypes.c_uint64 * places.WORDS)()
        number = _loaded(self.path, name)(*lent, words, places.WORDS)
        return number, Place(*words)

    def _read(self, written: bytes, place: Place) -> answer.Blocks:
        return self._with_sentence(answer.read(written, self.rule), place)

    def _with_sentence(self, blocks: answer.Blocks, place: Place = NOWHERE) -> answer.Blocks:
        if not blocks.refusal:
            return blocks
        return replace(blocks, place=place, said=sentence(blocks.refusal, place, self.path))

    def _expect_answered(self, number: int, place: Place) -> None:
        if number:
            raise batch.CallRefused(number, place, sentence(number, place, self.path))


def sentence(number: int, place: Place = NOWHERE, path: Optional[Path] = None) -> str:
    """A refusal in words; `refusals.sentence` by the core. A place that the number can't have is left out."""
    text, length = ctypes.create_string_buffer(SENTENCE_ROOM), ctypes.c_uint64()
    words = (ctypes.c_uint64 * places.WORDS)(*place)
    call = _loaded(_there(path), "zektonk_sentence")
    if call(number, words, places.WORDS, text, SENTENCE_ROOM, ctypes.byref(length)):
        raise DeskError(f"{number} is no refusal number")
    return text.raw[: length.value].decode("ascii")


def floor(content: bytes, path: Optional[Path] = None) -> Floor:
    """What the floor is shown of an answer; `readers.floor` by the core."""
    words = (ctypes.c_uint64 * FLOOR_WORDS)()
    if _loaded(_there(path), "zektonk_floor")(content, len(content), words, FLOOR_WORDS) == readers.NO_ANSWER:
        raise NoAnswer
    return Floor(tuple(words))


def lab(content: bytes, path: Optional[Path] = None) -> bytes:
    """What the lab is; `readers.lab` by the core."""
    length = _loaded(_there(path), "zektonk_lab")(content, len(content))
    if not length:
        raise NoAnswer
    return content[:length]


def _there(path: Optional[Path]) -> Path:
    found = path or find()
    if found is None:
        raise DeskError(f"the library {folder() / NAME} is not there; scripts/shared-library builds it")
    return found


def _lent(*slices: bytes) -> List[object]:
    """Each with its length."""
    return [part for lent in slices for part in (lent, len(lent))]


def _loaded(path: Path, name: str) -> Callable[..., int]:
    """A call of bindings/c/zektonk.h. ctypes lets other threads run during it."""
    try:
        call = ctypes.CDLL(str(path))[name]
    except (OSError, AttributeError) as error:
        raise DeskError(f"the library {path} can't be called: {error}") from None
    call.argtypes = _ARGUMENTS.get(name, [*_LENT * 4, *_WORDS])
    call.restype = ctypes.c_size_t if name == "zektonk_lab" else ctypes.c_uint64
    return call
