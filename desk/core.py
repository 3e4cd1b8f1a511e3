"""The proved program: where it is, and one call of it."""

import os
import re
import select
import subprocess
import tempfile
from dataclasses import replace
from pathlib import Path
from typing import Dict, List, Sequence, Tuple

from . import answer, batch, distance, places, pool, preview, queue
from .blocks import rule_of, sealed
from .distance import Distance
from .errors import DeskError
from .feed import Fractions
from .pool import Drum
from .question import Question

ROOT = Path(__file__).resolve().parent.parent
PROGRAM = ROOT / "target" / "bin" / "still"
BOOK_NAME = "book.bin"
SECONDS = 300  # no question within the limits takes as long
MOST_BYTES = 1 << 16  # an answer has 4,608 bytes at most, a sentence 160
SENTENCE = re.compile(r"\d+: [ -~]+\.")


class Core:
    """Asks the program about one book, which lies in a temporary folder of its own until `close`. An answer is kept:
    a question that is asked again costs no second run."""

    def __init__(self, book: bytes, program: Path = PROGRAM):
        if not os.access(program, os.X_OK) or program.is_dir():
            raise DeskError(f"the program {program} is not there; ./sheet demo builds it (scripts/program)")
        self.program = program.resolve()
        self.book, self.rule = book, rule_of(book)
        self._folder = tempfile.TemporaryDirectory(prefix="sheet-")
        self._answers: Dict[bytes, answer.Blocks] = {}
        self._copies: Dict[bytes, Core] = {}  # of the book, with a pair that is offered
        (Path(self._folder.name) / BOOK_NAME).write_bytes(book)

    def __enter__(self) -> "Core":
        return self

    def __exit__(self, *_: object) -> None:
        for copy in self._copies.values():
            copy.__exit__()
        self._folder.cleanup()

    def ask(self, question: Question) -> answer.Blocks:
        return self.ask_block(question.block(self.rule))

    def ask_pooled(self, question: Question, drums: Sequence[Drum]) -> answer.Blocks:
        """With the pool of the drums as the feed."""
        return pool.ask_plainly(self, question, drums)

    def ask_feeds(self, question: Question, feeds: Sequence[Fractions]) -> List[answer.Blocks]:
        """With each of 1 to 64 feeds in place of the question's fractions."""
        return batch.ask_plainly(self, question, feeds)

    def ask_preview(self, block: bytes, offered: bytes) -> answer.Blocks:
        """With an offered block in place of the book's pair of the same two solvents."""
        found = self.ask_block(b"")
        if found.refusal in batch.OF_THE_BOOK:
            return found
        number = preview.refusal_of(offered, self.book)
        if number:
            blocks = answer.read(sealed([answer.KIND_ANSWER, 0, number], self.rule), self.rule)
            return replace(blocks, place=places.OFFERED)
        if offered not in self._copies:
            self._copies[offered] = Core(preview.copy_of(self.book, offered), self.program)
        return self._copies[offered].ask_block(block)

    def ask_queue(self, questions: Sequence[Question], allowance: int) -> List[answer.Blocks]:
        """1 to 64 flash questions in order, under one allowance of evaluations. A refused one that may have begun some
        takes all that it asked for."""
        return queue.ask_plainly(self, questions, allowance)

    def begun(self, question: Question, number: int) -> Tuple[int, bool]:
        """How many evaluations a flash that was refused with the number may have begun, and whether that is exact."""
        return queue.begun_at_most(self, question, number)

    def ask_distance(self, question: Question) -> Distance:
        """From a flash's pressure to the first step with another outcome, by a run for each step."""
        return distance.ask_plainly(self, question)

    def ask_block(self, block: bytes) -> answer.Blocks:
        if block not in self._answers:
            written, said = self._run(block)
            self._answers[block] = _with(said, answer.read(written, self.rule))
        return self._answers[block]

    def _run(self, block: bytes) -> Tuple[bytes, bytes]:
        """What the program writes to standard output and to standard error. Question and answer fit into a pipe, so
        neither side waits for the other."""
        streams = {"stdin": subprocess.PIPE, "stdout": subprocess.PIPE, "stderr": subprocess.PIPE, "bufsize": 0}
        try:
            run = subprocess.Popen([self.program], cwd=self._folder.name, **streams)
        except OSError as error:
            raise DeskError(f"the program {self.program} could not be run: {error}") from None
        with run:
            written = self._exchanged(run, block)
        if run.returncode:
            raise DeskError(f"the program {self.program} ended with status {run.returncode}")
        return written

    def _exchanged(self, run: subprocess.Popen, block: bytes) -> Tuple[bytes, bytes]:
        try:
            run.stdin.write(block)
            run.stdin.close()
        except BrokenPipeError:  # it ended without reading; its status or its answer says the rest
            pass
        written = {run.stdout: b"", run.stderr: b""}
        still_open = list(written)
        while sum(map(len, written.values())) <= MOST_BYTES:
            ready = select.select(still_open, [], [], SECONDS)[0]
            if not ready:
                run.kill()
                raise DeskError(f"the program {self.program} gave no answer in {SECONDS} s")
            for stream in ready:
                part = stream.read(MOST_BYTES)
                written[stream] += part
                if not part:
                    still_open.remove(stream)
            if not still_open:
                return written[run.stdout], written[run.stderr]
        run.kill()
        raise DeskError(f"the program {self.program} wrote more than an answer")


def _with(said: bytes, blocks: answer.Blocks) -> answer.Blocks:
    """A refusal with the sentence that the program wrote, and the place in it. A program of an earlier version writes
    none."""
    sentence = said.decode("ascii", "replace").strip()
    if not blocks.refusal or not SENTENCE.fullmatch(sentence) or sentence.split(":")[0] != str(blocks.refusal):
        return blocks
    return replace(blocks, place=places.read(sentence), said=sentence)
