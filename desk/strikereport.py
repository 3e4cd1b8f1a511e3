"""Asking a sheet again with the drum's solvents alone, and what the comparison shows."""

from dataclasses import dataclass
from pathlib import Path
from typing import Any, Dict, List, Optional

from . import refusals, text
from .answer import REFUSAL
from .blocks import split
from .core import Core
from .sheet import Sheet
from .strike import Compared, Comparison, compare, kept_places, shorter_book, shorter_question


@dataclass(frozen=True)
class Struck:
    """The shorter call. `comparisons` is None where there is nothing to compare, and `reason` says why."""

    names: List[str]
    blocks_before: int
    blocks_after: int
    comparisons: Optional[List[Comparison]]
    reason: str = ""

    @property
    def equal(self) -> bool:
        return self.comparisons is not None and not any(group.differing for group in self.comparisons)


def struck(sheet: Sheet, program: Path) -> Struck:
    kept = kept_places(sheet.question.fractions)
    names = [sheet.book.names[i] for i in kept]
    before = len(split(sheet.book.content))
    if sheet.blocks.refusal:
        return Struck(names, before, before, None, "The sheet was refused, and the promise speaks of accepted sheets.")
    book = shorter_book(sheet.book.content, kept)
    with Core(book, program) as core:
        shorter = core.ask_block(shorter_question(sheet.question.words(), kept, core.rule))
    groups = [_acceptance(shorter.refusal)]
    if shorter.accepted:
        groups += compare(sheet.blocks, shorter, kept)
    return Struck(names, before, len(split(book)), groups)


def _acceptance(number: int) -> Comparison:
    name = "the shorter question is accepted" + (f" ({refusals.line(number)})" if number else "")
    return Comparison(name, (Compared(0, REFUSAL, REFUSAL, 0, number, number == 0),))


def render(result: Struck, with_words: bool = False) -> str:
    lines = ["STRIKING the solvents that aren't in the drum"]
    if result.comparisons is None:
        return "\n".join(lines + text.wrapped(result.reason)) + "\n"
    lines.append(
        f"  kept: {', '.join(result.names)}; the book goes from {result.blocks_before} to {result.blocks_after} blocks"
    )
    rows = [(group.name, str(len(group.words)), str(len(group.differing))) for group in result.comparisons]
    lines += text.table(("compared", "words", "differing"), rows)
    words = [word for group in result.comparisons for word in (group.words if with_words else group.differing)]
    if words:
        lines += [""] + _word_table(words)
    lines.append("  the two sheets are equal, word by word" if result.equal else "  THE TWO SHEETS DIFFER")
    return "\n".join(lines) + "\n"


def _word_table(words: List[Compared]) -> List[str]:
    heads = ("block", "word", "shorter's", "longer sheet", "shorter sheet", "equal")
    return text.table(
        heads,
        [
            [str(cell) for cell in word[:3]] + [f"{word.word:016x}", f"{word.shorter_word:016x}", _yes(word.equal)]
            for word in words
        ],
    )


def _yes(equal: bool) -> str:
    return "yes" if equal else "NO"


def document(result: Struck, with_words: bool = False) -> Dict[str, Any]:
    return {
        "kept": result.names,
        "equal": result.equal if result.comparisons is not None else None,
        "reason": result.reason or None,
        "compared": [_group_document(group, with_words) for group in result.comparisons or []],
    }


def _group_document(group: Comparison, with_words: bool) -> Dict[str, Any]:
    counts = {"words": group.name, "count": len(group.words), "differing": len(group.differing)}
    listed = [
        {**word._asdict(), "word": f"{word.word:016x}", "shorter_word": f"{word.shorter_word:016x}"}
        for word in group.words
    ]
    return {**counts, "each": listed} if with_words else counts
