"""Blocks of 512 bytes: 64 little-endian words, the last one the check of the others (docs/FORMAT.md, "The book")."""

import struct
from enum import Enum
from itertools import accumulate
from typing import Iterable, List

BLOCK = 512
WORDS = 64
CHECK = WORDS - 1
MODULUS = 2**64
NAN_BITS = 0x7FF8000000000000

Words = List[int]

_LAYOUT = struct.Struct("<64Q")

_RUNNING_HEAD = [1, 3]  # kind and version of block 0 of a book whose checks are running sums


class Rule(Enum):
    """What the check is of words 0 to 62, modulo 2^64."""

    PLAIN = "their sum"
    RUNNING = "the sum of the running sums after each of them"


def rule_of(book: bytes) -> Rule:
    """By which rule all blocks of a call are checked, from its book."""
    whole = book and len(book) % BLOCK == 0
    return _rule_of_head(words_of(book[:BLOCK])) if whole else Rule.PLAIN


def _rule_of_head(words: Words) -> Rule:
    return Rule.RUNNING if words[:2] == _RUNNING_HEAD else Rule.PLAIN


def bits_of(value: float) -> int:
    """The 64 bits of a float; a NaN is always written the same."""
    if value != value:
        return NAN_BITS
    return struct.unpack("<Q", struct.pack("<d", value))[0]


def float_of(bits: int) -> float:
    return struct.unpack("<d", struct.pack("<Q", bits))[0]


def check_of(words: Words, rule: Rule = Rule.PLAIN) -> int:
    summed = accumulate(words[:CHECK]) if rule is Rule.RUNNING else words[:CHECK]
    return sum(summed) % MODULUS


def check_right(words: Words, rule: Rule = Rule.PLAIN) -> bool:
    return words[CHECK] == check_of(words, rule)


def sealed(words: Words, rule: Rule = Rule.PLAIN) -> bytes:
    """The bytes of a block from its first words: zeros behind them, then the check."""
    padded = words[:CHECK] + [0] * (CHECK - len(words))
    return _LAYOUT.pack(*padded, check_of(padded, rule))


def joined(blocks: List[Words]) -> bytes:
    """A book's bytes, checked by the rule that its own block 0 asks for."""
    rule = _rule_of_head(blocks[0])
    return b"".join(sealed(words, rule) for words in blocks)


def packed(words: Words) -> bytes:
    """The bytes of a block from all of its words, whatever its check."""
    return _LAYOUT.pack(*words)


def words_of(block: bytes) -> Words:
    return list(_LAYOUT.unpack(block))


def split(content: bytes) -> List[Words]:
    """The whole blocks of some bytes; a rest shorter than a block is left out."""
    whole = len(content) - len(content) % BLOCK
    return [words_of(content[at : at + BLOCK]) for at in range(0, whole, BLOCK)]


def put_floats(words: Words, at: int, values: Iterable[float]) -> None:
    for place, value in enumerate(values, at):
        words[place] = bits_of(value)


def floats_at(words: Words, at: int, count: int) -> List[float]:
    return [float_of(word) for word in words[at : at + count]]
