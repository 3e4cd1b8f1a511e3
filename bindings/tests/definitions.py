"""The definitions that the core is proved to meet, as text: crates/*/specs."""

import re
from functools import lru_cache
from typing import Dict, Iterator, List, Set, Tuple

from support import ROOT

ITEM = re.compile(r"^\s*(?:unfoldable |abbrev )?pub ([^\s:]+) : .*?(?=^\s*$|\Z)", re.MULTILINE | re.DOTALL)


@lru_cache(maxsize=None)
def by_name() -> Dict[str, List[str]]:
    """Each definition on one line with single blanks, as `name` and as `crate::name`: two crates may share a name."""
    found: Dict[str, List[str]] = {}
    for path in sorted((ROOT / "crates").glob("*/specs/*.antt")):
        crate = path.parent.parent.name
        for match in ITEM.finditer(path.read_text(encoding="utf-8")):
            for name in (match.group(1), f"{crate}::{match.group(1)}"):
                found.setdefault(name, []).append(" ".join(match.group(0).split()))
    return found


def every() -> Iterator[str]:
    """All of them, but for the cores that are refuted on purpose."""
    return (text for name, texts in by_name().items() if "::" not in name and "leaky" not in name for text in texts)


def stated(name: str) -> str:
    """The one definition of a name."""
    found = by_name().get(name, [])
    assert len(found) == 1, f"{len(found)} definitions of {name}"
    return found[0]


def first(*names: str) -> str:
    """The definition of the first of these names that has one."""
    return stated(next(name for name in names if name in by_name()))


def body(name: str) -> str:
    """What stands behind its first `=`."""
    return stated(name).split(" = ", 1)[1]


def cases(name: str) -> Dict[str, int]:
    """Of a definition by cases, the number of each."""
    found = re.findall(rf"{name} \(?(\w+)[^=]*? = (\d+)", stated(name))
    return {case: int(number) for case, number in found}


def listed(name: str) -> List[str]:
    """The names in a row of words, without what makes a word of each: `bits_of s.pressure` is `pressure`."""
    return [re.sub(r"^.*[ .(]|[«»)]", "", entry.replace("«", "")) for entry in body(name).split(" ∷ ")[:-1]]


def fields(name: str) -> Dict[str, str]:
    """The fields of a definition that is one record."""
    inner = re.fullmatch(r"record \{ (.*?);? \}", re.sub("[«»]", "", body(name))).group(1)
    return {field: value.strip() for field, _, value in (part.strip().partition(" = ") for part in inner.split(";"))}


def tests() -> Iterator[Tuple[str, int]]:
    """Each test that a refusal stands behind, with its number: `need TEST n`, `cond TEST Passed (Refused n)`."""
    for text in every():
        for start in re.finditer(r"\b(?:need|cond) (?=(\()|[a-z]\w*\.\w)", text):
            end = closing(text, start.end()) if start[1] else text.index(" ", start.end())
            number = re.match(r" (?:Passed \(Refused )?(\d+)\b", text[end:])
            if number:
                yield text[start.end() : end], int(number.group(1))


def closing(text: str, start: int) -> int:
    """Behind the bracket that closes the one at `start`."""
    depth = 0
    for at in range(start, len(text)):
        depth += (text[at] == "(") - (text[at] == ")")
        if depth == 0:
            return at + 1
    raise AssertionError(f"no closing bracket: {text[start:]}")


def numbers_of(question: str) -> Set[int]:
    """The numbers that a call is refused with where a test that holds this text is answered no."""
    return {number for test, number in tests() if re.search(question, test)}


def spent() -> Set[Tuple[str, int]]:
    """The iterations, and the number of each where no turn is left."""
    turn = re.compile(r"(\w+) [^=]*?\bzero\b[^=]*? = no (\d+)")
    return {(name, int(number)) for text in every() for name, number in turn.findall(text)}
