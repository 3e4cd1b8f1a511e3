"""Opening a book for asking: a yard text, encoded on the fly, or a book.bin with names from a text or by CAS number."""

import os
from typing import Any, Callable, Dict, List, NamedTuple, Optional, Tuple

from . import core, files, units
from .blocks import BLOCK
from .book import cas_numbers, common_range, decode, encode, version_of
from .charge import charged
from .charge import option as option_of
from .errors import DeskError, quoted, suggestion
from .feed import Feed, Fractions, normalized
from .question import Options
from .sheet import NamedBook
from .yard import Yard
from .yardtext import parse


def open_book(path: str, names_from: Optional[str] = None) -> NamedBook:
    content = files.read(path)
    if not is_binary(content):
        if names_from:
            raise DeskError(f"--names belongs to a book.bin; {path} is a text and has its own names")
        return named(yard_of(path, content), path)
    cas = _located(path, cas_numbers, content)
    known = _names_by_cas(names_from) if names_from else {}
    return NamedBook(
        content, tuple(known.get(number, units.cas_text(number)) for number in cas), tuple(cas), shown(path)
    )


def named(yard: Yard, path: str) -> NamedBook:
    cas = tuple(solvent.cas for solvent in yard.book.solvents)
    return NamedBook(encode(yard.book), yard.names, cas, shown(path), yard.lacking, tuple(yard.volumes.items()))


def shown(path: str) -> str:
    """As it was given; a file of this repository from its root."""
    root = str(core.ROOT) + os.sep
    return path[len(root) :] if path.startswith(root) else path


def open_yard(path: str) -> Yard:
    """A yard from its text; a book.bin gives one whose names are CAS numbers."""
    content = files.read(path)
    if not is_binary(content):
        return yard_of(path, content)
    book = _located(path, decode, content)
    names = tuple(f"cas-{units.cas_text(solvent.cas)}" for solvent in book.solvents)
    return Yard(names, book, version=version_of(content))


def is_binary(content: bytes) -> bool:
    return b"\0" in content


def yard_of(path: str, content: bytes) -> Yard:
    try:
        text = content.decode("utf-8-sig")
    except UnicodeDecodeError:
        raise DeskError(f"{path} is not a book: neither a text in UTF-8 nor blocks of {BLOCK} bytes") from None
    return _located(path, parse, text)


def _located(path: str, reading: Callable[[Any], Any], content: Any) -> Any:
    """A reading whose complaint names the file."""
    try:
        return reading(content)
    except DeskError as error:
        raise DeskError(f"{path} is not a book: {error}") from None


def _names_by_cas(path: str) -> Dict[int, str]:
    yard = yard_of(path, files.read(path))
    return {solvent.cas: name for name, solvent in zip(yard.names, yard.book.solvents)}


def place_of(book: NamedBook, wanted: str) -> int:
    """By name, large and small letters alike, or by CAS number."""
    lowered = [name.lower() for name in book.names]
    if wanted.lower() in lowered:
        return lowered.index(wanted.lower())
    cas = _as_cas(wanted)
    if cas in book.cas:
        return book.cas.index(cas)
    known = f"{book.file}, which has {', '.join(book.names)}"
    raise DeskError(f"{quoted(wanted)} is no solvent of {known}{suggestion(wanted, book.names)}")


def _as_cas(text: str) -> Optional[int]:
    try:
        return units.cas_number(text)
    except DeskError:
        return None


class Amount(NamedTuple):
    """NAME=NUMBER, as it was written."""

    name: str
    value: str


def _amounts(book: NamedBook, text: str, option: str) -> Dict[int, Amount]:
    """NAME=NUMBER,NAME=NUMBER by the solvents' places."""
    found: Dict[int, Amount] = {}
    for part in text.split(","):
        name, equals, value = part.partition("=")
        if not equals or not name.strip():
            raise DeskError(f"{option}: {quoted(part)} is not NAME=NUMBER")
        place = place_of(book, name.strip())
        if place in found:
            raise DeskError(f"{option}: {book.names[place]} stands there twice")
        found[place] = Amount(name.strip(), value.strip())
    return found


def _values(text: str) -> List[str]:
    """What stands behind the names."""
    return [part.partition("=")[2] for part in text.split(",")]


def _numbers(book: NamedBook, amounts: Dict[int, Amount], option: str, otherwise: float = 0.0) -> Fractions:
    """One for each solvent of the book, in its order."""
    read = {place: units.number(given.value, f"{option}: {given.name}") for place, given in amounts.items()}
    return tuple(read.get(place, otherwise) for place in range(len(book.names)))


def bracket_of(book: NamedBook) -> Tuple[float, float]:
    """The model's range of temperatures, narrowed to the solvents' own: outside these the core refuses each temperature
    tried."""
    low, high = Options.bracket
    try:
        lowest, highest = common_range(decode(book.content))
    except DeskError:
        return low, high
    narrowed = max(low, lowest), min(high, highest)
    return narrowed if narrowed[0] < narrowed[1] else (low, high)


def fractions_of(book: NamedBook, drum: str) -> Tuple[float, ...]:
    """Solvents of the book that the drum doesn't name are absent, +0."""
    return _numbers(book, _amounts(book, drum, "--drum"), "--drum")


def feed_of(book: NamedBook, drum: Optional[List[str]], mass: Optional[List[str]], normalize: bool = False) -> Feed:
    """From --drum, mole fractions, weights or drums to pool, or from --mass, mass fractions."""
    if drum is not None and (len(drum) > 1 or any(map(units.in_moles, _values(drum[0])))):
        parts = enumerate(drum)
        return charged(book, [_amounts(book, words, option_of(place, len(drum))) for place, words in parts])
    option, words = ("--drum", drum) if drum is not None else ("--mass", mass or [])
    return drum_of(book, _amounts(book, ",".join(words), option), option == "--mass", normalize, option)


def drum_of(book: NamedBook, amounts: Dict[int, Amount], mass: bool, normalize: bool, called: str) -> Feed:
    """One drum, its numbers without a unit of moles, or of mass; `called` is what complaints call it."""
    if not mass and any(units.in_moles(given.value) for given in amounts.values()):
        return charged(book, [amounts], [called])
    with_unit = [given for given in amounts.values() if units.has_unit(given.value)]
    if with_unit and mass:
        name, value = with_unit[0]
        where = f"to --drum {name}={value}" if called == "--mass" else "into a list without --by-mass"
        raise DeskError(f"{called}: {name} {value}: mass fractions have no unit; weights go {where}")
    weighed = _weighed(book, amounts, called) if with_unit else None
    if weighed or mass:
        book.expect_masses()
    if weighed:
        return weighed
    numbers = _numbers(book, amounts, called)
    fractions = normalized(numbers) if normalize else numbers
    return Feed(fractions, mass, numbers if fractions != numbers else None)


def _weighed(book: NamedBook, amounts: Dict[int, Amount], called: str) -> Feed:
    """Weights, each by their sum: exact as they are written, and rounded once."""
    bare = [given.name for given in amounts.values() if not units.has_unit(given.value)]
    if bare:
        raise DeskError(
            f"{called}: {', '.join(bare)} has no unit where another solvent has one; "
            f"give weights of all ({units.WEIGHTS}), or mole fractions of all"
        )
    weights = {place: units.weight(given.value, f"{called}: {given.name}") for place, given in amounts.items()}
    total = sum(weights.values())
    if total <= 0:
        raise DeskError(f"{called}: the weights sum to {float(total):g} kg, and fractions are parts of a positive sum")
    for place, weight in weights.items():
        if weight and float(weight / total) == 0:
            raise DeskError(f"{called}: {amounts[place].name} {amounts[place].value} is too little beside the others")
    everything = [weights.get(place, 0) for place in range(len(book.names))]
    return Feed(tuple(float(w / total) for w in everything), True, None, tuple(map(float, everything)))


def k_values_of(book: NamedBook, text: str, fractions: Tuple[float, ...]) -> Tuple[float, ...]:
    """An absent solvent without a K value gets 1, which no sum reads."""
    given = _amounts(book, text, "--k")
    for place, fraction in enumerate(fractions):
        if fraction != 0 and place not in given:
            raise DeskError(f"--k: {book.names[place]} is in the drum and has no K value")
    return _numbers(book, given, "--k", 1.0)
