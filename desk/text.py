"""Numbers and tables as text: about five digits, as many as the data carry, or all of them."""

import re
import textwrap
import unicodedata
from typing import List, Optional, Sequence, Tuple

from . import units

WIDTH = 78
_WITH_UNIT = re.compile(r"(\d) (°C|K|kPa|bar|mmHg|Pa|kg)\b")
RULE = "-" * WIDTH


def plain(value: float, all_digits: bool = False) -> str:
    """A number as it was given, or one with a unit beside it; -0 without its sign."""
    return repr(value + 0.0) if all_digits else f"{value + 0.0:.6g}"


def exact(value: float) -> str:
    """So that it reads back to the same float, without a needless .0."""
    written = repr(value)
    return written[:-2] if written.endswith(".0") else written


def fraction(value: float, all_digits: bool = False) -> str:
    """Five decimals, or four significant digits where these would show too little."""
    if all_digits:
        return repr(value)
    return f"{value + 0.0:.5f}" if value == 0 or 1e-3 <= abs(value) < 1e4 else f"{value:#.4g}"


def small(value: float) -> str:
    return f"{value:.3e}" if value else "0"


def rounding(value: float) -> str:
    """A difference of a few roundings, always equally wide."""
    return f"{value:.0e}"


def celsius(kelvin: float, all_digits: bool = False) -> str:
    value = units.celsius(kelvin)
    if all_digits:
        return f"{value:.12g} °C"
    return f"{value:{'.2f' if abs(value) < 1e6 else '.6g'}} °C"


def temperature(kelvin: float, all_digits: bool = False) -> str:
    value = repr(kelvin) if all_digits else f"{kelvin:{'.2f' if abs(kelvin) < 1e6 else '.6g'}}"
    return f"{celsius(kelvin, all_digits)} ({value} K)"


def interval(low: float, high: float) -> str:
    """Between two temperatures (K)."""
    return celsius(low) if low == high else f"{celsius(low)[:-3]} to {celsius(high)}"


def pressure(pascals: float, all_digits: bool = False) -> str:
    if all_digits:
        return f"{pascals!r} Pa"
    return (
        f"{units.in_unit(pascals, 'kPa'):.6g} kPa ({units.in_unit(pascals, 'bar'):.6g} bar, "
        f"{units.in_unit(pascals, 'mmHg'):.6g} mmHg)"
    )


def kilopascals(pascals: float) -> str:
    return f"{units.in_unit(pascals, 'kPa'):.6g} kPa"


def counted(number: int, noun: str) -> str:
    return f"{number} {noun}" + ("" if number == 1 else "s")


def width(words: str) -> int:
    """Columns on a terminal: wide characters take two, combining ones none."""
    return sum(
        0
        if unicodedata.combining(c) or c in "\u200b\u200d\ufe0f" else 2
        if unicodedata.east_asian_width(c) in "WF" else 1
        for c in words
    )


def _left(words: str, columns: int) -> str:
    return words + " " * (columns - width(words))


def _right(words: str, columns: int) -> str:
    return " " * (columns - width(words)) + words


def fields(rows: Sequence[Tuple[str, str]]) -> List[str]:
    """Names and values, one below the other; a long value goes on below itself."""
    columns = max(width(name) for name, _ in rows)
    return [line for name, value in rows for line in _field(_left(name, columns), value)]


def _field(name: str, value: str) -> List[str]:
    room = max(WIDTH - 4 - width(name), 30)
    parts = wrapped(value, room, "") if width(value) > room else [value]
    indent = " " * width(name)
    return [f"  {name if k == 0 else indent}  {part}".rstrip() for k, part in enumerate(parts or [""])]


def table(heads: Sequence[str], rows: Sequence[Sequence[str]], words: Sequence[int] = (0,)) -> List[str]:
    """Columns of words (the first) to the left, numbers to the right."""
    widths = [max(map(width, column)) for column in zip(heads, *rows)]

    def line(cells: Sequence[str]) -> str:
        aligned = [
            (_left if k in words else _right)(cell, columns) for k, (cell, columns) in enumerate(zip(cells, widths))
        ]
        return ("  " + "   ".join(aligned)).rstrip()

    return [line(row) for row in (heads, *rows)]


def wrapped(words: str, columns: int = WIDTH, indent: str = "  ", first: Optional[str] = None) -> List[str]:
    """Lines of at most that many columns, indented by two, the first otherwise where that is asked; a unit stays with
    its number."""
    joined = _WITH_UNIT.sub("\\1\u00a0\\2", words)
    lines = textwrap.wrap(
        joined,
        columns,
        initial_indent=indent if first is None else first,
        subsequent_indent=indent,
        break_long_words=False,
        break_on_hyphens=False,
    )
    return [line.replace("\u00a0", " ") for line in lines]


def sentences(all_words: Sequence[str]) -> List[str]:
    """Each wrapped on its own; a command to paste stays on one line, however long."""
    lines: List[str] = []
    for words in all_words:
        lines += [f"    {words}"] if words.startswith(("./sheet", "--drum", "--mass")) else wrapped(words)
    return lines


def marked(line: str) -> List[str]:
    """Stars around a line that must not be overlooked."""
    parts = wrapped(line, WIDTH - 8, "")
    return [f"*** {part}{' ' * (WIDTH - 8 - width(part))} ***" for part in parts]
