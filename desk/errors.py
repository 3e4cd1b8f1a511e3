"""What goes wrong outside an answer: one line for the user, and the exit status."""

import difflib
from typing import Iterable


class DeskError(Exception):
    """Bad usage, a bad file or a program that can't be run. The message is the one line that is shown."""

    status = 2


class CoreRefusal(DeskError):
    """The core refused, and there is no sheet that could say so."""

    status = 1


def quoted(text: str, most: int = 60) -> str:
    """Foreign text in a message, cut where it is long."""
    text = text.strip()
    return f"'{text if len(text) <= most else text[: most - 3] + '...'}'"


def suggestion(word: str, known: Iterable[str]) -> str:
    """`; did you mean ...?` with the nearest of the words that are known, large and small letters alike."""
    by_lower = {name.lower(): name for name in known}
    nearest = difflib.get_close_matches(word.lower(), by_lower, n=1, cutoff=0.5)
    return f"; did you mean {by_lower[nearest[0]]}?" if nearest else ""
