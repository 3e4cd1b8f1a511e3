"""The lines of a yard text: the model, then headings in brackets, each followed by 'key = value'. Everything after a
number sign is a comment."""

import difflib
from typing import List, Optional, Tuple

from .errors import DeskError, quoted, suggestion

HEADINGS = {"solvent": 2, "pair": 3}  # words of a heading
MODEL = "model"  # the one key before the first heading
KEYS = tuple(f"{record} {key}" for record in ("vapor", "density") for key in ("t_r", "reducing", "range", "term"))
KEYS += (
    "cas",
    "molar mass",
    "molar volume",
    "source",
    "boiling point",
    "azeotrope",
    "heteroazeotrope",
    "solubility",
    "alpha",
    "interval",
    "inferred",
    "tau",
    "wilson",
)
WITH_NAMES = ("tau", "wilson")  # keys that two names follow
Entry = Tuple[str, str, int]  # key, value and line


class Section:
    """One heading with its lines. Keys are taken, large and small letters alike; what is left over is unknown."""

    def __init__(self, words: List[str], line: int):
        self.kind, self.names, self.line = words[0], words[1:], line
        self.entries: List[Entry] = []

    @property
    def title(self) -> str:
        return " ".join([self.kind] + self.names)

    def take_all(self, key: str) -> List[str]:
        key = key.lower()
        found = [value for name, value, _ in self.entries if name == key]
        self.entries = [entry for entry in self.entries if entry[0] != key]
        return found

    def take(self, key: str, default: Optional[str] = None) -> str:
        found = self.take_all(key)
        if len(found) > 1:
            raise DeskError(f"[{self.title}]: '{key}' stands there {len(found)} times")
        if not found and default is None:
            raise DeskError(f"[{self.title}]: '{key}' is missing{self._mistyped(key)}")
        return found[0] if found else default

    def _mistyped(self, key: str) -> str:
        """A key of the section that nobody knows and that is like the missing one."""
        near = difflib.get_close_matches(
            key.lower(), [name for name, _, _ in self.entries if name not in KEYS], n=1, cutoff=0.7
        )
        return (
            f"; line {next(line for name, _, line in self.entries if name == near[0])} has '{near[0]}'" if near else ""
        )

    def optional(self, key: str) -> Optional[str]:
        return self.take(key, "") or None

    def finish(self) -> None:
        if self.entries:
            key, _, line = self.entries[0]
            known = [name for name in KEYS if name not in WITH_NAMES]
            known += [f"{name} {a} {b}" for name in WITH_NAMES for a in self.names for b in self.names if a != b]
            meant = "; it stands before the first heading" if key == MODEL else suggestion(key, known)
            raise DeskError(f"line {line}: [{self.title}] has no key '{key}'{meant}")


def sections_of(text: str) -> Tuple[List[Entry], List[Section]]:
    """What stands before the first heading, and what follows."""
    before: List[Entry] = []
    sections: List[Section] = []
    for line, raw in enumerate(text.splitlines(), 1):
        content = raw.split("#", 1)[0].strip()
        if not content:
            continue
        if content.startswith("["):
            sections.append(_heading(content, line))
        elif not sections:
            before.append(_before(content, line))
        else:
            sections[-1].entries.append(_entry(content, line))
    return before, sections


def _before(content: str, line: int) -> Entry:
    if content.partition("=")[0].strip().lower() != MODEL:
        raise DeskError(
            f"line {line}: {quoted(content)} stands before the first heading, [solvent NAME]; only 'model = NAME' may"
        )
    return _entry(content, line)


def _heading(content: str, line: int) -> Section:
    words = content[1:-1].split() if content.endswith("]") else []
    if len(words) == HEADINGS.get(words[0] if words else ""):
        return Section(words, line)
    meant = suggestion(words[0], HEADINGS) if words and words[0] not in HEADINGS else ""
    raise DeskError(f"line {line}: {quoted(content)} is neither [solvent NAME] nor [pair NAME NAME]{meant}")


def _entry(content: str, line: int) -> Entry:
    key, equals, value = content.partition("=")
    if not equals or not key.strip() or not value.strip():
        raise DeskError(f"line {line}: {quoted(content)} is not 'key = value'")
    return " ".join(key.lower().split()), value.strip(), line
