"""Readers of docs/FORMAT.md's tables and of the header's enumerations and macros."""

import re
from typing import Dict, List, Tuple

from support import FORMAT, HEADER

Places = Dict[str, int]


def tables() -> List[Tuple[str, List[str], List[List[str]]]]:
    """Each table of the page: the paragraph before it, its heads, its rows."""
    found = []
    paragraphs = FORMAT.read_text(encoding="utf-8").split("\n\n")
    for before, paragraph in zip(paragraphs, paragraphs[1:]):
        lines = paragraph.strip().splitlines()
        if lines and lines[0].startswith("|"):
            heads, _, *rows = [[cell.strip() for cell in line.strip("|").split("|")] for line in lines]
            found.append((" ".join(before.split()), heads, rows))
    return found


def page() -> Dict[str, str]:
    """The header's name of each row, and its word, words or number; of a default its value."""
    found: Dict[str, str] = {}
    for before, heads, rows in tables():
        prefix = re.match(r"Prefix `(ZEKTONK_\w*)`", before)
        if prefix:
            place, name = (1, 0) if heads[0] == "name" else (0, 1)
            for row in rows:
                found[prefix.group(1) + row[name].strip("`")] = row[place]
    return found


def span(text: str) -> range:
    """`4` or `4 to 11`."""
    first, _, last = text.partition(" to ")
    return range(int(first), int(last or first) + 1)


def spans(text: str) -> List[int]:
    """`2, 4 to 11, trials`."""
    return [word for part in text.split(", ") if part != "trials" for word in span(part)]


def macros() -> Dict[str, str]:
    text = HEADER.read_text(encoding="utf-8")
    found = re.findall(r"^#define (ZEKTONK_\w+)[ \t]+(.+?)[ \t]*(?:/\*.*)?$", text, re.MULTILINE)
    return {name: value.strip("()") for name, value in found}


def enums() -> Dict[str, Places]:
    """Each enumeration of the header, by its tag."""
    text = re.sub(r"/\*.*?\*/", "", HEADER.read_text(encoding="utf-8"), flags=re.DOTALL)
    found = {}
    for tag, body in re.findall(r"^enum (zektonk_\w+) \{(.*?)\};", text, re.MULTILINE | re.DOTALL):
        entries = re.findall(r"(ZEKTONK_\w+)\s*=\s*(\d+)", body)
        assert len(entries) == len([part for part in body.split(",") if part.strip()]), tag
        found[tag] = {name: int(value) for name, value in entries}
    return found


def commented(tag: str) -> Dict[int, str]:
    """What stands beside each entry of an enumeration of the header, by its number."""
    text = HEADER.read_text(encoding="utf-8")
    (body,) = re.findall(rf"^enum {tag} \{{(.*?)^\}};", text, re.MULTILINE | re.DOTALL)
    found = re.findall(r"= (\d+),?[ \t]*/\*(.*?)\*/", body, re.DOTALL)
    return {int(number): " ".join(comment.split()) for number, comment in found}


def prototypes() -> List[str]:
    """The names that the header declares and doesn't define."""
    text = re.sub(r"/\*.*?\*/", "", HEADER.read_text(encoding="utf-8"), flags=re.DOTALL)
    return sorted(re.findall(r"^(?!static|#)\w[\w ]*?[ *](zektonk_\w+)\([^;{]*\);", text, re.MULTILINE))
