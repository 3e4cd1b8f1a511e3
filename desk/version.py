"""The version of the whole repository, from the file VERSION at its root."""

from pathlib import Path

VERSION = (Path(__file__).resolve().parent.parent / "VERSION").read_text(encoding="utf-8").strip()
