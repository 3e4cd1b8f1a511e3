"""Where a picture goes: an SVG file, a PNG file where a renderer is there, or standard output."""

import shutil
import subprocess
import sys
from pathlib import Path
from typing import List, Optional

from . import files
from .errors import DeskError

STANDARD_OUTPUT = "-"
OTHER_KINDS = (".jpg", ".jpeg", ".gif", ".pdf", ".ps", ".eps", ".webp", ".bmp", ".tif", ".tiff")
SCALE = 2  # pixels of a PNG by units of the SVG


def expect_drawable(path: str) -> None:
    """Before any work: a picture of this name can be written."""
    if path == STANDARD_OUTPUT:
        return
    ending = Path(path).suffix.lower()
    if ending in OTHER_KINDS:
        raise DeskError(f"{path}: a diagram is written as .svg or .png, not as {ending}")
    if ending == ".png" and renderer() is None:
        raise DeskError(
            f"{path}: PNG needs rsvg-convert or inkscape (Debian's librsvg2-bin or inkscape); give a name that ends "
            "in .svg"
        )
    files.expect_writable(path)


def renderer() -> Optional[List[str]]:
    """A command that reads an SVG on standard input and writes a PNG to standard output."""
    if shutil.which("rsvg-convert"):
        return ["rsvg-convert", "--format=png", f"--zoom={SCALE}"]
    if shutil.which("inkscape"):
        return ["inkscape", "--pipe", "--export-type=png", f"--export-dpi={96 * SCALE}", "--export-filename=-"]
    return None


def write(path: str, svg: str) -> None:
    content = svg.encode("utf-8")
    if path == STANDARD_OUTPUT:
        sys.stdout.write(svg)
    elif Path(path).suffix.lower() == ".png":
        files.write_whole(path, _rendered(content))
    else:
        files.write_whole(path, content)


def _rendered(svg: bytes) -> bytes:
    command = renderer()
    if command is None:
        raise DeskError("the renderer is gone")
    try:
        run = subprocess.run(command, input=svg, capture_output=True, timeout=120)
    except (OSError, subprocess.TimeoutExpired) as error:
        raise DeskError(f"{command[0]} could not be run: {error}") from None
    if run.returncode or not run.stdout.startswith(b"\x89PNG"):
        said = run.stderr.decode("utf-8", "replace").strip() or f"status {run.returncode}"
        raise DeskError(f"{command[0]} drew no PNG: {said}")
    return run.stdout
