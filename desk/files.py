"""Reading and writing files: a file is written whole or not at all."""

import os
import stat
import tempfile
from pathlib import Path

from .errors import DeskError

MOST_BYTES = 1 << 20  # no book or yard text is larger


def read(path: str, what: str = "a book", most: int = MOST_BYTES) -> bytes:
    try:
        with open(path, "rb") as source:
            content = source.read(most + 1)
    except OSError as error:
        raise DeskError(f"{path}: {error.strerror}") from None
    if len(content) > most:
        raise DeskError(f"{path} is not {what}: it has more than {most} bytes")
    return content


def write_whole(path: str, content: bytes) -> None:
    """Through a temporary file in the same folder, which then takes the name."""
    target = expect_writable(path)
    temporary = None
    try:
        handle, temporary = tempfile.mkstemp(dir=target.parent, prefix=f".{target.name}.")
        with os.fdopen(handle, "wb") as out:
            out.write(content)
            out.flush()
            os.fsync(out.fileno())
        os.chmod(temporary, _mode(target))
        os.replace(temporary, target)
    except OSError as error:
        if temporary and os.path.exists(temporary):
            os.unlink(temporary)
        raise DeskError(f"{path} can't be written: {error.strerror}") from None


def expect_writable(path: str) -> Path:
    """The file behind a name, if it can be written as far as that is known beforehand."""
    target = Path(os.path.realpath(path))
    if target.exists() and not stat.S_ISREG(target.stat().st_mode):
        raise DeskError(f"{path} is there and is not a plain file")
    if not target.parent.is_dir():
        raise DeskError(f"{path} can't be written: there is no folder {target.parent}")
    if not os.access(target.parent, os.W_OK) or target.exists() and not os.access(target, os.W_OK):
        raise DeskError(f"{path} can't be written: permission denied")
    return target


def _mode(target: Path) -> int:
    """The old file's mode, or that of a new file."""
    if target.exists():
        return stat.S_IMODE(target.stat().st_mode)
    mask = os.umask(0)
    os.umask(mask)
    return 0o666 & ~mask
