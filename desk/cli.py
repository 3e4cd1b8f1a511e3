"""Running a command: exit status 0 for an answer, 1 for a refusal, 2 for bad usage, 3 for an answer that is marked;
each complaint is one line."""

import argparse
import contextlib
import os
import sys
from typing import Callable, Dict, List, Optional

from . import commands, tasks
from .arguments import expect_known, joined_negatives, parser
from .errors import DeskError

# the last two as a shell has them for SIGINT and SIGPIPE
BAD_USAGE, INTERRUPTED, NO_READER = DeskError.status, 130, 141


def main(argv: Optional[List[str]] = None) -> int:
    try:
        _prepare_streams()
        status = run(sys.argv[1:] if argv is None else argv)
        sys.stdout.flush()
        return status
    except DeskError as error:
        return complain(str(error), error.status)
    except KeyboardInterrupt:
        return INTERRUPTED
    except BrokenPipeError:
        _close_output()
        return NO_READER
    except OSError as error:
        _close_output()
        return complain(f"{error.strerror or error}")
    except Exception as error:  # a fault of this tool: still one line
        return complain(f"internal error, {type(error).__name__}: {error}")


def _prepare_streams() -> None:
    """UTF-8 whatever the locale says."""
    if sys.stdout is None:
        raise DeskError("standard output is closed")
    for stream in filter(None, (sys.stdout, sys.stderr)):
        stream.reconfigure(encoding="utf-8", errors="backslashreplace")


def run(argv: List[str]) -> int:
    arguments = parsed(argv)
    handler = _HANDLERS.get(arguments.command, commands.ask)
    return handler(arguments)


def parsed(argv: List[str]) -> argparse.Namespace:
    """`strike COMMAND ...` is `COMMAND ... --strike`."""
    argv = joined_negatives(argv)
    if len(argv) > 1 and argv[0] == "strike" and argv[1] in tasks.BY_COMMAND:
        argv = argv[1:] + ["--strike"]
    top = parser()
    expect_known(argv, top)
    return top.parse_args(argv)


def complain(message: str, status: int = BAD_USAGE) -> int:
    one_line = " ".join(message.split())
    with contextlib.suppress(OSError):  # nobody reads standard error
        print(f"sheet: {one_line}", file=sys.stderr, flush=True)
    return status


def _close_output() -> None:
    """What can't be written any more is dropped, so that nothing is said a second time at exit."""
    os.dup2(os.open(os.devnull, os.O_WRONLY), sys.stdout.fileno())


_HANDLERS: Dict[str, Callable[[argparse.Namespace], int]] = {
    "layers": commands.layers,
    "distance": commands.ask_distance,
    "queue": commands.ask_queue,
    "diagram": commands.draw,
    "book": commands.make_book,
    "show": commands.show,
    "check-yard": commands.check_yard,
    "refusals": commands.explain_numbers,
    "demo": commands.demo,
    "help": commands.show_help,
}
