"""The frame of a command: every way to fail ends with one sentence and a status other than 0."""

import argparse
import os
import sys
from collections.abc import Callable
from typing import NoReturn

from .errors import FAILED, ToolError


class Parser(argparse.ArgumentParser):
    """A parser whose errors are one line."""

    def error(self, message: str) -> NoReturn:
        raise ToolError(f"{message} (--help shows how it is used)")


def parser(description: str, epilog: str = "") -> Parser:
    """A parser of a tool's words; the description and the epilog are shown as they are written."""
    return Parser(description=description, epilog=epilog, formatter_class=argparse.RawDescriptionHelpFormatter)


def run(body: Callable[[], int]) -> NoReturn:
    """Runs the command and ends the process with its status."""
    status = FAILED
    try:
        for stream in (sys.stdout, sys.stderr):
            if stream is not None:
                stream.reconfigure(encoding="utf-8", errors="backslashreplace")
        status = body()
        if sys.stdout is not None:
            sys.stdout.flush()
    except ToolError as error:
        _say(str(error))
        status = error.status
    except SystemExit as end:
        status = end.code if isinstance(end.code, int) else FAILED
    except OSError as error:
        _say(f"the output can't be written: {error.strerror}")
    except (RecursionError, MemoryError):
        _say("the input is too deep or too large")
    except KeyboardInterrupt:
        status = 130
    _leave(status)


def write(text: str) -> None:
    """Writes to the standard output."""
    if sys.stdout is None:
        raise ToolError("there is no standard output")
    sys.stdout.write(text)


def note(text: str) -> None:
    """Writes a line to the standard error."""
    if sys.stderr is not None:
        print(text, file=sys.stderr)


def progress(done: int, count: int, what: str) -> None:
    """Shows on a terminal how far the tool is; nothing is left of it at the end."""
    if sys.stderr is not None and sys.stderr.isatty():
        text = f"{os.path.basename(sys.argv[0])}: {done} of {count} {what}"
        print(f"\r{text}" if done < count else f"\r{' ' * len(text)}\r", end="", file=sys.stderr, flush=True)


def _say(sentence: str) -> None:
    name = os.path.basename(sys.argv[0])
    try:
        note(f"{name}: {sentence}")
    except OSError:
        pass


def _leave(status: int) -> NoReturn:
    """Ends the process here, since the interpreter's own end would write to a closed pipe again."""
    try:
        if sys.stdout is not None:
            sys.stdout.flush()
    except OSError:
        status = status or FAILED
    try:
        if sys.stderr is not None:
            sys.stderr.flush()
    except OSError:
        pass
    os._exit(status)
