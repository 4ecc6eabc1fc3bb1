"""Reading of files with a limit on their size."""

import sys
from collections.abc import Iterator
from contextlib import contextmanager

from .errors import ToolError

PLAN_LIMIT = 4 * 1024 * 1024
"""The most bytes that `ason` reads."""

OUTPUT_LIMIT = 64 * 1024 * 1024
"""The most bytes of an output of `ason` that the tools read."""

MARK = "\ufeff"
"""The mark that some editors put before the first character of a text in UTF-8."""


def read_bytes(path: str, limit: int = PLAN_LIMIT) -> bytes:
    """The bytes of the file, or of the standard input where the path is `-`."""
    try:
        if path == "-":
            if sys.stdin is None:
                raise ToolError("there is no standard input")
            data = sys.stdin.buffer.read(limit + 1)
        else:
            with open(path, "rb") as file:
                data = file.read(limit + 1)
    except OSError as error:
        raise ToolError(f"{shown(path)} can't be read: {error.strerror}") from error
    except ValueError as error:
        raise ToolError(f"{shown(path)} is no path of a file") from error
    if len(data) > limit:
        raise ToolError(f"{shown(path)} has more than {limit:,} bytes")
    return data


def read_text(path: str, limit: int = PLAN_LIMIT) -> str:
    """The text of the file, which must be UTF-8."""
    return as_text(read_bytes(path, limit), path)


def as_text(data: bytes, path: str) -> str:
    """The text that the bytes of this file spell in UTF-8, without a mark before it."""
    try:
        return data.decode("utf-8").removeprefix(MARK)
    except UnicodeDecodeError as error:
        line, column = place_of(data[: error.start].decode("utf-8"))
        raise ToolError(f"{shown(path)} isn't UTF-8: line {line}, column {column}") from error


@contextmanager
def about(path: str) -> Iterator[None]:
    """Has the errors of what is done within say that they are about this file."""
    try:
        yield
    except ToolError as error:
        raise ToolError(f"{shown(path)}: {error}", error.status) from error


def place_of(before: str) -> tuple[int, int]:
    """The line and the column, from 1, of what follows this text."""
    return before.count("\n") + 1, len(before) - before.rfind("\n")


def shown(path: str) -> str:
    """The path as a sentence shows it, in one line."""
    if path == "-":
        return "the standard input"
    return path if path.isprintable() else ascii(path)
