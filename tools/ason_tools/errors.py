"""The error that a tool reports in one sentence, and how a sentence shows a text."""

from collections.abc import Iterable
from difflib import get_close_matches


FAILED = 2
"""The status of a tool that couldn't do what it was asked, or was asked wrongly."""


class ToolError(Exception):
    """A reason for which a tool can't go on, and the status with which it ends then. Its text is one sentence without a full stop."""

    def __init__(self, sentence: str, status: int = FAILED) -> None:
        super().__init__(sentence)
        self.status = status


def quoted(text: object) -> str:
    """The text as a sentence shows it: in its own letters, in one line, and not too long."""
    shown = str(text)
    return repr(shown if len(shown) <= 40 else shown[:40] + "..")


def listed(names: Iterable[str]) -> str:
    """The first of the names in their order, as a sentence lists them."""
    return ", ".join(quoted(name) for name in sorted(names)[:12]) or "no attribute"


def meant(name: str, names: Iterable[str]) -> str:
    """The question behind a sentence on a name that isn't there: the name that is nearest to it, or nothing."""
    by_small = {other.lower(): other for other in names}
    near = get_close_matches(name.lower(), by_small, 1)
    return f" (did you mean {quoted(by_small[near[0]])}?)" if near else ""
