"""The trace of a run, as `ason run --trace` writes it, as values."""

import re
from dataclasses import dataclass

from . import plan, tables
from .errors import ToolError
from .plan import Plan
from .tables import Table

POSTING = ("setup", "release", "protect", "retry", "revert", "fail", "repair")
"""The first words of the script lines that post a command."""


@dataclass(frozen=True)
class Entry:
    """A line of a trace: its stamp, and the node whose event it is, or None for a post."""

    stamp: int
    node: str | None


@dataclass(frozen=True)
class Tick(Entry):
    """The node's clock ticks."""


@dataclass(frozen=True)
class Desk(Entry):
    """The node handles the first item of its desk."""


@dataclass(frozen=True)
class Delivery(Entry):
    """The node takes the frame of this number from a neighbour."""

    sender: str
    number: int


@dataclass(frozen=True)
class Noise(Entry):
    """The node takes bytes that spell nothing from a neighbour."""

    sender: str
    data: bytes


@dataclass(frozen=True)
class Post(Entry):
    """A script line posts its command; `place` is the line's place in the script, from 1."""

    line: str
    place: int


@dataclass(frozen=True)
class Trace:
    """A run: the text of its plan and the plan, all that happened, in order, and the last table."""

    source: bytes
    plan: Plan
    entries: tuple[Entry, ...]
    table: Table


_NUMBER = r"0|[1-9][0-9]{0,19}"
_NAME = r"[A-Za-z][A-Za-z0-9_-]{0,15}"
_HEAD = re.compile(rb"ason-trace [12]\nplan (0|[1-9][0-9]{0,9})\n")
_EVENTS = re.compile(rf"events ({_NUMBER})")
_ENTRY = re.compile(rf"({_NUMBER}) ({_NAME}|-) (tick|desk|deliver ({_NAME}) ({_NUMBER})|noise ({_NAME}) ([0-9A-F]+|-)|post (.+))")


def read(data: bytes) -> Trace:
    """The trace that the bytes spell. That it is a run of its plan is for `ason check` to say."""
    head = _HEAD.match(data)
    behind = head.end() + int(head[1]) if head else 0
    if head is None or data[behind : behind + 1] != b"\n":
        raise ToolError("it doesn't begin as a trace, with a line `ason-trace 2` and its plan")
    source = data[head.end() : behind]
    try:
        lines = data[behind + 1 :].decode("ascii").split("\n")
        read_plan = plan.read(source.decode("utf-8"))
    except UnicodeDecodeError as error:
        raise ToolError("it has characters that no trace has") from error
    events = _EVENTS.fullmatch(lines[0])
    if events is None or len(lines) < int(events[1]) + 4 or lines[-2:] != ["end", ""]:
        raise ToolError("it has no line with the number of its events, or fewer lines than that")
    count = int(events[1])
    if lines[count + 1] != "table":
        raise ToolError("no table follows its events")
    posts = [(place, line) for place, line in enumerate(read_plan.script, 1) if line.split()[:1] and line.split()[0] in POSTING]
    found, given = [], iter(posts)
    for number, line in enumerate(lines[1 : count + 1], 1):
        found.append(_entry(number, line, given))
    table = tables.read("".join(line + "\n" for line in lines[count + 2 : -2])).table()
    return Trace(source, read_plan, tuple(found), table)


def _entry(number: int, line: str, posts) -> Entry:
    form = _ENTRY.fullmatch(line)
    if form is None or (form[2] == "-") != (form[8] is not None):
        raise ToolError(f"its event {number} isn't one")
    stamp, node = int(form[1]), form[2]
    if form[8] is not None:
        place, posted = next(posts, (0, ""))
        if " ".join(posted.split()) != form[8]:
            raise ToolError(f"its event {number} isn't the next line that the script posts")
        return Post(stamp, None, form[8], place)
    if form[4] is not None:
        return Delivery(stamp, node, form[4], int(form[5]))
    if form[6] is not None:
        return Noise(stamp, node, form[6], bytes.fromhex("" if form[7] == "-" else form[7]))
    return (Tick if form[3] == "tick" else Desk)(stamp, node)
