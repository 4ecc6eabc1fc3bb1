"""Which event of a trace changed which leg and which call, as `ason check` tells the tables of its prefixes.

An event changes what one node keeps, and only where the node is handed up a message, handles an item of its desk, or
ticks in a network with a wait. So a prefix is checked at each place up to which no node had two such events since the
last one: what has changed there at a node was changed by the one event of it between the two.
"""

import os
from collections.abc import Callable, Iterable
from concurrent.futures import ThreadPoolExecutor
from dataclasses import dataclass, field
from itertools import pairwise

from . import program, tables
from .errors import ToolError
from .groups import changes
from .rsvp import Message
from .tables import Call, Leg, Table
from .traces import Delivery, Desk, Post, Tick, Trace

LegKey = tuple[str, str]
"""An LSP's text and a node."""


@dataclass
class Change:
    """What an event changed, by its number from 1: legs and calls as they are then, or None where they are gone."""

    event: int
    legs: dict[LegKey, Leg | None] = field(default_factory=dict)
    calls: dict[str, Call | None] = field(default_factory=dict)


@dataclass(frozen=True)
class _Window:
    """The events behind `start` up to `end`, and of each node the one event that may have changed what it keeps."""

    start: int
    end: int
    makers: dict[str, int]


def changes_of(
    data: bytes, trace: Trace, handed: Iterable[tuple[Delivery, Message]], tell: Callable[[int, int], None]
) -> list[Change]:
    """What each event of the trace changed, in their order. The trace is what these bytes spell.

    Meanwhile it is told how many of how many prefixes are checked.
    """
    windows = _windows(trace, {id(entry) for entry, message in handed if message.type != "Ack"})
    lines = event_lines(data, trace)
    places = [windows[0].start, *(window.end for window in windows)] if windows else [0]
    found = []
    with ThreadPoolExecutor(os.cpu_count()) as pool:
        for table in pool.map(lambda place: _table(trace, lines, place), places):
            found.append(table)
            tell(len(found), len(places))
    if found[-1] != _ordered(trace.table):
        raise ToolError("it is no trace of a run: its table isn't the one to which its events lead")
    by_event: dict[int, Change] = {}
    for window, (before, after) in zip(windows, pairwise(found)):
        _add_changes(by_event, window, before, after)
    return [by_event[event] for event in sorted(by_event)]


def _windows(trace: Trace, handed: set[int]) -> list[_Window]:
    """The windows of the trace, the last up to its end."""
    sources = _sources(trace)
    windows, makers, start, has_failed = [], {}, 0, False
    for number, entry in enumerate(trace.entries, 1):
        has_failed = has_failed or isinstance(entry, Post) and changes(entry.line) is not None
        node = entry.node
        if isinstance(entry, Post):
            node = sources.get(entry.line.split()[1])
        elif isinstance(entry, Tick):
            # Only a call that has turned waits to go back.
            node = node if trace.plan.wait and has_failed and node in sources.values() else None
        elif not isinstance(entry, Desk) and id(entry) not in handed:
            node = None
        if node is None:
            continue
        if node in makers:
            windows.append(_Window(start, number - 1, makers))
            makers, start = {}, number - 1
        makers[node] = number
    return [*windows, _Window(start, len(trace.entries), makers)]


def _sources(trace: Trace) -> dict[str, str]:
    """The first node of each call."""
    setups = (line.split() for line in trace.plan.script)
    return {words[1]: words[2] for words in setups if words[:1] == ["setup"] and len(words) > 3}


def event_lines(data: bytes, trace: Trace) -> list[bytes]:
    """The lines of the events."""
    behind = data.index(b"\n", data.index(b"\nplan ") + 1) + 1 + len(trace.source) + 1
    return data[behind:].split(b"\n")[1 : len(trace.entries) + 1]


def prefix(trace: Trace, lines: list[bytes], count: int) -> bytes:
    """A trace of version 1 with the first so many events: of such a one `ason check` tells the table."""
    head = b"ason-trace 1\nplan %d\n%s\nevents %d\n" % (len(trace.source), trace.source, count)
    return head + b"".join(line + b"\n" for line in lines[:count]) + b"table\nend\n"


def _table(trace: Trace, lines: list[bytes], count: int) -> tuple[dict[LegKey, Leg], dict[str, Call]]:
    """The legs and the calls to which the first so many events lead."""
    status, text = program.check(prefix(trace, lines, count))
    head, _, rest = text.partition("\n")
    if status != program.DONE or head != "migrated 0 left out":
        if any("both" in line.split()[4:6] for line in trace.plan.script):
            raise ToolError("it has two-way calls, and `ason check` tells the tables of prefixes of one-way calls alone")
        raise ToolError(f"`ason check` tells no table of its first {count} events: it says {text.strip()[:60]!r}")
    return _ordered(tables.read(rest.partition("\n")[2]).table())


def _ordered(table: Table) -> tuple[dict[LegKey, Leg], dict[str, Call]]:
    """The table's legs and calls by their keys."""
    return {(leg.lsp.text(), leg.node): leg for leg in table.legs}, {call.name: call for call in table.calls}


def _add_changes(by_event: dict[int, Change], window: _Window, before: tuple, after: tuple) -> None:
    """Adds what has changed between the two ends of the window, each to the event of its node."""
    (legs, calls), (new_legs, new_calls) = before, after
    for key in legs.keys() | new_legs.keys():
        if legs.get(key) != new_legs.get(key):
            _change_at(by_event, window, key[1]).legs[key] = new_legs.get(key)
    for name in calls.keys() | new_calls.keys():
        if calls.get(name) != new_calls.get(name):
            source = (new_calls.get(name) or calls[name]).source
            _change_at(by_event, window, source).calls[name] = new_calls.get(name)


def _change_at(by_event: dict[int, Change], window: _Window, node: str) -> Change:
    event = window.makers.get(node)
    if event is None:
        raise ToolError(f"between its events {window.start} and {window.end} {node} changes, and is told nothing")
    return by_event.setdefault(event, Change(event))
