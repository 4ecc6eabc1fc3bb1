"""A page of one run for a browser: the map at each event, each call's course, and the messages with their decode."""

import json
import re
from collections.abc import Callable
from html import escape
from pathlib import Path
from typing import Any

from . import frames, network_map, picture, prefixes, program, rsvp
from .circuits import Usage
from .courses import Heard, heard
from .errors import ToolError
from .groups import Group, changes
from .prefixes import Change
from .scene import COLOURS, DARK, LOADS, Scene
from .tables import Call, Leg, Message
from .traces import Delivery, Post, Trace

HERE = Path(__file__).resolve().parent

Json = dict[str, Any]


def page(data: bytes, trace: Trace, title: str, tell: Callable[[int, int], None]) -> str:
    """The document, which needs no other file and no network. How far it is, is told meanwhile."""
    taken = frames.deliveries(data, trace)
    handed = list(frames.handed_up(taken))
    messages = heard(trace, handed)
    found = prefixes.changes_of(data, trace, handed, tell)
    told = {
        "title": title,
        "colours": COLOURS,
        "loads": LOADS,
        "dark": [DARK[paint] for paint in COLOURS],
        **_map(trace),
        "changes": [_change(change) for change in found],
        "owners": _owners(found),
        "failures": _failures(trace),
        "marks": _marks(trace, found),
        "messages": _messages(trace, taken, messages),
    }
    lines = [line.decode("ascii") for line in prefixes.event_lines(data, trace)]
    parts = {
        "TITLE": escape(title),
        "DATA": json.dumps(told, separators=(",", ":")).replace("<", "\\u003c"),
        "EVENTS": "\n".join(lines),
        "CODE": (HERE / "trace_page.js").read_text(),
    }
    return re.sub("@([A-Z]+)@", lambda place: parts[place[1]], (HERE / "trace_page.html").read_text())


def _map(trace: Trace) -> Json:
    """The size of the map, the nodes with their places and those of their names, and the links with those of their numbers."""
    # As for a load the links are wide, so that the names leave room for the lanes.
    scene = Scene(trace.plan, Usage(), frozenset(), "", is_load=True)
    (made,), (wide, high) = picture.arranged([scene], 0.0)
    nodes, links = [], []
    for node in trace.plan.nodes:
        x, y = made.points[node.name]
        left, _, right, base = made.names[node.name]
        nodes.append([node.name, *_rounded(x, y, left, base - 4, right - left)])
    for track in sorted(made.tracks, key=lambda track: track.link.id):
        left, top, right, bottom = made.numbers[track.link.id]
        corners = [_rounded(*point) for point in track.points(0)]
        number = _rounded((left + right) / 2, (top + bottom) / 2)
        links.append([track.link.id, track.first, track.last, corners, number, track.link.labels, list(track.link.srlgs)])
    size = _rounded(wide + 2 * network_map.MARGIN, high + 2 * network_map.MARGIN)
    return {"size": size, "nodes": nodes, "links": links}


def _rounded(*numbers: float) -> list[float]:
    return [round(number, 1) for number in numbers]


def _change(change: Change) -> list[Any]:
    """The event's number, and the legs and the calls as they are behind it, each without its first words."""
    legs = {f"{lsp} {node}": _behind(leg, 3) for (lsp, node), leg in change.legs.items()}
    calls = {name: _behind(call, 2) for name, call in change.calls.items()}
    return [change.event, legs, calls]


def _behind(row: Leg | Call | None, words: int) -> str | None:
    """The row of a table without its first so many words."""
    return None if row is None else row.text().split(" ", words)[words]


def _owners(found: list[Change]) -> dict[str, str]:
    """The call of each LSP."""
    calls = (call for change in found for call in change.calls.values() if call is not None)
    return {lsp.text(): call.name for call in calls for lsp in (call.work, call.backup) if lsp is not None}


def _failures(trace: Trace) -> list[list[Any]]:
    """Each event that posts a failure or a repair, with its words and the links of its group."""
    found = []
    for number, entry in enumerate(trace.entries, 1):
        told = changes(entry.line) if isinstance(entry, Post) else None
        if told is not None:
            found.append([number, told[0], told[1].text(), sorted(told[1].links(trace.plan))])
    return found


class _Course:
    """What has become of the calls so far: their rows, the links of each LSP, and the marks of each call."""

    def __init__(self, trace: Trace) -> None:
        self._plan = trace.plan
        self._calls: dict[str, Call] = {}
        self._links: dict[str, dict[str, int]] = {}
        self.marks: dict[str, list[list[Any]]] = {}

    def mark(self, event: int, name: str, word: str) -> None:
        """The word stands at this event on the call's timeline."""
        self.marks.setdefault(name, []).append([event, word])

    def post(self, event: int, line: str) -> None:
        """A script line is posted: the calls that are asked for or released, and those that a failure hits."""
        words = line.split()
        told = changes(line)
        if words[0] in ("setup", "release"):
            self.mark(event, words[1], "asked" if words[0] == "setup" else "released")
        elif told is not None and told[0] == "fail":
            self._hit(event, told[1])

    def _hit(self, event: int, group: Group) -> None:
        cut = group.links(self._plan)
        for call in self._calls.values():
            carrier = call.backup if call.state == "turned" else call.work
            links = self._links.get(carrier.text(), {}) if carrier else {}
            if not cut.isdisjoint(links.values()):
                self.mark(event, call.name, "hit")

    def change(self, change: Change) -> None:
        """An event changes legs and calls."""
        for (lsp, node), leg in change.legs.items():
            route = self._links.setdefault(lsp, {})
            route.pop(node, None)
            if leg is not None and leg.outgoing is not None:
                route[node] = leg.outgoing.link
        for name, call in change.calls.items():
            old = self._calls.pop(name, None)
            if call is not None:
                self._calls[name] = call
            state, before = call.state if call else "gone", old.state if old else ""
            if state != before:
                is_back = before == "turned" and state in ("bare", "pairing", "guarded")
                self.mark(change.event, name, f"back, {state}" if is_back else state)


def _marks(trace: Trace, found: list[Change]) -> dict[str, list[list[Any]]]:
    """The marks of each call's timeline, in order."""
    course = _Course(trace)
    changed = {change.event: change for change in found}
    for number, entry in enumerate(trace.entries, 1):
        if isinstance(entry, Post):
            course.post(number, entry.line)
        if number in changed:
            course.change(changed[number])
    return course.marks


def _messages(trace: Trace, taken: list[tuple[Delivery, bytes]], messages: list[Heard]) -> list[list[Any]]:
    """Each RSVP message that a node took: its event, sender, taker, type and LSP, whether it was handed up, and its decode."""
    numbers = {id(entry): number for number, entry in enumerate(trace.entries, 1)}
    names = {node.id: node.name for node in trace.plan.nodes}
    handed = {id(one.entry) for one in messages}
    rows = [(entry, frame) for entry, frame in taken if frame[:1] == bytes([rsvp.RSVP])]
    told = program.decode("".join(f"{frame[1:].hex()}\n" for _, frame in rows)).output.parts
    if len(told) != len(rows) or not all(isinstance(part, Message) for part in told):
        raise ToolError("ason decodes other messages than the trace has")
    found = []
    for (entry, frame), part in zip(rows, told):
        message = rsvp.message_of(frame)
        lsp = f"{names.get(message.ingress, '')}.{message.tunnel}.{message.lsp}" if part.lsp else ""
        words = f"{part.type} {lsp}" + (f" {message.code}" if message.code else "")
        found.append([numbers[id(entry)], entry.sender, entry.node, words.strip(), lsp, int(id(entry) in handed), part.text()])
    return found
