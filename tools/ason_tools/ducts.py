"""Links that lie in one duct, by the map: spans that run side by side."""

import math
from collections.abc import Callable

from .errors import ToolError, quoted
from .plan import Link, Plan
from .topology import Position

DEGREE = 111.195
"""The kilometres of a degree of latitude."""

LEAST_COSINE = math.cos(math.radians(30))
"""Spans are parallel where the angle between them is at most 30 degrees."""


def ducts(plan: Plan, apart: float) -> list[list[Link]]:
    """The sets of links that share a duct: the duct of a span has each longer span beside it for its whole length.

    A span lies beside another where both its ends are at most so many kilometres from it, and they are parallel. A set
    that is part of another one is left out.
    """
    places = {node.name: _place(node.name, node.position) for node in plan.nodes}
    spans = {link.id: (places[link.ends[0]], places[link.ends[1]]) for link in plan.links}
    found: dict[frozenset[int], None] = {}
    for short, span in spans.items():
        found[frozenset(long for long in spans if long == short or _is_along(span, spans[long], apart))] = None
    kept = [duct for duct in found if len(duct) > 1 and not any(duct < other for other in found)]
    return [[link for link in plan.links if link.id in duct] for duct in kept]


def _place(name: str, position: Position | None) -> Position:
    if position is None:
        raise ToolError(f"node {quoted(name)} has no position, so no ducts can be told")
    if abs(position[0]) > 180 or abs(position[1]) > 90:
        where = f"the position of node {quoted(name)}"
        raise ToolError(f"{where} isn't a longitude and a latitude, so no ducts can be told")
    return position


Span = tuple[Position, Position]
"""The two ends of a link."""


def _is_along(short: Span, long: Span, apart: float) -> bool:
    """Whether the first span, which isn't longer, lies beside the second one for its whole length."""
    flat = _flattened(short)
    (a, b), (c, d) = [(flat(start), flat(end)) for start, end in (short, long)]
    length, other = math.dist(a, b), math.dist(c, d)
    if length > other + 1e-6 or length == 0:
        return False
    cosine = abs((b[0] - a[0]) * (d[0] - c[0]) + (b[1] - a[1]) * (d[1] - c[1]))
    return cosine >= LEAST_COSINE * length * other and all(_distance(point, c, d) <= apart for point in (a, b))


def _flattened(span: Span) -> Callable[[Position], Position]:
    """Kilometres to the east and to the north of the span's middle."""
    east, north = (sum(values) / 2 for values in zip(*span))
    narrow = math.cos(math.radians(north))
    return lambda place: (((place[0] - east + 180) % 360 - 180) * narrow * DEGREE, (place[1] - north) * DEGREE)


def _distance(point: Position, start: Position, end: Position) -> float:
    """How far the point is from the line between the two."""
    wide, high = end[0] - start[0], end[1] - start[1]
    square = wide * wide + high * high
    share = ((point[0] - start[0]) * wide + (point[1] - start[1]) * high) / square if square else 0.0
    share = min(1.0, max(0.0, share))
    return math.dist(point, (start[0] + share * wide, start[1] + share * high))
