"""The ways of links over a map, and the lanes of circuits on them."""

import math

from .geometry import Line, Point
from .plan import Link, Plan

LANE = 6.0
BROADEST = 42.0
"""The most room that the lanes of a link take together."""

BARE_BED = 2.5
"""How wide a link is drawn that no circuit goes over."""


class Track:
    """The way of a link from end to end: a straight line, or two where it is bent aside."""

    def __init__(self, link: Link, start: Point, end: Point, bow: float) -> None:
        self.link = link
        self.first, self.last = link.ends
        if link.ends[0] > link.ends[1]:
            start, end = end, start
            self.first, self.last = self.last, self.first
        self._start, self._end, self._bow = start, end, bow
        length = math.dist(start, end) or 1.0
        self.length = length
        self._along = ((end[0] - start[0]) / length, (end[1] - start[1]) / length)
        self._side = (-self._along[1], self._along[0])

    def at(self, share: float, aside: float) -> Point:
        """The point at this share of the way, this far aside."""
        away = aside + self._bow * (1 - abs(2 * share - 1))
        x = self._start[0] + share * (self._end[0] - self._start[0]) + away * self._side[0]
        y = self._start[1] + share * (self._end[1] - self._start[1]) + away * self._side[1]
        return x, y

    def points(self, aside: float) -> list[Point]:
        """The corners of the lane that lies this far aside."""
        return [self.at(share, aside) for share in self._shares()]

    def lines(self, half: float) -> list[Line]:
        """The straight pieces, half so wide."""
        corners = self.points(0)
        return [Line(self.link.id, start, end, half) for start, end in zip(corners, corners[1:])]

    def arrow(self, aside: float, is_forward: bool, gap: float, long: float, half: float) -> list[Point]:
        """The corners of an arrowhead on this lane, with its tip so far before the end to which it points."""
        tip = 1 - gap / self.length if is_forward else gap / self.length
        back = tip - long / self.length * (1 if is_forward else -1)
        return [self.at(tip, aside), self.at(back, aside + half), self.at(back, aside - half)]

    def _shares(self) -> tuple[float, ...]:
        return (0.0, 0.5, 1.0) if self._bow else (0.0, 1.0)


def tracks_of(plan: Plan, points: dict[str, Point]) -> list[Track]:
    """The ways of all links between nodes at these points; parallel links are bent aside, which tells them apart."""
    parallel: dict[frozenset[str], list[Link]] = {}
    for link in plan.links:
        parallel.setdefault(frozenset(link.ends), []).append(link)
    bent = (pair for links in parallel.values() for pair in _bent(links))
    return [Track(link, points[link.ends[0]], points[link.ends[1]], bow) for link, bow in bent]


def _bent(links: list[Link]) -> list[tuple[Link, float]]:
    """Each of these parallel links with how far it is bent aside."""
    gap = min(34.0, 240.0 / len(links))
    return [(link, gap * (place - (len(links) - 1) / 2)) for place, link in enumerate(links)]


def lane(count: int) -> float:
    """How wide each of so many lanes is."""
    return min(LANE, BROADEST / max(1, count))


def asides(count: int) -> list[float]:
    """How far aside each of so many lanes lies."""
    return [lane(count) * (place - (count - 1) / 2) for place in range(count)]


def bed(count: int) -> float:
    """How wide so many lanes are together."""
    return lane(count) * (count - 1) + LANE + 3 if count else BARE_BED
