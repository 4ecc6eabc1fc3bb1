"""Where names and badges stand on a map, so that they cover nothing."""

import math
from collections.abc import Callable, Iterable, Iterator
from dataclasses import dataclass, field

from .geometry import Box, Line, Point, box_around, distance, hull, is_overlap

NODE_RADIUS = 11.0
NODE_EDGE = 2.0
"""The room between a node and a name or a badge."""

GAP = 2.0
"""The room between two names or badges."""

NEARER = 5.0
"""By how much a name is nearer to its own node than to any other."""

FOREIGN = 80.0
"""A node that is farther from all places of a name isn't looked at."""

GAPS = (4.0, 7.0, 11.0, 16.0, 23.0, 32.0, 44.0, 60.0)
TURNS = 24
"""A name's distances from its node, and the directions in which it may stand."""

TO_LINK, TO_BADGE, TO_NODE, TO_EDGE = 300, 600, 1000, 3000
"""What it costs to cover each of these."""


@dataclass
class Ground:
    """What mustn't be covered: nodes, links, and what stands already; and how often something had to be covered."""

    nodes: dict[str, Point]
    lines: list[Line]
    edges: Box
    placed: list[Box] = field(default_factory=list)
    covered: int = 0

    def place_badge(self, boxes: list[Box], link: int, is_needed: bool) -> int | None:
        """The first box that covers nothing but the badge's own link. Without one: the least bad one, or None."""
        near = self._near(hull(boxes))
        found = self._chosen(boxes, lambda box, most: near.cost(box, link, most), is_needed)
        return None if found is None else boxes.index(found)

    def place_name(self, name: str, wide: float, high: float) -> Box:
        """The first box of this size beside the node that covers nothing, and is nearer to it than to other nodes."""
        own = self.nodes[name]
        reach = 2 * (NODE_RADIUS + GAPS[-1])
        near = self._near(box_around(own, 2 * wide + reach, 2 * high + reach))
        spots = name_spots(own, wide, high)
        found = self._chosen(spots, lambda box, most: near.cost(box, None, most) + TO_NODE * near.is_foreign(box, own), True)
        return found or box_around(own, wide, high)

    def _chosen(self, boxes: Iterable[Box], cost_of: Callable[[Box, float], float], is_needed: bool) -> Box | None:
        """The first box without a cost, which is taken. Else the cheapest one, where one is needed."""
        best, least = None, math.inf
        for box in boxes:
            cost = cost_of(box, least)
            if cost < least:
                best, least = box, cost
            if cost == 0:
                break
        if least and not is_needed:
            return None
        self.covered += least > 0
        if best is not None:
            self.placed.append(best)
        return best

    def _near(self, around: Box) -> "Ground":
        """What of all this may be near to boxes within this one."""
        nodes = {name: at for name, at in self.nodes.items() if distance(around, at) < FOREIGN}
        placed = [box for box in self.placed if is_overlap(around, box, GAP)]
        return Ground(nodes, [line for line in self.lines if line.is_near(around)], self.edges, placed)

    def cost(self, box: Box, link: int | None, most: float) -> float:
        """What it costs to stand there: for each thing that would be covered. A badge may cover its own link.

        What costs more than `most` anyhow isn't reckoned to its end.
        """
        left, top, right, bottom = self.edges
        outside = box[0] < left or box[1] < top or box[2] > right or box[3] > bottom
        cost = TO_EDGE * outside + TO_BADGE * sum(is_overlap(box, other, GAP) for other in self.placed)
        if cost < most:
            cost += TO_NODE * sum(distance(box, at) < NODE_RADIUS + NODE_EDGE for at in self.nodes.values())
        for line in self.lines:
            if cost >= most:
                break
            cost += TO_LINK * (line.link != link and line.touches(box))
        return cost

    def is_foreign(self, box: Box, own: Point) -> bool:
        """Whether a name there would be as near to another node as to its own."""
        room = distance(box, own) + NEARER
        return any(at != own and distance(box, at) < room for at in self.nodes.values())


def name_spots(at: Point, wide: float, high: float) -> Iterator[Box]:
    """Where the name of the node there may stand: below it first, then all around, and then farther away."""
    turns = sorted(range(TURNS), key=lambda turn: (turn % (TURNS // 4), turn))
    return (_beside(at, 2 * math.pi * turn / TURNS, gap, (wide, high)) for gap in GAPS for turn in turns)


def _beside(at: Point, angle: float, gap: float, size: tuple[float, float]) -> Box:
    """The box of this size that lies in this direction, from below, with this gap to the node."""
    wide, high = size
    east, south = math.sin(angle), math.cos(angle)
    reach = NODE_RADIUS + gap
    center = (at[0] + east * (reach + wide / 2), at[1] + south * (reach + high / 2))
    box = box_around(center, wide, high)
    # Towards a corner the box would be farther away than the gap: it is drawn in.
    for _ in range(2):
        much = distance(box, at) - reach
        center = (center[0] - east * much, center[1] - south * much)
        box = box_around(center, wide, high)
    return box
