"""Where a picture puts the nodes."""

import math
import random
from itertools import combinations

from .geometry import Point
from .plan import Plan

_ROUNDS = 30
"""Rounds of the force layout, which settles in about so many."""

_APART = 0.15
"""The least distance of two nodes, as a share of the box's width, where there is room."""

_BESIDE = 40.0
"""The least distance of a node and a link that doesn't end there, where there is room."""

_PUSHES = 80
"""The most rounds in which what is too near is pushed apart."""

_MOST_LOOKS = 500_000
"""How often at most, over all rounds, two nodes or a node and a link are looked at."""


def layout(plan: Plan, width: float, height: float) -> dict[str, Point]:
    """A point of the box for each node: by the plan's positions where each node has one, else by a force layout."""
    if all(node.position for node in plan.nodes):
        points = _by_position(plan)
    else:
        points = _by_force(plan)
    return _apart(plan, _fitted(points, width, height), width, height)


def _by_position(plan: Plan) -> dict[str, Point]:
    """The positions as on a map, with the north above."""
    places = {node.name: node.position for node in plan.nodes if node.position}
    norths = [north for _, north in places.values()]
    middle = (min(norths) + max(norths)) / 2
    on_globe = all(abs(east) <= 180 and abs(north) <= 90 for east, north in places.values())
    narrow = max(0.2, math.cos(math.radians(middle))) if on_globe else 1.0
    return {name: (east * narrow, -north) for name, (east, north) in places.items()}


def _by_force(plan: Plan) -> dict[str, Point]:
    """Points whose distances are like the least numbers of links between the nodes, found pair by pair."""
    names = [node.name for node in plan.nodes]
    wanted = _hops(plan)
    chance = random.Random(len(names))
    places = {
        name: [math.cos(2 * math.pi * number / len(names)), math.sin(2 * math.pi * number / len(names))]
        for number, name in enumerate(names)
    }
    pairs = list(combinations(names, 2))
    for turn in range(_ROUNDS):
        chance.shuffle(pairs)
        step = 4.0 * (0.01 / 4.0) ** (turn / _ROUNDS)
        for a, b in pairs:
            _pull(places[a], places[b], wanted[a][b], step)
    return {name: (place[0], place[1]) for name, place in places.items()}


def _pull(a: list[float], b: list[float], wanted: float, step: float) -> None:
    """Moves the two towards the wanted distance; those that are to be near are moved most."""
    east, north = b[0] - a[0], b[1] - a[1]
    distance = math.hypot(east, north) or 1e-6
    share = min(1.0, step / wanted**2) * (distance - wanted) / distance / 2
    a[0] += share * east
    a[1] += share * north
    b[0] -= share * east
    b[1] -= share * north


def _hops(plan: Plan) -> dict[str, dict[str, float]]:
    """The least number of links between every two nodes; more than any, where there is no way."""
    around: dict[str, set[str]] = {node.name: set() for node in plan.nodes}
    for link in plan.links:
        for end in link.ends:
            around[end].add(link.other(end))
    far = math.sqrt(len(around)) + 2
    distances = {}
    for start in around:
        reached = {start: 0.0}
        row = [start]
        for name in row:
            for other in sorted(around[name]):
                if other not in reached:
                    reached[other] = reached[name] + 1
                    row.append(other)
        distances[start] = {name: reached.get(name, far) for name in around}
    return distances


def _fitted(points: dict[str, Point], width: float, height: float) -> dict[str, Point]:
    """The points scaled into the box, and put in its middle."""
    easts, norths = [x for x, _ in points.values()], [y for _, y in points.values()]
    wide, high = max(easts) - min(easts), max(norths) - min(norths)
    if wide == 0 and high == 0:
        return {name: (width / 2, height / 2) for name in points}
    scale_x = width / wide if wide else math.inf
    scale_y = height / high if high else math.inf
    least = min(scale_x, scale_y)
    # A map may be stretched by half to fill the box, and no more.
    scale_x, scale_y = min(scale_x, 1.5 * least), min(scale_y, 1.5 * least)
    left, top = (width - wide * scale_x) / 2, (height - high * scale_y) / 2
    return {name: (left + (x - min(easts)) * scale_x, top + (y - min(norths)) * scale_y) for name, (x, y) in points.items()}


def _apart(plan: Plan, points: dict[str, Point], width: float, height: float) -> dict[str, Point]:
    """The points pushed apart where two are too near, and away from links that don't end there, within the box."""
    room = math.sqrt(width * height / max(1, len(points)))
    apart, beside = min(_APART * width, 0.7 * room), min(_BESIDE, 0.2 * room)
    places = {name: list(point) for name, point in points.items()}
    looks = len(places) * (len(places) + len(plan.links))
    for _ in range(max(1, min(_PUSHES, _MOST_LOOKS // looks))):
        moved = _part_all(list(places.values()), apart)
        moved |= any([_clear_all(places, link.ends, beside) for link in plan.links])
        for place in places.values():
            place[0] = min(width, max(0.0, place[0]))
            place[1] = min(height, max(0.0, place[1]))
        if not moved:
            break
    return {name: (place[0], place[1]) for name, place in places.items()}


def _part_all(places: list[list[float]], apart: float) -> bool:
    """Moves every two that are nearer than this away from each other. Tells whether there were any."""
    near = [
        (a, b, number)
        for number, (a, b) in enumerate(combinations(places, 2))
        if abs(a[0] - b[0]) < apart and abs(a[1] - b[1]) < apart
    ]
    return any([_part(a, b, apart, number) for a, b, number in near])


def _part(a: list[float], b: list[float], apart: float, number: int) -> bool:
    """Moves the two apart where they are nearer than this. The number gives a way to two at one point."""
    east, north = b[0] - a[0], b[1] - a[1]
    distance = math.hypot(east, north)
    if distance >= apart:
        return False
    if distance < 1e-9:
        east, north, distance = math.cos(number), math.sin(number), 1.0
    move = (apart - distance) / distance / 2
    for place, way in ((a, -move), (b, move)):
        place[0] += way * east
        place[1] += way * north
    return True


def _clear_all(places: dict[str, list[float]], ends: tuple[str, str], beside: float) -> bool:
    """Moves each node that the link between these two passes too near away from it. Tells whether there were any."""
    start, end = places[ends[0]], places[ends[1]]
    west, east = min(start[0], end[0]) - beside, max(start[0], end[0]) + beside
    north, south = min(start[1], end[1]) - beside, max(start[1], end[1]) + beside
    near = [
        place
        for name, place in places.items()
        if west < place[0] < east and north < place[1] < south and name not in ends
    ]
    return any([_clear(place, (start, end), beside) for place in near])


def _clear(place: list[float], ends: tuple[list[float], list[float]], beside: float) -> bool:
    """Moves the node and the link apart where it passes nearer than this: the node most, the ends a little."""
    (x1, y1), (x2, y2) = ends
    wide, high = x2 - x1, y2 - y1
    square = wide * wide + high * high
    if square < 1e-9:
        return False
    share = ((place[0] - x1) * wide + (place[1] - y1) * high) / square
    if not 0.0 < share < 1.0:
        return False
    length = math.sqrt(square)
    aside = ((place[1] - y1) * wide - (place[0] - x1) * high) / length
    if abs(aside) >= beside:
        return False
    move = math.copysign(beside - abs(aside), aside) / length / 2
    place[0] -= move * high
    place[1] += move * wide
    for end in ends:
        end[0] += move * high / 4
        end[1] -= move * wide / 4
    return True
