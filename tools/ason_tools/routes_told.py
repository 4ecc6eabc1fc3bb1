"""What `ason route` prints, as values."""

import re
from dataclasses import dataclass, field

from .errors import ToolError


@dataclass(frozen=True)
class Route:
    """A route: the sum of its metrics, and its links from the one node to the other."""

    cost: int
    links: tuple[int, ...]


@dataclass
class Routes:
    """The least route and the least one that may be its backup, where they are there, and each node's least cost, or None."""

    primary: Route | None = None
    backup: Route | None = None
    potentials: dict[str, int | None] = field(default_factory=dict)


_ROUTE = re.compile(r"(primary|backup) ([0-9]+) ([0-9]+(?:,[0-9]+)*)")
_POTENTIAL = re.compile(r"potential ([A-Za-z][A-Za-z0-9_-]*) ([0-9]+|-)")


def read(text: str) -> Routes:
    """The routes that the text tells. A ToolError where it tells none: a node that isn't there, or a plan that is refused."""
    lines = text.splitlines()
    if len(lines) == 1 and re.match(r"no node |same node$|refused ", lines[0]):
        raise ToolError(f"ason says {lines[0]!r}")
    routes = Routes()
    for number, line in enumerate(lines, 1):
        route, potential = _ROUTE.fullmatch(line), _POTENTIAL.fullmatch(line)
        if route:
            found = Route(int(route[2]), tuple(map(int, route[3].split(","))))
            routes.primary, routes.backup = (found, routes.backup) if route[1] == "primary" else (routes.primary, found)
        elif potential:
            routes.potentials[potential[1]] = None if potential[2] == "-" else int(potential[2])
        elif line not in ("no primary", "no backup"):
            raise ToolError(f"line {number} isn't what ason route prints")
    if not routes.potentials:
        raise ToolError("it isn't what ason route prints")
    return routes
