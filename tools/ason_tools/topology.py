"""A network as a topology file has it, before it becomes a plan."""

from dataclasses import dataclass, field
from math import isfinite

Position = tuple[float, float]
"""Where a node is: to the east and to the north. For a place on the globe longitude and latitude, in degrees."""

TITLES = ("label", "name", "Label", "Name")
EAST = ("Longitude", "longitude", "lon", "x")
NORTH = ("Latitude", "latitude", "lat", "y")
"""The attributes of a node that are its title and its position, in order of preference."""

FARTHEST = 1e9
"""The greatest coordinate that counts as one."""


@dataclass(frozen=True)
class Site:
    """A node of the file: the id by which edges name it, the text that people know it by, and where it is."""

    key: str
    title: str
    position: Position | None = None


@dataclass(frozen=True)
class Edge:
    """A line of the file between two nodes, with the texts of its attributes. A directed one is one way of a link."""

    key: str
    ends: tuple[str, str]
    attributes: dict[str, str] = field(default_factory=dict)
    is_directed: bool = False
    elements: tuple[str, ...] = ()
    """What the line is made of, both ways, where the file tells: fibres and amplifiers by their ids."""


@dataclass(frozen=True)
class Demand:
    """A wish for a connection from one node to another, and how much it needs, where that is told."""

    key: str
    source: str
    target: str
    amount: float | None = None


@dataclass
class Topology:
    """All that is read of a topology file, in its order, and a sentence on each thing that wasn't read."""

    sites: list[Site] = field(default_factory=list)
    edges: list[Edge] = field(default_factory=list)
    demands: list[Demand] = field(default_factory=list)
    notes: list[str] = field(default_factory=list)
    metric: str | None = None
    """The attribute of an edge that is its metric where none is wished for."""

    aliases: dict[str, str] = field(default_factory=dict)
    """Further ids of nodes, each with the key of its node."""


def first_of(attributes: dict[str, str], names: tuple[str, ...]) -> str | None:
    """The first of these attributes that is there and isn't empty."""
    return next((attributes[name] for name in names if attributes.get(name)), None)


def number_of(text: str) -> float | None:
    """The finite number that the text spells, or None."""
    try:
        number = float(text)
    except ValueError:
        return None
    return number if isfinite(number) else None


def position_of(east: str | None, north: str | None) -> Position | None:
    """The position that the two texts spell, or None."""
    x, y = number_of(east or ""), number_of(north or "")
    return None if x is None or y is None or max(abs(x), abs(y)) > FARTHEST else (x, y)
