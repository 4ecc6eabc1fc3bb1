"""Topologies in JSON as GNPy has them: elements, and connections from one element to the next."""

from collections.abc import Iterator
from dataclasses import dataclass
from itertools import zip_longest
from typing import Any

from .errors import ToolError, quoted
from .json_document import inner, load, objects, text_of
from .topology import Edge, Position, Site, Topology, position_of

ROADM, TRANSCEIVER = "Roadm", "Transceiver"
FIBRES = ("Fiber", "RamanFiber")
KILOMETRES = {"km": 1.0, "m": 0.001}

LENGTH = "length"
"""The attribute of an edge that has the kilometres of its fibres."""

PREFIXES = ("roadm ", "trx ")
"""What ids put before the name of a city."""

MOST_WAYS = 10_000
"""So many ways from node to node are followed at most."""


@dataclass(frozen=True)
class OneWay:
    """A way from a site to the next, through elements that are no sites."""

    source: str
    target: str
    elements: tuple[str, ...]
    length: float


@dataclass(frozen=True)
class _Elements:
    """The elements by their ids, and which follow each."""

    by_id: dict[str, dict[str, Any]]
    behind: dict[str, list[str]]

    def kind(self, key: str) -> str:
        return str(self.by_id[key].get("type"))

    def length(self, key: str) -> float:
        """The kilometres of a fibre; 0 of any other element."""
        if self.kind(key) not in FIBRES:
            return 0.0
        number = inner(self.by_id[key], "params", "length")
        unit = KILOMETRES.get(inner(self.by_id[key], "params", "length_units") or "km")
        if isinstance(number, bool) or not isinstance(number, (int, float)) or not 0 <= number < 1e9 or unit is None:
            raise ToolError(f"fibre {quoted(key)} has no length from 0 on in km or m")
        return number * unit


def is_gnpy(data: bytes) -> bool:
    """Whether the bytes begin as a JSON object; no other form does."""
    return data.startswith(b"{")


def read(text: str) -> Topology:
    """The network: ROADMs are nodes, transceivers belong to theirs, and what lies between two nodes is a link."""
    elements = _elements(load(text))
    topology = Topology(metric=LENGTH)
    topology.aliases = _aliases(elements)
    keys = [key for key in elements.by_id if _is_site(elements, key, topology.aliases)]
    topology.sites = _sites(elements, keys)
    sites = set(keys)
    ways = [way for key in keys for way in _ways(elements, key, sites)]
    topology.edges = list(_edges(ways, topology.notes))
    return topology


def _elements(top: dict[str, Any]) -> _Elements:
    by_id: dict[str, dict[str, Any]] = {}
    for number, element in enumerate(objects(top, "elements", "the document"), 1):
        key = text_of(element, "uid", f"element {number}")
        if key in by_id:
            raise ToolError(f"two elements have the uid {quoted(key)}")
        text_of(element, "type", f"element {number}")
        by_id[key] = element
    behind: dict[str, list[str]] = {key: [] for key in by_id}
    for number, connection in enumerate(objects(top, "connections", "the document"), 1):
        ends = [text_of(connection, name, f"connection {number}") for name in ("from_node", "to_node")]
        missing = next((end for end in ends if end not in by_id), None)
        if missing is not None:
            raise ToolError(f"connection {number} ends at {quoted(missing)}, which is no element of the file")
        behind[ends[0]].append(ends[1])
    return _Elements(by_id, behind)


def _aliases(elements: _Elements) -> dict[str, str]:
    """Each transceiver that stands beside a ROADM, with this."""
    pairs = [(start, end) for start, ends in elements.behind.items() for end in ends]
    both = [*pairs, *((end, start) for start, end in pairs)]
    return {one: other for one, other in both if elements.kind(one) == TRANSCEIVER and elements.kind(other) == ROADM}


def _is_site(elements: _Elements, key: str, aliases: dict[str, str]) -> bool:
    """Whether the element is a node: a ROADM, or a transceiver that stands beside none."""
    return elements.kind(key) == ROADM or elements.kind(key) == TRANSCEIVER and key not in aliases


def _sites(elements: _Elements, keys: list[str]) -> list[Site]:
    """The nodes by their cities, or by their ids where these say more; with places where there is more than one."""
    cities = [inner(elements.by_id[key], "metadata", "location", "city") for key in keys]
    places = [_place(elements.by_id[key]) for key in keys]
    has_places = len(set(places)) > 1
    return [
        Site(key, city if isinstance(city, str) and city and cities.count(city) == 1 else _plain(key), place if has_places else None)
        for key, city, place in zip(keys, cities, places)
    ]


def _plain(key: str) -> str:
    """The id without the word before the name."""
    return next((key.removeprefix(prefix) for prefix in PREFIXES if key.startswith(prefix)), key)


def _place(element: dict[str, Any]) -> Position | None:
    location = inner(element, "metadata", "location")
    return position_of(*(str(inner(location, name)) for name in ("longitude", "latitude")))


def _ways(elements: _Elements, start: str, sites: set[str]) -> Iterator[OneWay]:
    """The ways from this site to the next ones. One that turns round in an element to where it began is none."""
    todo: list[tuple[str, ...]] = [(key,) for key in elements.behind[start]]
    for _ in range(MOST_WAYS):
        if not todo:
            return
        *passed, key = path = todo.pop(0)
        if key in sites:
            if key != start or len(passed) == 0:
                yield OneWay(start, key, tuple(passed), sum(map(elements.length, passed)))
        elif elements.kind(key) != TRANSCEIVER:
            todo += [(*path, new) for new in elements.behind[key] if new not in path]
    raise ToolError(f"from {quoted(start)} more than {MOST_WAYS:,} ways lead on")


def _edges(ways: list[OneWay], notes: list[str]) -> Iterator[Edge]:
    """A line for each way there and back; of several between two sites those of like length belong together."""
    by_ends: dict[tuple[str, str], list[OneWay]] = {}
    for way in ways:
        by_ends.setdefault((way.source, way.target), []).append(way)
    done: set[frozenset[str]] = set()
    for (source, target), there in by_ends.items():
        if frozenset((source, target)) in done:
            continue
        done.add(frozenset((source, target)))
        back = by_ends.get((target, source), []) if source != target else []
        pairs = zip_longest(*(sorted(it, key=lambda way: way.length) for it in (there, back)))
        yield from (_edge(one or other, other if one else None, notes) for one, other in pairs)


def _edge(way: OneWay, back: OneWay | None, notes: list[str]) -> Edge:
    key = next(iter(way.elements), f"{way.source} to {way.target}")
    if back is None and way.source != way.target:
        notes.append(f"the way of {quoted(key)} has no way back: it is taken for both")
    length = max(way.length, back.length) if back else way.length
    elements = way.elements + (back.elements if back else ())
    return Edge(key, (way.source, way.target), {LENGTH: f"{length:.12g}"}, elements=elements)
