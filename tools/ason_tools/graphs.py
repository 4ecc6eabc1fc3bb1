"""A plan of a graph of networkx, or of whatever has its `nodes`, `edges` and `is_directed`."""

from collections.abc import Hashable, Iterable
from typing import Any, Protocol

from .building import Builder
from .errors import ToolError, quoted
from .plan import Plan
from .topology import Position, position_of

TITLES = ("label", "name")
EAST = ("Longitude", "longitude", "lon", "x")
NORTH = ("Latitude", "latitude", "lat", "y")


class Graph(Protocol):
    """What is asked of a graph."""

    def nodes(self, data: bool) -> Iterable[tuple[Hashable, dict[str, Any]]]: ...

    def edges(self, data: bool) -> Iterable[tuple[Hashable, Hashable, dict[str, Any]]]: ...

    def is_directed(self) -> bool: ...


def plan_of_graph(
    graph: Graph,
    *,
    labels: int | str = 80,
    metric: str | None = None,
    srlgs: str | None = None,
    convert: bool | str = True,
    calls: Iterable[tuple[Hashable, Hashable]] = (),
    protected: bool = True,
) -> Plan:
    """The plan of the graph: a link for each edge, and a setup for each call, one after the other.

    `labels` and `convert` are one value for all, or the attribute of an edge or of a node that has it; `metric` and `srlgs`
    are attributes of an edge, the second with a number or several. In a directed graph an edge each way is one link, with the
    SRLGs of both and all else of the first. A node's name is made of its `label` or `name`, or else of the node itself.
    """
    builder = Builder()
    for node, data in graph.nodes(data=True):
        title = next((str(data[key]) for key in TITLES if data.get(key)), str(node))
        kept = data.get(convert, False) if isinstance(convert, str) else convert
        builder.add_node(node, title, bool(kept), _position(data))
    if not builder.plan.nodes:
        raise ToolError("the graph has no node")
    for source, target, data, back in _edges(graph):
        key = f"{source} - {target}"
        of_edge = _attribute(data, labels, key) if isinstance(labels, str) else labels
        risks = [] if srlgs is None else [*_numbers(data, srlgs), *_numbers(back, srlgs)]
        builder.add_link(key, (source, target), of_edge, 1 if metric is None else _attribute(data, metric, key), risks)
    for source, target in calls:
        builder.add_setup(source, target, protected, settle=True)
    return builder.plan


def _edges(graph: Graph) -> list[tuple[Hashable, Hashable, dict[str, Any], dict[str, Any]]]:
    """The edges that become links, each with the data of its way back: none from a node to itself."""
    found: list[tuple[Hashable, Hashable, dict[str, Any], dict[str, Any]]] = []
    unmatched: dict[tuple[Hashable, Hashable], list[int]] = {}
    for source, target, data in graph.edges(data=True):
        there = unmatched.get((target, source)) if graph.is_directed() else None
        if source == target:
            continue
        if there:
            place = there.pop(0)
            found[place] = (*found[place][:3], data)
            continue
        unmatched.setdefault((source, target), []).append(len(found))
        found.append((source, target, data, {}))
    return found


def _numbers(data: dict[str, Any], name: str) -> tuple[Any, ...]:
    """The number or the numbers that the edge has under this name."""
    value = data.get(name, ())
    return tuple(value) if isinstance(value, Iterable) and not isinstance(value, str) else (value,)


def _attribute(data: dict[str, Any], name: str, key: str) -> int:
    """The whole number that the edge has under this name; a float that is one counts."""
    if name not in data:
        raise ToolError(f"edge {quoted(key)} has no {quoted(name)}")
    value = data[name]
    return int(value) if isinstance(value, float) and value.is_integer() else value


def _position(data: dict[str, Any]) -> Position | None:
    pair = data.get("pos")
    if isinstance(pair, (tuple, list)) and len(pair) == 2:
        return position_of(str(pair[0]), str(pair[1]))
    east, north = (next((str(data[key]) for key in keys if key in data), None) for keys in (EAST, NORTH))
    return position_of(east, north)
