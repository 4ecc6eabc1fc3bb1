"""Routes that mustn't be given, as GNPy told that no signal of theirs can be read at the end."""

from collections.abc import Iterator, Sequence
from dataclasses import dataclass
from typing import Any

from .errors import ToolError, quoted
from .json_document import inner, objects, parse
from .plan import Link
from .topology import Edge, Topology

INFEASIBLE = ("MODE_NOT_FEASIBLE", "NO_FEASIBLE_MODE")
"""What GNPy gives as the reason where a route's signal is too poor. Want of spectrum is another matter."""


@dataclass(frozen=True)
class Veto:
    """A route from a node on that mustn't be given: of each of its steps the links that it may be."""

    source: str
    steps: tuple[frozenset[int], ...]

    def bars(self, source: str, route: Sequence[Link]) -> bool:
        """Whether this is the route."""
        is_long = self.source == source and len(route) == len(self.steps)
        return is_long and all(link.id in step for link, step in zip(route, self.steps))


def read(text: str) -> list[list[str]]:
    """The infeasible routes of a file, each as the ids that it passes: GNPy's answer to requests, or a list of lists."""
    top = parse(text)
    if isinstance(top, list):
        if not all(isinstance(route, list) and all(isinstance(key, str) for key in route) for route in top):
            raise ToolError("it is no list of routes, each a list of ids")
        return top
    answers = objects(top, "response", "the document")
    return [route for answer in answers for route in _refused(answer)]


def _refused(answer: dict[str, Any]) -> Iterator[list[str]]:
    """The routes of an answer that says that they are infeasible."""
    refusal = answer.get("no-path")
    if inner(refusal, "no-path") not in INFEASIBLE:
        return
    for kind in ("path-route-objects", "z-a-path-route-objects"):
        hops = inner(refusal, "path-properties", kind)
        keys = [inner(hop, "path-route-object", "num-unnum-hop", "node-id") for hop in hops or []]
        route = [key for key in keys if isinstance(key, str)]
        if route:
            yield route


def vetoes(routes: list[list[str]], topology: Topology, names: dict[str, str], edges: list[Edge]) -> tuple[list[Veto], list[str]]:
    """The routes over the links of a plan, whose names are those of the nodes' ids; and a sentence on each that is none."""
    found, notes = [], []
    known = {**topology.aliases, **{site.key: site.key for site in topology.sites}}
    known |= {site.title: site.key for site in topology.sites if site.title not in known}
    known |= {name: key for key, name in names.items() if name not in known}
    for number, route in enumerate(routes, 1):
        nodes = [key for key in (known.get(it) for it in route) if key is not None]
        nodes = [key for place, key in enumerate(nodes) if place == 0 or nodes[place - 1] != key]
        steps = tuple(_step(ends, set(route), edges) for ends in zip(nodes, nodes[1:]))
        if steps and all(steps):
            found.append(Veto(names[nodes[0]], steps))
        else:
            notes.append(f"route {number} of the infeasible ones ({quoted(' '.join(route))}) isn't one of this network")
    return found, notes


def _step(ends: tuple[str, str], passed: set[str], edges: list[Edge]) -> frozenset[int]:
    """The numbers of the links between these nodes that have an element of the route, or of all where none has."""
    between = [(number, edge) for number, edge in enumerate(edges, 1) if frozenset(edge.ends) == frozenset(ends)]
    named = [number for number, edge in between if not passed.isdisjoint(edge.elements)]
    return frozenset(named or [number for number, _ in between])
