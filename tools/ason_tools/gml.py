"""Topologies in GML, as the Topology Zoo has them: keys with values, each a number, a text or a list."""

import re
from collections.abc import Iterator
from html import unescape

from .errors import ToolError
from .files import place_of
from .topology import EAST, NORTH, TITLES, Edge, Site, Topology, first_of, position_of

DEEPEST = 64
"""The most lists that may stand within one another."""

_TOKEN = re.compile(r'\s+|\#[^\n]*|(?P<key>[A-Za-z_]\w*)|(?P<text>"[^"]*")|(?P<number>[-+.\w]+)|(?P<mark>[\[\]])')
_HEAD = re.compile(rb'(?:\s+|\#[^\n]*)*[A-Za-z_]\w*\s*(?:\[|"|[-+.\d])')

Pairs = list[tuple[str, "str | Pairs"]]
"""A list of GML: its keys and values in order. A number is kept as its text."""


def is_gml(data: bytes) -> bool:
    """Whether the bytes begin with a key and a value of GML."""
    return _HEAD.match(data) is not None


def read(text: str) -> Topology:
    """The first graph of the file."""
    graphs = [value for key, value in _document(text) if key == "graph" and isinstance(value, list)]
    if not graphs:
        raise ToolError("it has no graph")
    graph, topology = graphs[0], Topology()
    if len(graphs) > 1:
        topology.notes.append(f"the file has {len(graphs)} graphs, of which the first is read")
    is_directed = ("directed", "1") in graph
    topology.sites += [_site(node, number) for number, node in enumerate(_members(graph, "node"), 1)]
    topology.edges += [_edge(edge, number, is_directed) for number, edge in enumerate(_members(graph, "edge"), 1)]
    return topology


def _members(graph: Pairs, kind: str) -> list[Pairs]:
    return [value for key, value in graph if key == kind and isinstance(value, list)]


def _site(node: Pairs, number: int) -> Site:
    texts = _texts(node)
    if "id" not in texts:
        raise ToolError(f"node {number} has no id")
    graphics = next((_texts(value) for key, value in node if key == "graphics" and isinstance(value, list)), {})
    places = graphics | texts
    title = first_of(texts, TITLES) or texts["id"]
    return Site(texts["id"], title, position_of(first_of(places, EAST), first_of(places, NORTH)))


def _edge(edge: Pairs, number: int, is_directed: bool) -> Edge:
    texts = _texts(edge)
    missing = next((end for end in ("source", "target") if end not in texts), None)
    if missing is not None:
        raise ToolError(f"edge {number} has no {missing}")
    return Edge(texts.get("id", str(number)), (texts["source"], texts["target"]), texts, is_directed)


def _texts(pairs: Pairs) -> dict[str, str]:
    """The values that are no lists, by their keys."""
    return {key: value for key, value in pairs if isinstance(value, str)}


def _document(text: str) -> Pairs:
    """The whole file as one list."""
    stack: list[Pairs] = [[]]
    key: str | None = None
    for kind, word, at in _tokens(text):
        if key is None and kind == "key":
            key = word
        elif key is None and word == "]" and len(stack) > 1:
            stack.pop()
        elif key is not None and word == "[":
            inner: Pairs = []
            stack[-1].append((key, inner))
            stack.append(inner)
            key = None
        elif key is not None and kind in ("text", "number"):
            stack[-1].append((key, unescape(word.strip('"')).strip()))
            key = None
        else:
            raise _unread(text, at)
        if len(stack) > DEEPEST:
            raise ToolError(f"its lists stand more than {DEEPEST} deep")
    if key is not None or len(stack) > 1:
        raise ToolError("its end is missing")
    return stack[0]


def _tokens(text: str) -> Iterator[tuple[str, str, int]]:
    """Each token's kind, its text, and where it stands."""
    at = 0
    while at < len(text):
        found = _TOKEN.match(text, at)
        if found is None:
            raise _unread(text, at)
        if found.lastgroup:
            yield found.lastgroup, found[0], at
        at = found.end()


def _unread(text: str, at: int) -> ToolError:
    line, column = place_of(text[:at])
    return ToolError(f"it is no GML: line {line}, column {column}")
