"""Topologies in GraphML, as the Topology Zoo has them."""

from dataclasses import dataclass
from xml.etree.ElementTree import Element

from .errors import ToolError
from .topology import EAST, NORTH, TITLES, Edge, Site, Topology, first_of, position_of
from .xml_tree import text_of

@dataclass(frozen=True)
class Key:
    """An attribute: its name, the kind of element that has it, and its value where the element has no data of it."""

    name: str
    kind: str
    default: str | None


Keys = dict[str, Key]
"""The attributes by their ids."""


def read(root: Element) -> Topology:
    """The first graph of the file."""
    keys = {key.get("id", ""): _key(key) for key in root.findall("key")}
    graphs = root.findall("graph")
    if not graphs:
        raise ToolError("it has no graph")
    graph, topology = graphs[0], Topology()
    if len(graphs) > 1:
        topology.notes.append(f"the file has {len(graphs)} graphs, of which the first is read")
    if graph.find("hyperedge") is not None:
        raise ToolError("it has a hyperedge, which is no link between two nodes")
    is_directed = graph.get("edgedefault") == "directed"
    topology.sites += [_site(node, number, keys) for number, node in enumerate(graph.findall("node"), 1)]
    topology.edges += [_edge(edge, number, keys, is_directed) for number, edge in enumerate(graph.findall("edge"), 1)]
    return topology


def _key(key: Element) -> Key:
    return Key(key.get("attr.name", key.get("id", "")), key.get("for", "all"), text_of(key, "default"))


def _site(node: Element, number: int, keys: Keys) -> Site:
    key = node.get("id")
    if key is None:
        raise ToolError(f"node {number} has no id")
    if node.find("graph") is not None:
        raise ToolError(f"node {number} holds a graph of its own")
    attributes = _attributes(node, keys)
    title = first_of(attributes, TITLES) or key
    return Site(key, title, position_of(first_of(attributes, EAST), first_of(attributes, NORTH)))


def _edge(edge: Element, number: int, keys: Keys, is_directed: bool) -> Edge:
    source, target = edge.get("source"), edge.get("target")
    if source is None or target is None:
        raise ToolError(f"edge {number} has no {'source' if source is None else 'target'}")
    own = {"true": True, "false": False}.get(edge.get("directed", ""), is_directed)
    return Edge(edge.get("id", str(number)), (source, target), _attributes(edge, keys), own)


def _attributes(element: Element, keys: Keys) -> dict[str, str]:
    """The element's data by their names, and the defaults of those that it hasn't."""
    kinds = (element.tag, "all")
    found = {key.name: key.default for key in keys.values() if key.kind in kinds and key.default is not None}
    for item in element.findall("data"):
        key = item.get("key", "")
        found[keys[key].name if key in keys else key] = (item.text or "").strip()
    return found
