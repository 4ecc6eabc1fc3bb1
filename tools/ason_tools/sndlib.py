"""Topologies of SNDlib, in its native and in its XML form (https://sndlib.put.poznan.pl)."""

import re
from collections.abc import Iterator
from xml.etree.ElementTree import Element

from .errors import ToolError
from .topology import Demand, Edge, Site, Topology, number_of, position_of
from .xml_tree import text_of

NATIVE_HEAD = "?SNDlib native format"
"""How a file in the native form begins."""

_COSTS = ("pre_capacity", "pre_cost", "routing_cost", "setup_cost")
_MODULE = ("module_capacity", "module_cost")
ATTRIBUTES = _COSTS + _MODULE
"""The names of a link's numbers, in the order of the native form; those of a module are those of the first."""

_XML_PATHS = {
    "pre_capacity": "preInstalledModule/capacity",
    "pre_cost": "preInstalledModule/cost",
    "routing_cost": "routingCost",
    "setup_cost": "setupCost",
    "module_capacity": "additionalModules/addModule/capacity",
    "module_cost": "additionalModules/addModule/cost",
}


def read_xml(root: Element) -> Topology:
    """The network of a file in the XML form."""
    topology = Topology()
    for number, node in enumerate(root.iterfind("networkStructure/nodes/node"), 1):
        key = _id(node, "node", number)
        topology.sites.append(Site(key, key, position_of(text_of(node, "coordinates/x"), text_of(node, "coordinates/y"))))
    for number, link in enumerate(root.iterfind("networkStructure/links/link"), 1):
        found = {name: text_of(link, path) for name, path in _XML_PATHS.items()}
        attributes = {name: text for name, text in found.items() if text}
        topology.edges.append(Edge(_id(link, "link", number), _xml_ends(link, f"link {number}"), attributes))
    for number, demand in enumerate(root.iterfind("demands/demand"), 1):
        ends, amount = _xml_ends(demand, f"demand {number}"), number_of(text_of(demand, "demandValue") or "")
        topology.demands.append(Demand(_id(demand, "demand", number), *ends, amount))
    return topology


def _id(element: Element, kind: str, number: int) -> str:
    key = element.get("id")
    if key is None:
        raise ToolError(f"{kind} {number} has no id")
    return key


def _xml_ends(element: Element, entry: str) -> tuple[str, str]:
    source, target = text_of(element, "source"), text_of(element, "target")
    if not source or not target:
        raise ToolError(f"{entry} has no {'target' if source else 'source'}")
    return source, target


def read_native(text: str) -> Topology:
    """The network of a file in the native form."""
    topology = Topology()
    for section, entry in _entries(text):
        if section == "NODES":
            topology.sites.append(_native_site(entry))
        elif section == "LINKS":
            topology.edges.append(_native_edge(entry))
        elif section == "DEMANDS":
            topology.demands.append(_native_demand(entry))
    return topology


Entry = tuple[int, list[str]]
"""A line of a section: its number in the file, and its words. A parenthesis is a word."""


def _entries(text: str) -> Iterator[tuple[str, Entry]]:
    """The lines of the sections, each with the name of its section. Lines within a parenthesis of a section are passed over."""
    section, depth = "", 0
    for number, line in enumerate(text.splitlines(), 1):
        words = re.findall(r"[()]|[^\s()]+", line.partition("#")[0])
        if not words or (number == 1 and line.startswith("?")):
            continue
        if depth == 0:
            if words[1:2] != ["("]:
                raise ToolError(f"line {number} begins no section")
            section = words[0]
        elif depth == 1 and words != [")"]:
            yield section, (number, words)
        depth += words.count("(") - words.count(")")
        if depth < 0:
            raise ToolError(f"line {number} ends more than was begun")
    if depth > 0:
        raise ToolError(f"the section {section} has no end")


def _native_site(entry: Entry) -> Site:
    """`ID ( X Y )`, or `ID` alone."""
    number, words = entry
    if len(words) > 1 and (len(words) != 5 or words[1] != "(" or words[4] != ")"):
        raise ToolError(f"line {number} is no node")
    return Site(words[0], words[0], position_of(*words[2:4]) if len(words) == 5 else None)


def _native_edge(entry: Entry) -> Edge:
    """`ID ( A B ) PRE_CAPACITY PRE_COST ROUTING_COST SETUP_COST ( CAPACITY COST .. )`."""
    key, ends, rest = _joined(entry, "link")
    numbers = [word for word in rest[:4] if word not in "()"]
    modules = rest[rest.index("(") + 1 :] if "(" in rest else []
    attributes = dict(zip(_COSTS, numbers)) | dict(zip(_MODULE, [word for word in modules if word != ")"]))
    return Edge(key, ends, attributes)


def _native_demand(entry: Entry) -> Demand:
    """`ID ( A B ) ROUTING_UNIT VALUE MAX_PATH_LENGTH`."""
    key, ends, rest = _joined(entry, "demand")
    return Demand(key, *ends, number_of(rest[1]) if len(rest) > 1 else None)


def _joined(entry: Entry, kind: str) -> tuple[str, tuple[str, str], list[str]]:
    """The id, the two nodes, and the words behind them."""
    number, words = entry
    if len(words) < 5 or words[1] != "(" or words[4] != ")" or "(" in words[2:4]:
        raise ToolError(f"line {number} is no {kind}")
    return words[0], (words[2], words[3]), words[5:]
