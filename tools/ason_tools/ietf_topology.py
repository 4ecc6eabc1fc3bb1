"""Topologies in JSON of the YANG modules ietf-network-topology (RFC 8345) and ietf-te-topology (RFC 8795)."""

from dataclasses import dataclass
from typing import Any

from .building import Builder
from .errors import ToolError, quoted
from .json_document import load
from .topology import Position, position_of

__all__ = ["OneWay", "build", "load"]

TE_TYPE = "te-topology"
"""The network type of RFC 8795."""

Point = tuple[str, str]
"""An end of a link: its node, and its termination point, which may be empty."""


@dataclass(frozen=True)
class OneWay:
    """A link of RFC 8345, which leads from one node to another, as far as a plan has it."""

    key: str
    source: Point
    target: Point
    metric: int
    srlgs: frozenset[int]

    @property
    def ends(self) -> tuple[str, str]:
        return self.source[0], self.target[0]


def build(top: dict[str, Any], wanted: str | None, labels: int, convert: bool) -> Builder:
    """The plan of one network: the one with this id, or else the first of the type te-topology, or else the first."""
    builder = Builder()
    network = _chosen(_list(_member(top, "networks") or {}, "network", "the document"), wanted, builder)
    for number, node in enumerate(_list(network, "node", "the network"), 1):
        key = _text(node, "node-id", f"node {number}")
        builder.add_node(key, _title(node) or key, convert, _position(node))
    if not builder.plan.nodes:
        raise ToolError("the network has no node")
    for link, other in _pairs(_links(network, builder), builder):
        srlgs = link.srlgs | (other.srlgs if other else frozenset())
        if other and other.metric != link.metric:
            pair = f"{quoted(link.key)} and {quoted(other.key)}"
            builder.notes.append(f"links {pair} have different metrics: the first counts")
        builder.add_link(link.key, link.ends, labels, link.metric, srlgs)
    return builder


def _chosen(networks: list[Any], wanted: str | None, builder: Builder) -> Any:
    ids = [_text(network, "network-id", f"network {number}") for number, network in enumerate(networks, 1)]
    if wanted is not None and wanted not in ids:
        raise ToolError(f"no network has the id {quoted(wanted)}")
    if not networks:
        raise ToolError("it has no network")
    types = [_member(network, "network-types") for network in networks]
    typed = [number for number, type_ in enumerate(types) if _member(type_, TE_TYPE) is not None]
    place = ids.index(wanted) if wanted is not None else (typed or [0])[0]
    builder.notes += [f"network {quoted(key)} is left out" for number, key in enumerate(ids) if number != place]
    return networks[place]


def _links(network: Any, builder: Builder) -> list[OneWay]:
    """The links that are in use; one that is administratively down, or leads to its own node, is left out."""
    found = []
    for number, link in enumerate(_list(network, "link", "the network"), 1):
        key = _text(link, "link-id", f"link {number}")
        source, target = _end(link, "source", key), _end(link, "dest", key)
        attributes = _member(_member(link, "te") or {}, "te-link-attributes") or {}
        if source[0] == target[0]:
            builder.notes.append(f"link {quoted(key)} is a loop and is left out")
        elif _member(attributes, "admin-status") in ("down", "ietf-te-types:down"):
            builder.notes.append(f"link {quoted(key)} is down and is left out")
        else:
            found.append(OneWay(key, source, target, _metric(attributes, key), _srlgs(attributes, key)))
    return found


def _pairs(links: list[OneWay], builder: Builder) -> list[tuple[OneWay, OneWay | None]]:
    """Each link with its way back: the one between the same termination points, or else one between the same nodes."""
    left = dict(enumerate(links))
    pairs: list[tuple[OneWay, OneWay | None]] = []
    for place, link in enumerate(links):
        if left.pop(place, None) is None:
            continue
        back = [number for number, other in left.items() if other.ends == link.ends[::-1]]
        exact = [number for number in back if (left[number].source, left[number].target) == (link.target, link.source)]
        chosen = (exact or back or [None])[0]
        if chosen is None:
            builder.notes.append(f"link {quoted(link.key)} has no link back and is taken for both ways")
        pairs.append((link, None if chosen is None else left.pop(chosen)))
    return pairs


def _end(link: Any, side: str, key: str) -> Point:
    holder = _member(link, "source" if side == "source" else "destination")
    if not isinstance(holder, dict):
        raise ToolError(f"link {quoted(key)} has no {'source' if side == 'source' else 'destination'}")
    point = _member(holder, f"{side}-tp")
    return _text(holder, f"{side}-node", f"link {quoted(key)}"), point if isinstance(point, str) else ""


def _metric(attributes: Any, key: str) -> int:
    metric = _member(attributes, "te-default-metric")
    if metric is None:
        return 1
    if not isinstance(metric, int) or isinstance(metric, bool):
        raise ToolError(f"the te-default-metric of link {quoted(key)} is no number")
    return metric


def _srlgs(attributes: Any, key: str) -> frozenset[int]:
    numbers = _list(_member(attributes, "te-srlgs") or {}, "value", f"the te-srlgs of link {quoted(key)}")
    if any(not isinstance(number, int) or isinstance(number, bool) for number in numbers):
        raise ToolError(f"an SRLG of link {quoted(key)} is no number")
    return frozenset(numbers)


def _title(node: Any) -> str | None:
    name = _member(_member(_member(node, "te") or {}, "te-node-attributes") or {}, "name")
    return name if isinstance(name, str) and name else None


def _position(node: Any) -> Position | None:
    place = _member(_member(node, "te") or {}, "geolocation")
    # RFC 7951 has decimals as texts.
    east, north = (str(_member(place or {}, name)) for name in ("longitude", "latitude"))
    return position_of(east, north)


def _member(holder: Any, name: str) -> Any:
    """The member of this name, which may have its module before it (RFC 7951, section 4), or None."""
    if not isinstance(holder, dict):
        return None
    if name in holder:
        return holder[name]
    return next((value for key, value in holder.items() if key.partition(":")[2] == name), None)


def _list(holder: Any, name: str, of: str) -> list[Any]:
    found = _member(holder, name)
    if found is None:
        return []
    if not isinstance(found, list):
        raise ToolError(f"the {name} of {of} is no array")
    return found


def _text(holder: Any, name: str, of: str) -> str:
    found = _member(holder, name)
    if not isinstance(found, str):
        raise ToolError(f"{of} has no {name}")
    return found
