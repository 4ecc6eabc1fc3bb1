"""Plans: the network and the script that `ason run` reads."""

import re
import tomllib
from dataclasses import dataclass, field, replace
from typing import Any

from .errors import ToolError
from .topology import Position, position_of

MOST_NODES = 64
MOST_LINKS = 256
MOST_LABELS = 80
MOST_METRIC = 65_535
MOST_SRLGS = 16
MOST_SRLG = 4_294_967_295
MOST_SETUPS = 4_096
MOST_LINES = 10_000
MOST_STEPS = 63
"""The most links of a route."""

_PLACE = re.compile(r"^# place ([A-Za-z][A-Za-z0-9_-]{0,15}) (\S+) (\S+)$", re.MULTILINE)


@dataclass(frozen=True)
class Node:
    """A node of a plan."""

    name: str
    id: int
    convert: bool = True
    position: Position | None = None


@dataclass(frozen=True)
class Link:
    """A link of a plan: a fibre in each direction between its ends."""

    id: int
    ends: tuple[str, str]
    labels: int
    metric: int = 1
    srlgs: tuple[int, ...] = ()

    def other(self, node: str) -> str:
        """The end that isn't this one."""
        return self.ends[1] if node == self.ends[0] else self.ends[0]


@dataclass
class Plan:
    """A network and a script. A turned call waits so many ticks before it goes back; 0: by command alone."""

    nodes: list[Node] = field(default_factory=list)
    links: list[Link] = field(default_factory=list)
    script: list[str] = field(default_factory=list)
    wait: int = 0

    def link(self, number: int) -> Link | None:
        """The link with this id."""
        return next((link for link in self.links if link.id == number), None)

    def with_labels(self, labels: int) -> "Plan":
        """The same network with so many labels on each link, where each node converts, without a wait and a script."""
        nodes = [replace(node, convert=True) for node in self.nodes]
        return Plan(nodes, [replace(link, labels=labels) for link in self.links])

    def text(self) -> str:
        """The plan in TOML. A node's position is a comment, which the pictures read and `ason` doesn't."""
        lines = [f"wait = {self.wait}"] if self.wait else []
        lines += ["script = [", *(f'    "{line}",' for line in self.script), "]"]
        for node in self.nodes:
            lines += ["[[node]]", f'name = "{node.name}"', f"id = {node.id}"]
            lines += ["convert = true"] if node.convert else []
            if node.position is not None:
                lines.append(f"# place {node.name} {node.position[0]:g} {node.position[1]:g}")
        for link in self.links:
            lines += ["[[link]]", f"id = {link.id}", f'ends = ["{link.ends[0]}", "{link.ends[1]}"]']
            lines += [f"labels = {link.labels}"]
            lines += [f"metric = {link.metric}"] if link.metric != 1 else []
            lines += [f"srlg = {list(link.srlgs)}"] if link.srlgs else []
        return "\n".join(lines) + "\n"


def parse(text: str) -> dict[str, Any]:
    """The top table of the document."""
    try:
        return tomllib.loads(text)
    except ValueError as error:
        raise ToolError(f"it is no TOML: {_lower(str(error))}") from error
    except RecursionError as error:
        raise ToolError("its arrays stand too deep") from error


def read(text: str) -> Plan:
    """The plan that the text spells, as far as pictures need it. A plan that `ason` refuses may have no such reading."""
    top = parse(text)
    places = _places(text)
    plan = Plan(script=[line for line in _array(top, "script") if isinstance(line, str)], wait=_wait(top))
    for number, table in enumerate(_array(top, "node"), 1):
        name, key = _value(table, "name", str, f"node {number}"), _value(table, "id", int, f"node {number}")
        plan.nodes.append(Node(name, key, table.get("convert") is True, places.get(name)))
    names = {node.name for node in plan.nodes}
    if not 1 <= len(plan.nodes) <= MOST_NODES or len(names) < len(plan.nodes):
        raise ToolError(f"it has not 1 to {MOST_NODES} nodes, each with another name")
    for number, table in enumerate(_array(top, "link"), 1):
        plan.links.append(_link(table, f"link {number}", names))
    if len({link.id for link in plan.links}) < len(plan.links) or len(plan.links) > MOST_LINKS:
        raise ToolError(f"it has more than {MOST_LINKS} links, or two with one id")
    return plan


def _link(table: Any, entry: str, names: set[str]) -> Link:
    ends = _value(table, "ends", list, entry)
    if len(ends) != 2 or any(not isinstance(end, str) or end not in names for end in ends) or ends[0] == ends[1]:
        raise ToolError(f"the ends of {entry} aren't two nodes of the plan")
    labels = _value(table, "labels", int, entry)
    if not 1 <= labels <= MOST_LABELS:
        raise ToolError(f"{entry} has not 1 to {MOST_LABELS} labels")
    metric, srlgs = table.get("metric", 1), table.get("srlg", [])
    if not isinstance(metric, int) or not isinstance(srlgs, list):
        raise ToolError(f"{entry} has a metric or SRLGs of another type")
    return Link(_value(table, "id", int, entry), (ends[0], ends[1]), labels, metric, tuple(srlgs))


def _wait(top: dict[str, Any]) -> int:
    return _value(top, "wait", int, "the top table") if "wait" in top else 0


def _array(top: dict[str, Any], key: str) -> list[Any]:
    value = top.get(key, [])
    if not isinstance(value, list):
        raise ToolError(f"its {key} is no array")
    return value


def _value(table: Any, key: str, kind: type, entry: str) -> Any:
    value = table.get(key) if isinstance(table, dict) else None
    if not isinstance(value, kind) or isinstance(value, bool):
        raise ToolError(f"{entry} has no {key} of the right type")
    return value


def _places(text: str) -> dict[str, Position]:
    """The positions that comments tell."""
    found = {name: position_of(east, north) for name, east, north in _PLACE.findall(text)}
    return {name: position for name, position in found.items() if position is not None}


def _lower(text: str) -> str:
    return text[:1].lower() + text[1:]
