"""Backups beside a working route: the least that shares no risk and no inner node with it, and why there is none."""

from collections.abc import Iterable
from dataclasses import dataclass, replace

from .groups import Group
from .plan import Link, Plan
from .routes import by_metric, least_route
from .setups import Route


def risks(plan: Plan, route: Iterable[int]) -> frozenset[Group]:
    """The risks of the route: its links and their SRLGs."""
    on = set(route)
    srlgs = {Group("srlg", srlg) for link in plan.links if link.id in on for srlg in link.srlgs}
    return frozenset(srlgs | {Group("link", link) for link in on})


def inner_nodes(plan: Plan, source: str, route: Route) -> list[str]:
    """The nodes of the route between its ends."""
    links = {link.id: link for link in plan.links}
    nodes = [source]
    for number in route:
        nodes.append(links[number].other(nodes[-1]))
    return nodes[1:-1]


def without(plan: Plan, barred: Iterable[Group], nodes: Iterable[str] = ()) -> Plan:
    """The plan without the links of these groups and those that end at these nodes."""
    gone = {link for group in barred for link in group.links(plan)}
    ends = set(nodes)
    return replace(plan, links=[link for link in plan.links if link.id not in gone and ends.isdisjoint(link.ends)])


def least(plan: Plan, source: str, target: str) -> Route | None:
    """The least route by metric, as the program has it."""
    found = least_route(plan, source, target, by_metric)
    return None if found is None else tuple(link.id for link in found)


def ways_beside(plan: Plan, source: str, working: Route) -> Plan:
    """The plan without what shares a risk or an inner node with the working route."""
    return without(plan, risks(plan, working), inner_nodes(plan, source, working))


def least_backup(plan: Plan, source: str, target: str, working: Route) -> Route | None:
    """The least route that shares no risk and no inner node with the working route."""
    return least(ways_beside(plan, source, working), source, target)


@dataclass(frozen=True)
class Shared:
    """What each way between two nodes has: a link or an SRLG, or a node between them."""

    group: Group | None = None
    node: str | None = None


def shared_by_all(plan: Plan, source: str, target: str, working: Route) -> list[Shared]:
    """What of the working route each way has: links, else inner nodes, else SRLGs."""
    ways = [
        [Shared(group=Group("link", link)) for link in working],
        [Shared(node=node) for node in inner_nodes(plan, source, working)],
        [Shared(group=group) for group in sorted(risks(plan, working), key=Group.text) if group.kind == "srlg"],
    ]
    found = ([it for it in way if least(_lacking(plan, it), source, target) is None] for way in ways)
    return next(filter(None, found), [])


def _lacking(plan: Plan, it: Shared) -> Plan:
    return without(plan, [it.group] if it.group else [], [it.node] if it.node else [])


def other_pair(plan: Plan, source: str, target: str, working: Route) -> tuple[Route, Route] | None:
    """A working route that leaves out a link or an inner node of this one and has a backup, with that."""
    left_out = [Shared(group=Group("link", link)) for link in working]
    left_out += [Shared(node=node) for node in inner_nodes(plan, source, working)]
    others = (least(_lacking(plan, it), source, target) for it in left_out)
    pairs = ((other, least_backup(plan, source, target, other)) for other in others if other is not None)
    return next(((other, backup) for other, backup in pairs if backup is not None), None)


def reached(plan: Plan, source: str) -> list[str]:
    """The other nodes to which links lead from this one, in the plan's order."""
    found, todo = {source}, [source]
    while todo:
        node = todo.pop()
        new = {link.other(node) for link in plan.links if node in link.ends} - found
        found |= new
        todo += new
    return [node.name for node in plan.nodes if node.name in found and node.name != source]


def joins(link: Link) -> str:
    """The link with its ends, as a sentence names it."""
    return f"link {link.id} ({link.ends[0]} to {link.ends[1]})"
