"""A plan from a topology, with a word on each thing that became another."""

from dataclasses import dataclass, replace
import math

from . import gml, gnpy, graphml, sndlib
from .disjoint import ways_beside
from .ducts import ducts
from .errors import ToolError, listed, quoted
from .files import as_text
from .names import Namer
from .plan import MOST_LINKS, MOST_METRIC, MOST_NODES, MOST_SETUPS, MOST_SRLGS, Link, Node, Plan
from .risks import srlgs_of
from .routes import Cost, by_hops, by_metric, routes_in_order
from .topology import Demand, Edge, Topology, number_of
from .vetoes import Veto, vetoes
from .xml_tree import read_tree


@dataclass(frozen=True)
class Wishes:
    """How the plan is to be made.

    `metric` names an attribute, of which `per` make one unit of the metric. `srlg` names the attribute that has an
    edge's SRLGs; spans at most `duct` kilometres apart get one for their duct. A demand is a setup for each `units` of
    it. With `settle` each setup comes to its end before the next is posted. `infeasible` are routes that mustn't be given,
    each as the ids that it passes.
    """

    labels: int = 80
    convert: bool = True
    metric: str | None = None
    per: float = 1.0
    calls: tuple[tuple[str, str], ...] = ()
    routes_given: bool = True
    settle: bool = False
    protected: bool = False
    srlg: str | None = None
    duct: float | None = None
    units: float | None = None
    infeasible: tuple[tuple[str, ...], ...] | None = None


@dataclass
class Planned:
    """The plan, which text of the file became which name, and a sentence on each thing that was left out or merged."""

    plan: Plan
    renamed: list[tuple[str, str, str]]
    notes: list[str]


def read_topology(data: bytes) -> Topology:
    """The topology that the file has, in the form that its first bytes show."""
    head = data.removeprefix(b"\xef\xbb\xbf").lstrip()
    if head.startswith(sndlib.NATIVE_HEAD.encode()):
        return sndlib.read_native(as_text(data, "it").lstrip())
    if gml.is_gml(head):
        return gml.read(as_text(head, "it"))
    if gnpy.is_gnpy(head):
        return gnpy.read(as_text(head, "it"))
    if not head.startswith((b"<", b"\xff\xfe", b"\xfe\xff")):
        raise ToolError("it is neither GraphML nor GML nor a network of SNDlib or GNPy")
    root = read_tree(data)
    if root.tag == "graphml":
        return graphml.read(root)
    if root.tag == "network":
        return sndlib.read_xml(root)
    raise ToolError(f"its outermost element is {root.tag[:40]!r}, neither graphml nor network")


def make_plan(topology: Topology, wishes: Wishes) -> Planned:
    """The plan of the topology. Its setups are the demands and then the calls that are wished for."""
    notes = list(topology.notes)
    if wishes.metric is None:
        wishes = replace(wishes, metric=topology.metric)
    edges = _edges(topology, notes)
    _check_size(topology, len(edges))
    nodes, renamed = _nodes(topology, wishes)
    names = {site.key: node.name for site, node in zip(topology.sites, nodes)}
    plan = Plan(nodes)
    risks, named = srlgs_of(edges, wishes.srlg)
    for number, (edge, srlgs) in enumerate(zip(edges, risks), 1):
        ends = (names[edge.ends[0]], names[edge.ends[1]])
        plan.links.append(Link(number, ends, wishes.labels, _metric(edge, wishes), srlgs))
    renamed += named
    if wishes.duct is not None:
        _add_ducts(plan, wishes.duct, notes)
    demands = topology.demands + _wished(topology, names, wishes)
    barred, told = vetoes([list(route) for route in wishes.infeasible or ()], topology, names, edges)
    notes += told
    renamed += _add_setups(plan, demands, names, wishes, notes, _Router(plan, wishes, barred))
    return Planned(plan, renamed, notes)


def _check_size(topology: Topology, links: int) -> None:
    if not topology.sites:
        raise ToolError("it has no node")
    if len(topology.sites) > MOST_NODES:
        raise ToolError(f"it has {len(topology.sites)} nodes, and a plan has at most {MOST_NODES}")
    if links > MOST_LINKS:
        raise ToolError(f"it has {links} links, and a plan has at most {MOST_LINKS}")


def _nodes(topology: Topology, wishes: Wishes) -> tuple[list[Node], list[tuple[str, str, str]]]:
    """The nodes, and which title became which name."""
    namer, nodes, renamed, keys = Namer("n"), [], [], set()
    for number, site in enumerate(topology.sites, 1):
        if site.key in keys:
            raise ToolError(f"two nodes have the id {quoted(site.key)}")
        keys.add(site.key)
        name = namer.name(site.title)
        if name != site.title:
            renamed.append(("node", site.title, name))
        nodes.append(Node(name, number, wishes.convert, site.position))
    return nodes, renamed


def _edges(topology: Topology, notes: list[str]) -> list[Edge]:
    """The edges that become links: none from a node to itself, and one for two directed ones that belong together."""
    known = {site.key for site in topology.sites}
    kept: list[Edge] = []
    unmatched: dict[tuple[str, str], int] = {}
    joined: dict[frozenset[str], str] = {}
    for edge in topology.edges:
        missing = next((end for end in edge.ends if end not in known), None)
        if missing is not None:
            raise ToolError(f"edge {quoted(edge.key)} ends at {quoted(missing)}, which is no node of the file")
        if edge.ends[0] == edge.ends[1]:
            notes.append(f"edge {quoted(edge.key)} is a loop and is left out")
            continue
        if edge.is_directed and unmatched.get(edge.ends[::-1], 0) > 0:
            unmatched[edge.ends[::-1]] -= 1
            continue
        if edge.is_directed:
            unmatched[edge.ends] = unmatched.get(edge.ends, 0) + 1
        pair = frozenset(edge.ends)
        if pair in joined:
            notes.append(f"edges {quoted(joined[pair])} and {quoted(edge.key)} join the same nodes: each is a link")
        joined.setdefault(pair, edge.key)
        kept.append(edge)
    return kept


def _add_ducts(plan: Plan, apart: float, notes: list[str]) -> None:
    """Gives the links of each duct an SRLG, above those that there are."""
    first = max((srlg for link in plan.links for srlg in link.srlgs), default=0) + 1
    for srlg, duct in enumerate(ducts(plan, apart), first):
        for link in duct:
            plan.links[link.id - 1] = replace(plan.links[link.id - 1], srlgs=(*plan.links[link.id - 1].srlgs, srlg))
        *others, last = (str(link.id) for link in duct)
        notes.append(f"links {', '.join(others)} and {last} lie in one duct: SRLG {srlg}")
    crowded = next((link for link in plan.links if len(link.srlgs) > MOST_SRLGS), None)
    if crowded is not None:
        raise ToolError(f"link {crowded.id} would have {len(crowded.srlgs)} SRLGs, and a link has at most {MOST_SRLGS}")


def _metric(edge: Edge, wishes: Wishes) -> int:
    """The metric of the edge: its attribute in the wished unit, rounded, and at least 1."""
    if wishes.metric is None:
        return 1
    text = edge.attributes.get(wishes.metric)
    if text is None:
        raise ToolError(f"edge {quoted(edge.key)} has no {quoted(wishes.metric)}; it has {listed(edge.attributes)}")
    number = number_of(text)
    if number is None or number < 0:
        raise ToolError(f"the {wishes.metric} of edge {quoted(edge.key)} is {quoted(text)}, no number from 0 on")
    metric = number / wishes.per
    if metric > MOST_METRIC:
        raise ToolError(f"edge {quoted(edge.key)} would have the metric {metric:g}, above {MOST_METRIC:,} (--per makes it less)")
    return max(1, round(metric))


def _wished(topology: Topology, names: dict[str, str], wishes: Wishes) -> list[Demand]:
    """The calls that are wished for beside the file's demands; their ends are names, titles or ids."""
    keys: dict[str, str] = {}
    for site in topology.sites:
        for text in (names[site.key], site.title, site.key):
            keys.setdefault(text, site.key)
    keys = topology.aliases | keys
    demands = []
    for number, call in enumerate(wishes.calls, 1):
        missing = next((end for end in call if end not in keys), None)
        if missing is not None:
            raise ToolError(f"{quoted(missing)} is no node of the file")
        demands.append(Demand(f"c{number}", keys[call[0]], keys[call[1]], wishes.units))
    return demands


class _Router:
    """The routes of a plan's setups: the least ones that aren't barred."""

    def __init__(self, plan: Plan, wishes: Wishes, barred: list[Veto]) -> None:
        self._plan, self._wishes, self._barred = plan, wishes, barred
        self._cost: Cost = by_hops if wishes.metric is None else by_metric

    def working(self, source: str, target: str) -> list[Link] | None:
        """The least route that may be given."""
        return self._first(self._plan, source, target)

    def words(self, source: str, target: str, route: list[Link]) -> tuple[str, bool]:
        """The words of a setup behind its nodes, and whether it goes without the backup that was wished for.

        Where routes are barred the backup is given too, since the program may find a barred one.
        """
        wishes = self._wishes
        via = f" via {_ids(route)}" if wishes.routes_given else ""
        if not wishes.protected:
            return f" unprotected{via}", False
        if wishes.infeasible is None:
            return via, False
        beside = ways_beside(self._plan, source, tuple(link.id for link in route))
        backup = self._first(beside, source, target)
        return (f" unprotected{via}", True) if backup is None else (f"{via} backup {_ids(backup)}", False)

    def _first(self, plan: Plan, source: str, target: str) -> list[Link] | None:
        routes = routes_in_order(plan, source, target, self._cost)
        return next((route for route in routes if not any(veto.bars(source, route) for veto in self._barred)), None)


def _ids(route: list[Link]) -> str:
    return ",".join(str(link.id) for link in route)


def _add_setups(
    plan: Plan, demands: list[Demand], names: dict[str, str], wishes: Wishes, notes: list[str], router: _Router
) -> list[tuple[str, str, str]]:
    """A setup line for each demand between two nodes that a route joins. Tells which id became which name."""
    namer, renamed, setups = Namer("d"), [], []
    for demand in demands:
        missing = next((end for end in (demand.source, demand.target) if end not in names), None)
        if missing is not None:
            raise ToolError(f"demand {quoted(demand.key)} ends at {quoted(missing)}, which is no node of the file")
        source, target = names[demand.source], names[demand.target]
        route = router.working(source, target)
        count = _setups_of(demand, wishes)
        if not route or count == 0:
            wanting = "has one node at both ends" if source == target else _WITHOUT_ROUTE[wishes.infeasible is not None]
            notes.append(f"demand {quoted(demand.key)} {'asks for nothing' if route else wanting} and is left out")
            continue
        if len(setups) + count > MOST_SETUPS:
            needed = f"its demands need {len(setups) + count:,} setups or more"
            raise ToolError(f"{needed}, and a plan has at most {MOST_SETUPS:,}")
        given = [namer.name(demand.key) for _ in range(count)]
        renamed += [("call", demand.key, given[0])] if given[0] != demand.key else []
        words, is_bare = router.words(source, target, route)
        if is_bare:
            notes.append(f"demand {quoted(demand.key)} has no backup that isn't infeasible: it goes unprotected")
        setups += [f"setup {name} {source} {target}{words}" for name in given]
    plan.script = [line for setup in setups for line in ([setup, "settle 1000"] if wishes.settle else [setup])]
    return renamed


_WITHOUT_ROUTE = {False: "has no route of at most 63 links", True: "has no route of at most 63 links that isn't infeasible"}


def _setups_of(demand: Demand, wishes: Wishes) -> int:
    """How many setups the demand is: one, or one for each wished unit that it needs."""
    if wishes.units is None:
        return 1
    if demand.amount is None or demand.amount < 0:
        raise ToolError(f"demand {quoted(demand.key)} has no amount from 0 on, of which --units could make setups")
    return math.ceil(demand.amount / wishes.units - 1e-9)
