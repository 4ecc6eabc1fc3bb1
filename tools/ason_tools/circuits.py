"""What a table says of a plan's links: where each circuit goes, which labels it holds, which fibres are full."""

from collections.abc import Iterable
from dataclasses import dataclass, field, replace
from functools import reduce

from .errors import ToolError
from .plan import Link, Plan
from .tables import Call, Hold, Leg, Lsp, Table

Fibre = tuple[int, str]
"""A link's id and the node that sends on it."""


@dataclass(frozen=True)
class Span:
    """A circuit on one link, the node that sends on it, whether its signal goes over it, and whether one comes back."""

    circuit: "Circuit"
    link: int
    sender: str
    carries: bool

    @property
    def is_two_way(self) -> bool:
        return self.circuit.is_two_way


@dataclass(frozen=True)
class Circuit:
    """A call with its number in the picture, the links of its two LSPs along their routes, and the LSP that carries it.

    A turned call is carried by its backup, any other by its working LSP. Nothing carries it where this LSP isn't
    connected at each node of its route, or a link of it is down.
    """

    number: int
    call: Call
    work: tuple[int, ...]
    backup: tuple[int, ...]
    carrier: Lsp | None
    senders: dict[tuple[Lsp | None, int], str] = field(default_factory=dict, compare=False)
    """The node that sends on each link of each LSP."""

    is_two_way: bool = False

    @property
    def spans(self) -> list[Span]:
        """The links of the working LSP, then those of the backup."""
        routes = ((self.call.work, self.work), (self.call.backup, self.backup))
        return [Span(self, link, self.senders[lsp, link], lsp == self.carrier) for lsp, route in routes for link in route]

    @property
    def carrying(self) -> frozenset[int]:
        """The links over which the call's signal goes."""
        return frozenset(span.link for span in self.spans if span.carries)

    @property
    def is_cut_off(self) -> bool:
        """Whether the call has a working LSP and nothing carries it."""
        return self.call.work is not None and self.carrier is None


@dataclass(frozen=True)
class Holder:
    """Who holds a label: a circuit, or an LSP that no call has any more; and whether the LSP is connected there."""

    circuit: Circuit | None
    lsp: Lsp
    is_connected: bool


@dataclass
class Usage:
    """All circuits, and of each fibre the holders of its labels: one, or several backups that share it."""

    circuits: list[Circuit] = field(default_factory=list)
    holders: dict[Fibre, dict[int, list[Holder]]] = field(default_factory=dict)

    def full(self, plan: Plan) -> set[Fibre]:
        """The fibres without a free label."""
        labels = {link.id: link.labels for link in plan.links}
        return {fibre for fibre, held in self.holders.items() if len(held) >= labels[fibre[0]]}


def usage(plan: Plan, table: Table, failed: frozenset[int] = frozenset()) -> Usage:
    """What the table says, where these links are down. It must be one of this plan's network."""
    circuits = circuits_of(plan, table, failed)
    return Usage(circuits, _holders(circuits, {link.id: link for link in plan.links}, table))


def circuits_of(plan: Plan, table: Table, failed: frozenset[int]) -> list[Circuit]:
    """The circuits alone, without who holds which label."""
    _check(plan, table)
    legs: dict[Lsp, list[Leg]] = {}
    for leg in table.legs:
        legs.setdefault(leg.lsp, []).append(leg)
    links = {link.id: link for link in plan.links}
    return [_circuit(number, call, links, legs, failed) for number, call in enumerate(table.calls, 1)]


def _circuit(
    number: int, call: Call, links: dict[int, Link], legs: dict[Lsp, list[Leg]], failed: frozenset[int]
) -> Circuit:
    work, backup = (_route(links, lsp, legs) for lsp in (call.work, call.backup))
    lsp, route = (call.backup, backup) if call.state == "turned" else (call.work, work)
    own = legs.get(lsp, []) if lsp else []
    end = reduce(lambda node, link: links[link].other(node), route, call.source)
    is_connected = len(own) == len(route) + 1 and end == call.target and all(leg.phase == "live" for leg in own)
    is_whole = is_connected and failed.isdisjoint(route)
    known = [leg for lsp in (call.work, call.backup) if lsp for leg in legs.get(lsp, [])]
    senders = {(leg.lsp, leg.outgoing.link): leg.node for leg in known if leg.outgoing}
    is_two_way = any(leg.two_way for leg in known)
    return Circuit(number, call, work, backup, lsp if is_whole else None, senders, is_two_way)


def _holders(circuits: list[Circuit], links: dict[int, Link], table: Table) -> dict[Fibre, dict[int, list[Holder]]]:
    owners = {lsp: circuit for circuit in circuits for lsp in (circuit.call.work, circuit.call.backup) if lsp}
    found: dict[Fibre, dict[int, list[Holder]]] = {}
    for leg in table.legs:
        holder = Holder(owners.get(leg.lsp), leg.lsp, leg.phase == "live")
        for fibre, label in _labels(links, leg):
            _add(found.setdefault(fibre, {}).setdefault(label, []), holder)
    return found


def _add(held: list[Holder], holder: Holder) -> None:
    """Adds what a leg at one end of the fibre holds: an LSP is there once, and connected where both its legs are."""
    for place, other in enumerate(held):
        if other.lsp == holder.lsp:
            held[place] = replace(other, is_connected=other.is_connected and holder.is_connected)
            return
    held.append(holder)


def _check(plan: Plan, table: Table) -> None:
    """Refuses a table that names a node, a link or a label which the plan doesn't have."""
    names = {node.name for node in plan.nodes}
    for name in [end for call in table.calls for end in (call.source, call.target)] + [leg.node for leg in table.legs]:
        if name not in names:
            raise ToolError(f"the table names the node {name}, which the plan doesn't have")
    links = {link.id: link for link in plan.links}
    for leg, hold in ((leg, hold) for leg in table.legs for hold in _holds(leg)):
        link = links.get(hold.link)
        if link is None or leg.node not in link.ends:
            where = f"a leg of {leg.node} on link {hold.link}"
            raise ToolError(f"the table has {where}, which doesn't end there in the plan")
        if hold.label is not None and not 1 <= hold.label <= link.labels:
            raise ToolError(f"the table has label {hold.label} of link {link.id}, which has {link.labels} in the plan")


def _route(links: dict[int, Link], lsp: Lsp | None, legs: dict[Lsp, list[Leg]]) -> tuple[int, ...]:
    """The links of the LSP, from its ingress on."""
    if lsp is None:
        return ()
    out = {leg.node: leg.outgoing.link for leg in legs.get(lsp, []) if leg.outgoing}
    route, node = [], lsp.ingress
    while node in out:
        link = out.pop(node)
        route.append(link)
        node = links[link].other(node)
    return tuple(route)


def _holds(leg: Leg) -> list[Hold]:
    return [hold for hold in (leg.incoming, leg.outgoing, leg.back_incoming, leg.back_outgoing) if hold]


def _labels(links: dict[int, Link], leg: Leg) -> Iterable[tuple[Fibre, int]]:
    """The labels that the leg holds, each with its fibre: the one that it sends on, or the one that comes in."""
    sent = [hold for hold in (leg.outgoing, leg.back_outgoing) if hold]
    taken = [hold for hold in (leg.incoming, leg.back_incoming) if hold]
    found = [((hold.link, leg.node), hold.label) for hold in sent]
    found += [((hold.link, links[hold.link].other(leg.node)), hold.label) for hold in taken]
    return [(fibre, label) for fibre, label in found if label is not None]
