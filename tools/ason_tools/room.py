"""Where an LSP would find a label now."""

import heapq
from collections.abc import Iterator
from dataclasses import dataclass
from functools import cached_property

from .circuits import Fibre, Usage
from .disjoint import risks
from .plan import MOST_LABELS, MOST_STEPS, Link, Plan
from .routes import links_around
from .setups import Route
from .tables import Lsp


EVERY = frozenset(range(1, MOST_LABELS + 1))
"""What an LSP may have behind its ingress and behind a node that converts: any label."""


@dataclass(frozen=True)
class Narrow:
    """The first link of a route on which an LSP finds no label, and the node that sends on it.

    `has_free` says that a label is free there, to which the nodes before can't take the LSP.
    """

    link: Link
    sender: str
    has_free: bool

    @property
    def fibre(self) -> Fibre:
        return self.link.id, self.sender


@dataclass(frozen=True)
class Room:
    """The labels that an LSP could take: a working one those that nobody holds.

    A backup beside this working route can also share those that backups alone hold, whose working routes share no risk
    with it.
    """

    plan: Plan
    used: Usage
    primary: Route | None = None

    @cached_property
    def usable(self) -> dict[Fibre, frozenset[int]]:
        """The labels of each fibre that the LSP could take."""
        fibres = [(link, sender) for link in self.plan.links for sender in link.ends]
        return {(link.id, sender): frozenset(self._usable(link, sender)) for link, sender in fibres}

    def narrow(self, source: str, route: Route) -> Narrow | None:
        """Where an LSP over this route would find no label, or None where it finds them all."""
        links = {link.id: link for link in self.plan.links}
        node, labels = source, EVERY
        for link in (links[number] for number in route):
            usable = self.usable[link.id, node]
            labels &= usable
            if not labels:
                return Narrow(link, node, bool(usable))
            node = link.other(node)
            labels = EVERY if node in self._converting else labels
        return None

    def least(self, source: str, target: str, ways: Plan) -> Route | None:
        """The least route by links among these ways on which an LSP would find its labels."""
        around = links_around(ways)
        heap: list[tuple[int, Route, tuple[str, ...], frozenset[int]]] = [(0, (), (source,), EVERY)]
        seen: dict[str, list[frozenset[int]]] = {node: [] for node in around}
        while heap:
            count, route, nodes, labels = heapq.heappop(heap)
            node = nodes[-1]
            if node == target:
                return route
            if count == MOST_STEPS or any(labels <= other for other in seen[node]):
                continue
            seen[node].append(labels)
            for link, kept in self._steps(nodes, labels, around[node]):
                heapq.heappush(heap, (count + 1, (*route, link.id), (*nodes, link.other(node)), kept))
        return None

    def _steps(
        self, nodes: tuple[str, ...], labels: frozenset[int], links: list[Link]
    ) -> Iterator[tuple[Link, frozenset[int]]]:
        """Those of the links that lead on from the last node, and the labels that an LSP could have behind them."""
        for link in links:
            node, kept = link.other(nodes[-1]), labels & self.usable[link.id, nodes[-1]]
            if kept and node not in nodes:
                yield link, EVERY if node in self._converting else kept

    @cached_property
    def _converting(self) -> frozenset[str]:
        return frozenset(node.name for node in self.plan.nodes if node.convert)

    @cached_property
    def _sharing(self) -> frozenset[Lsp]:
        """The backups with which the LSP may share a label."""
        if self.primary is None:
            return frozenset()
        own = risks(self.plan, self.primary)
        circuits = (it for it in self.used.circuits if own.isdisjoint(risks(self.plan, it.work)))
        return frozenset(it.call.backup for it in circuits if it.call.backup)

    def _usable(self, link: Link, sender: str) -> Iterator[int]:
        held = self.used.holders.get((link.id, sender), {})
        labels = range(1, link.labels + 1)
        return (label for label in labels if all(it.lsp in self._sharing for it in held.get(label, ())))
