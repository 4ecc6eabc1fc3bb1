"""The least ways between two nodes (Yen's algorithm)."""

from dataclasses import dataclass, field
from functools import cached_property

from .disjoint import inner_nodes
from .plan import Link, Plan
from .routes import by_metric, least_over, links_around
from .setups import Route


@dataclass
class Ways:
    """So many least ways by metric between any two nodes, none of which comes to a node twice."""

    plan: Plan
    count: int
    _known: dict[tuple[str, str], list[Route]] = field(default_factory=dict)

    def between(self, source: str, target: str) -> list[Route]:
        """The least ways from the one node to the other, the least first."""
        if (source, target) not in self._known:
            self._known[source, target] = self._least(source, target)
        return self._known[source, target]

    @cached_property
    def _around(self) -> dict[str, list[Link]]:
        return links_around(self.plan)

    @cached_property
    def _metrics(self) -> dict[int, int]:
        return {link.id: link.metric for link in self.plan.links}

    def _least(self, source: str, target: str) -> list[Route]:
        first = self._way(source, target, set(), set())
        found, others = [first] if first else [], set()
        while found and len(found) < self.count:
            others |= set(self._beside(source, target, found)) - set(found)
            if not others:
                break
            found.append(min(others, key=lambda route: (sum(map(self._metrics.__getitem__, route)), route)))
            others.remove(found[-1])
        return found

    def _beside(self, source: str, target: str, found: list[Route]) -> list[Route]:
        """The least ways that leave the last of these at each of its nodes, and none of these there."""
        last = found[-1]
        nodes = [source, *inner_nodes(self.plan, source, last)]
        ways = []
        for place, node in enumerate(nodes):
            start = last[:place]
            barred = {route[place] for route in found if route[:place] == start}
            rest = self._way(node, target, barred, set(nodes[:place]))
            ways += [start + rest] if rest else []
        return ways

    def _way(self, source: str, target: str, barred: set[int], gone: set[str]) -> Route | None:
        """The least way without these links and these nodes."""
        around = {
            node: [link for link in links if link.id not in barred and gone.isdisjoint(link.ends)]
            for node, links in self._around.items()
        }
        route = least_over(around, source, target, by_metric)
        return None if route is None else tuple(link.id for link in route)
