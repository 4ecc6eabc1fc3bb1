"""Least routes over a plan's links."""

import heapq
from collections.abc import Callable, Iterator

from .plan import MOST_STEPS, Link, Plan

Cost = Callable[[Link], int]


def by_hops(_: Link) -> int:
    """Each link costs one."""
    return 1


def by_metric(link: Link) -> int:
    """Each link costs its metric."""
    return link.metric


def links_around(plan: Plan) -> dict[str, list[Link]]:
    """The links of each node."""
    around: dict[str, list[Link]] = {node.name: [] for node in plan.nodes}
    for link, end in ((link, end) for link in plan.links for end in link.ends):
        around[end].append(link)
    return around


def least_route(plan: Plan, source: str, target: str, cost: Cost) -> list[Link] | None:
    """The links of the route of least cost, and among those of the least list of link ids. None where none leads there."""
    return least_over(links_around(plan), source, target, cost)


def least_over(around: dict[str, list[Link]], source: str, target: str, cost: Cost) -> list[Link] | None:
    """The same over these links of each node."""
    reached: set[str] = set()
    heap: list[tuple[int, list[int], str, list[Link]]] = [(0, [], source, [])]
    while heap:
        so_far, ids, node, route = heapq.heappop(heap)
        if node == target:
            return route if len(route) <= MOST_STEPS else None
        if node in reached:
            continue
        reached.add(node)
        for link in around[node]:
            if link.other(node) not in reached:
                heapq.heappush(heap, (so_far + cost(link), ids + [link.id], link.other(node), route + [link]))
    return None


MOST_LOOKS = 200_000
"""So many beginnings of routes are looked at before a search for further ones ends."""


def routes_in_order(plan: Plan, source: str, target: str, cost: Cost) -> Iterator[list[Link]]:
    """The routes without a node twice, each of at least the cost of the one before; of equal ones by their link ids."""
    around, left = links_around(plan), _costs_to(plan, target, cost)
    if source not in left:
        return
    heap: list[tuple[int, list[int], int, str, list[Link]]] = [(left[source], [], 0, source, [])]
    for _ in range(MOST_LOOKS):
        if not heap:
            return
        _, ids, so_far, node, route = heapq.heappop(heap)
        if node == target:
            yield route
            continue
        if len(route) == MOST_STEPS:
            continue
        behind = {source, *(end for link in route for end in link.ends)}
        for link in around[node]:
            other, spent = link.other(node), so_far + cost(link)
            if other in left and other not in behind:
                heapq.heappush(heap, (spent + left[other], ids + [link.id], spent, other, route + [link]))


def _costs_to(plan: Plan, target: str, cost: Cost) -> dict[str, int]:
    """The least cost of a way from each node to this one, where there is one."""
    around, found, heap = links_around(plan), {}, [(0, target)]
    while heap:
        spent, node = heapq.heappop(heap)
        if node in found:
            continue
        found[node] = spent
        for link in around[node]:
            heapq.heappush(heap, (spent + cost(link), link.other(node)))
    return found
