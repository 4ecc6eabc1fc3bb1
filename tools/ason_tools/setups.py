"""The setups of a plan's script."""

from dataclasses import dataclass

from .errors import ToolError
from .groups import number_of
from .plan import Plan

Route = tuple[int, ...]
"""The ids of a route's links, from its first node on."""


@dataclass(frozen=True)
class Setup:
    """A setup line: the call, its ends, its routes where they are given, and the place of the line in the script."""

    name: str
    source: str
    target: str
    via: Route | None
    backup: Route | None
    place: int


def setups_of(plan: Plan) -> dict[str, Setup]:
    """The setups by the names of the calls. A route that doesn't lead from the one end to the other is refused."""
    lines = ((place, line.split()) for place, line in enumerate(plan.script))
    found = [_setup(place, words) for place, words in lines if words[:1] == ["setup"] and len(words) >= 4]
    for setup in found:
        if not all(_leads(plan, setup, route) for route in (setup.via, setup.backup) if route is not None):
            raise ToolError(f"a route of script line {setup.place + 1} doesn't lead from {setup.source} to {setup.target}")
    return {setup.name: setup for setup in found}


def _setup(place: int, words: list[str]) -> Setup:
    return Setup(*words[1:4], _route(words, "via"), _route(words, "backup"), place)


def _route(words: list[str], kind: str) -> Route | None:
    """The route behind this word, which stands behind the names. What is no number is link 0, which no plan has."""
    found = dict(zip(words[4:], words[5:])).get(kind)
    return None if found is None else tuple(number_of(link) or 0 for link in found.split(","))


def _leads(plan: Plan, setup: Setup, route: Route) -> bool:
    """Whether the links are the plan's and lead from the call's source to its target."""
    links, node = {link.id: link for link in plan.links}, setup.source
    for number in route:
        if number not in links or node not in links[number].ends:
            return False
        node = links[number].other(node)
    return node == setup.target
