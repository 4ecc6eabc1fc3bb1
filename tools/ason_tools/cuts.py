"""What becomes of a plan's calls when risk groups fail: one by itself, or two at once."""

import re
from dataclasses import dataclass, field, replace
from functools import cached_property
from itertools import combinations
from typing import Any

from . import program, tables
from .circuits import Circuit, circuits_of
from .errors import ToolError
from .groups import Group, failed_links, groups_of
from .plan import Plan
from .studies import Study
from .surveys import Contend, Survey
from .tables import Refused
from .turning import Routes, have_turned, routes_of

Groups = tuple[Group, ...]
"""The groups that fail together."""

LONGEST = 256
"""In so many rounds a call is looked for that turns later than its routes tell, since frames were dropped."""


@dataclass(frozen=True)
class Rounds:
    """The rounds after which the last guarded call that a cut hits stands on its backup.

    `taken` is what a run with one worker showed, `one_worker` what the routes tell of it where no frame is lost, held back or
    dropped, and `most` what is proved then of every number of workers.
    """

    taken: int | None
    one_worker: int
    most: int


@dataclass(frozen=True)
class Outcome:
    """A cut: its groups and links, and the calls that it hits, by what becomes of them.

    A call is hit where a fibre of the LSP that carries it is cut. `turned`, `stuck` and `bare` are the states of those
    calls when the network is quiet again; `cut_off` are those that nothing carries then. `contends` tells for which labels
    calls would contend by the survey of the table before. `rounds` is there where one group hits a guarded call of a
    network that was calm.
    """

    groups: Groups
    links: tuple[int, ...]
    hit: tuple[str, ...]
    turned: tuple[str, ...]
    stuck: tuple[str, ...]
    bare: tuple[str, ...]
    cut_off: tuple[str, ...]
    contends: tuple[Contend, ...] = ()
    rounds: Rounds | None = None

    @property
    def name(self) -> str:
        """The groups as script lines name them."""
        return " + ".join(group.text() for group in self.groups)


@dataclass(frozen=True)
class Standing:
    """A plan whose script comes to a table, of each call of that table that something carries the links that do, the
    table's survey, and the routes of the calls that are guarded in it."""

    plan: Plan
    carried: dict[str, frozenset[int]]
    survey: Survey
    guarded: dict[str, Routes] = field(default_factory=dict)

    def hit(self, links: frozenset[int]) -> tuple[str, ...]:
        """The calls whose carrying LSP has one of these links."""
        return tuple(name for name, route in self.carried.items() if not links.isdisjoint(route))

    def turning(self, cut: Groups, links: frozenset[int]) -> dict[str, Routes]:
        """The guarded calls that the cut hits, where it is of one group and the network is calm."""
        if len(cut) > 1 or not self.survey.calm:
            return {}
        return {name: self.guarded[name] for name in self.hit(links) if name in self.guarded}

    def rounds(self, cut: Groups, links: frozenset[int], taken: int | None) -> Rounds | None:
        """After how many rounds these calls stand on their backups, where a run took so many."""
        found = self.turning(cut, links).values()
        if not found:
            return None
        return Rounds(taken, max(it.with_one_worker(links) for it in found), max(it.at_most(links) for it in found))


def standing(plan: Plan) -> Standing:
    """What stands at the end of the plan's script, when the network is quiet."""
    script = [line for line in plan.script if line.split() != ["show"]]
    settled = replace(plan, script=[*script, "settle 1000"])
    circuits = circuits_at_end(settled, shown(settled)[-1])
    carried = {it.call.name: it.carrying for it in circuits if it.carrier is not None}
    return Standing(settled, carried, program.survey(settled.text()), routes_of(settled, circuits))


def shown(plan: Plan) -> list[str]:
    """The tables that a run of the plan prints, as texts; the last is that of its end."""
    status, text = program.printed(("run",), plan.text())
    if status != program.DONE:
        raise ToolError(_why(status, text))
    return re.split("^(?=calls )", text, flags=re.MULTILINE)[1:]


def _why(status: int, text: str) -> str:
    """Why a run has no table of its end."""
    for part in tables.read(text).parts:
        if isinstance(part, Refused):
            return f"ason says {part.text().strip()!r} of the plan (tools/why shows where)"
    return f"a run ended with status {status}: {text.strip()[-80:]}"


def circuits_at_end(plan: Plan, table: str) -> list[Circuit]:
    """The circuits of this table, which a run of the plan printed last."""
    return circuits_of(plan, tables.read(table).table(), failed_links(plan))


def single_cuts(plan: Plan) -> list[Groups]:
    """Each SRLG and each link by itself."""
    return [(group,) for group in groups_of(plan)]


def pair_cuts(plan: Plan) -> list[Groups]:
    """Each two groups of which neither has all links of the other."""
    links = {group: group.links(plan) for group in groups_of(plan)}
    return [(a, b) for a, b in combinations(links, 2) if not (links[a] <= links[b] or links[b] <= links[a])]


@dataclass(frozen=True)
class Cuts:
    """The cuts of a study: one run for each set of links that hits a call."""

    start: Standing
    cuts: list[Groups]

    def study(self) -> Study:
        """The runs."""
        orders = [self._order(cut, links) for links, cut in self._runs.items()]
        return Study("study-cuts", after, self.start.plan, orders)

    def outcomes(self, values: dict[int, Any]) -> list[Outcome]:
        """The outcome of each cut, as far as the values of the runs, by their places, are there."""
        found = {links: values[place] for place, links in enumerate(self._runs) if place in values}
        missing = self._runs.keys() - found.keys()
        told = ((cut, links) for cut, links in self._links.items() if links not in missing)
        return [self._outcome(cut, links, found.get(links, NOTHING)) for cut, links in told]

    def _order(self, cut: Groups, links: frozenset[int]) -> "Order":
        rounds = self.start.rounds(cut, links, None)
        return Order(cut, self.start.hit(links), tuple(self.start.turning(cut, links)), rounds.one_worker if rounds else 0)

    def _outcome(self, cut: Groups, links: frozenset[int], found: dict[str, Any]) -> Outcome:
        hit, calls = self.start.hit(links), found["calls"]
        lost = tuple(name for name in hit if not calls[name][1])
        by_state = {state: tuple(name for name in hit if calls[name][0] == state) for state in ("turned", "stuck", "bare")}
        turned = tuple(name for name in by_state["turned"] if name not in lost)
        wanted = tuple(self._contends.get(frozenset(cut), ()))
        rounds = self.start.rounds(cut, links, found["rounds"])
        return Outcome(cut, tuple(sorted(links)), hit, turned, by_state["stuck"], by_state["bare"], lost, wanted, rounds)

    @cached_property
    def _contends(self) -> dict[frozenset[Group], list[Contend]]:
        """For which labels calls would contend, by the groups that fail."""
        found: dict[frozenset[Group], list[Contend]] = {}
        for contend in self.start.survey.contends:
            found.setdefault(contend.groups, []).append(contend)
        return found

    @cached_property
    def _links(self) -> dict[Groups, frozenset[int]]:
        """The links of each cut."""
        of = {group: group.links(self.start.plan) for group in groups_of(self.start.plan)}
        return {cut: frozenset().union(*(of[group] for group in cut)) for cut in self.cuts}

    @cached_property
    def _runs(self) -> dict[frozenset[int], Groups]:
        """The first cut of each set of links that hits a call."""
        found: dict[frozenset[int], Groups] = {}
        for cut, links in self._links.items():
            if links not in found and self.start.hit(links):
                found[links] = cut
        return found


@dataclass(frozen=True)
class Order:
    """What a run is to do: to cut these groups, and to look at these calls, which that hits.

    Of them those of `turning` are to turn, after so many rounds where the routes tell it.
    """

    cut: Groups
    hit: tuple[str, ...]
    turning: tuple[str, ...] = ()
    rounds: int = 0

    def failing(self, plan: Plan, lines: list[str]) -> Plan:
        """The plan with the cut behind its script, and these lines behind it."""
        return replace(plan, script=[*plan.script, *(f"fail {group.text()}" for group in self.cut), *lines])


NOTHING: dict[str, Any] = {"calls": {}, "rounds": None}
"""What is found where nothing is hit."""


def after(plan: Plan, order: Order) -> dict[str, Any]:
    """Of each call that the cut hits its state when the network is quiet again, and whether something carries it.

    And the rounds after which the last of those that are to turn has turned.
    """
    looks = [f"wait {order.rounds - 1}", "show", "wait 1", "show"] if order.turning else []
    cut = order.failing(plan, [*looks, "settle 1000"])
    *early, last = shown(cut)
    found = {it.call.name: it for it in circuits_at_end(cut, last)}
    calls = {name: [found[name].call.state, found[name].carrier is not None] for name in order.hit}
    if not order.turning:
        return {"calls": calls, "rounds": None}
    is_just = [have_turned(table, order.turning) for table in early] == [False, True]
    return {"calls": calls, "rounds": order.rounds if is_just else _rounds(plan, order)}


def _rounds(plan: Plan, order: Order) -> int | None:
    """The rounds by halves, since a call that has turned stays so while its working LSP is cut."""
    few, enough = 0, LONGEST + 1
    while enough - few > 1:
        middle = (few + enough) // 2
        look, _ = shown(order.failing(plan, [f"wait {middle}", "show"]))
        few, enough = (few, middle) if have_turned(look, order.turning) else (middle, enough)
    return enough if enough <= LONGEST else None
