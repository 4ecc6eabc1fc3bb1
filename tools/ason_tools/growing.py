"""More calls on a network: other routes for those that are blocked, and more labels, each step run by the program."""

from collections import Counter
from collections.abc import Iterable
from dataclasses import dataclass, replace
from enum import Enum

from . import program
from .circuits import Fibre, Usage, usage
from .errors import ToolError
from .kways import Ways
from .plan import MOST_LABELS, MOST_LINES, Plan
from .refusals import refusals
from .setups import Route, setups_of
from .tables import Table

PASSED = ("settle", "wait", "show")
"""The script lines beside setups; the new script has its own settles in place of them."""


class Kind(Enum):
    """What a step did."""

    START = "as it is"
    REROUTE = "reroute"
    UPGRADE = "upgrade"


@dataclass(frozen=True)
class Wanted:
    """A call: its ends, the words behind them, and its route where one is given."""

    name: str
    source: str
    target: str
    words: str
    via: Route | None
    backup: Route | None

    def line(self) -> str:
        """The setup."""
        routes = (("via", self.via), ("backup", self.backup))
        given = "".join(f" {word} {','.join(map(str, route))}" for word, route in routes if route)
        return f"setup {self.name} {self.source} {self.target}{self.words}{given}"

    @property
    def is_two_way(self) -> bool:
        return "both" in self.words


@dataclass(frozen=True)
class Step:
    """A step: what it did, the labels that it added by link, the plan behind it, and what its run came to."""

    kind: Kind
    added: dict[int, int]
    plan: Plan
    calls: tuple[Wanted, ...]
    table: Table
    refused: Counter[Fibre]

    @property
    def blocked(self) -> tuple[Wanted, ...]:
        """The calls that are blocked."""
        names = {call.name for call in self.table.calls if call.state == "blocked"}
        return tuple(call for call in self.calls if call.name in names)

    @property
    def carried(self) -> int:
        """How many calls stand."""
        return len(self.calls) - len(self.blocked)

    @property
    def bare(self) -> int:
        """How many calls stand without the backup that they asked for."""
        return sum(call.state == "bare" and call.cause is not None for call in self.table.calls)


def wanted(plan: Plan) -> tuple[Wanted, ...]:
    """The calls of the plan's script, which has setups and rounds alone."""
    for number, line in enumerate(plan.script, 1):
        if line.split()[:1] not in (["setup"], *([word] for word in PASSED)):
            raise ToolError(f"its script line {number} is {line!r}, and only setups can be planned for")
    found = []
    for setup in setups_of(plan).values():
        given = plan.script[setup.place].split()[4:]
        words = "".join(f" {word}" for word in ("unprotected", "both") if word in given)
        found.append(Wanted(setup.name, setup.source, setup.target, words, setup.via, setup.backup))
    if not found:
        raise ToolError("its script has no setup, so there are no calls to carry")
    if 2 * len(found) > MOST_LINES:
        raise ToolError(f"its {len(found):,} setups need {2 * len(found):,} lines, each with a settle, and a plan has {MOST_LINES:,}")
    return tuple(found)


def run(kind: Kind, added: dict[int, int], plan: Plan, calls: Iterable[Wanted]) -> Step:
    """The step, by a run in which each call comes to its end before the next."""
    calls = tuple(calls)
    ready = replace(plan, script=[line for call in calls for line in (call.line(), "settle 1000")])
    ended = program.run(ready.text())
    if ended.refused:
        raise ToolError(f"ason says {ended.refused.text().strip()!r} of the plan (tools/why shows where)")
    if ended.status != program.DONE:
        raise ToolError(f"a run ended with status {ended.status}: {ended.text.strip()[-80:]}")
    return Step(kind, added, ready, calls, ended.table, refusals(ready, ended.table))


@dataclass(frozen=True)
class Fit:
    """A way for a call: the labels that it would take, and by how many labels links must grow for that."""

    call: Wanted
    route: Route
    takes: tuple[tuple[Fibre, int], ...]
    grows: tuple[tuple[int, int], ...]

    @property
    def cost(self) -> int:
        """How many labels are to be added."""
        return sum(count for _, count in self.grows)


class Room:
    """The labels that are free on each fibre. It reckons where calls could go; what they do the next run tells."""

    def __init__(self, plan: Plan, used: Usage) -> None:
        self._links = {link.id: link for link in plan.links}
        self._labels = {link.id: link.labels for link in plan.links}
        self._converting = {node.name for node in plan.nodes if node.convert}
        fibres = [(link.id, end) for link in plan.links for end in link.ends]
        self._free = {it: set(range(1, self._labels[it[0]] + 1)) - used.holders.get(it, {}).keys() for it in fibres}

    def fit(self, call: Wanted, route: Route) -> Fit | None:
        """What the call would take on this way, with the fewest labels added, or None where links have no room for more."""
        takes = self._one_way(call.source, route)
        if takes is not None and call.is_two_way:
            back = self._one_way(call.target, route[::-1])
            takes = None if back is None else takes + back
        if takes is None:
            return None
        most: dict[int, int] = {}
        for (link, _), label in takes:
            most[link] = max(most.get(link, 0), label)
        grows = tuple((link, label - self._labels[link]) for link, label in most.items() if label > self._labels[link])
        return Fit(call, route, tuple(takes), grows)

    def take(self, fit: Fit) -> None:
        """Adds the labels, and takes those of the call."""
        for link, count in fit.grows:
            new = range(self._labels[link] + 1, self._labels[link] + count + 1)
            self._labels[link] += count
            for end in self._links[link].ends:
                self._free[link, end].update(new)
        for fibre, label in fit.takes:
            self._free[fibre].discard(label)

    def _one_way(self, source: str, route: Route) -> list[tuple[Fibre, int]] | None:
        """A label on each fibre of the way, the same between nodes that convert."""
        takes: list[tuple[Fibre, int]] = []
        node, kept = source, []
        for number in route:
            kept.append((number, node))
            node = self._links[number].other(node)
            if node in self._converting or number == route[-1]:
                label = self._label(kept)
                if label is None:
                    return None
                takes += [(fibre, label) for fibre in kept]
                kept = []
        return takes

    def _label(self, fibres: list[Fibre]) -> int | None:
        """The label for these fibres for which the fewest are added, and the least of such."""
        free = set.intersection(*(self._free[fibre] for fibre in fibres))
        if free:
            return min(free)
        counts = [self._labels[link] for link, _ in fibres]
        costs = {label: self._cost(fibres, label) for label in range(min(counts) + 1, min(max(counts) + 1, MOST_LABELS) + 1)}
        label = min(costs, key=lambda it: costs[it], default=None)
        return label if label and costs[label] < MANY else None

    def _cost(self, fibres: list[Fibre], label: int) -> int:
        """How many labels are added where an LSP is to have this label on these fibres."""
        missing = [max(0, label - self._labels[link]) for link, _ in fibres]
        taken = any(not more and label not in self._free[fibre] for fibre, more in zip(fibres, missing))
        return MANY if taken else sum(missing)


MANY = 1_000_000
"""The cost of a label that can't be had."""


@dataclass(frozen=True)
class Budget:
    """How many labels may be added: in a step, of which the first call may need more, and in all."""

    step: int
    left: int


NOTHING = Budget(0, 0)


def placed(room: Room, blocked: Iterable[Wanted], ways: Ways, budget: Budget) -> list[Fit]:
    """Ways for blocked calls: first those that need no more labels, then those with the fewest, as long as the budget lasts."""
    found: list[Fit] = []
    left, spent = list(blocked), 0
    while left:
        most = budget.left if spent == 0 else min(budget.step, budget.left) - spent
        fits = [fit for call in left if (fit := _best(room, call, ways)) is not None and fit.cost <= most]
        new = _free(room, fits, ways) if any(fit.cost == 0 for fit in fits) else _cheapest(room, fits)
        if not new:
            break
        spent += sum(fit.cost for fit in new)
        found += new
        names = {fit.call.name for fit in new}
        left = [call for call in left if call.name not in names]
    return found


def _free(room: Room, fits: list[Fit], ways: Ways) -> list[Fit]:
    """Takes the ways that need no more labels, the shortest first; one that others have taken by then gives way to another."""
    found = []
    for fit in sorted((fit for fit in fits if fit.cost == 0), key=lambda fit: len(fit.route)):
        now = _best(room, fit.call, ways)
        if now is not None and now.cost == 0:
            room.take(now)
            found.append(now)
    return found


def _cheapest(room: Room, fits: list[Fit]) -> list[Fit]:
    """Takes the way that costs least; of such the one whose growth the most others want too, and then the shortest."""
    least = min((fit.cost for fit in fits), default=0)
    cheap = [fit for fit in fits if fit.cost == least]
    wished = Counter(fit.grows for fit in cheap)
    found = sorted(cheap, key=lambda fit: (-wished[fit.grows], len(fit.route)))[:1]
    for fit in found:
        room.take(fit)
    return found


def _best(room: Room, call: Wanted, ways: Ways) -> Fit | None:
    """The way of the call for which the fewest labels are added, and the shortest of such."""
    fits = [fit for route in ways.between(call.source, call.target) if (fit := room.fit(call, route)) is not None]
    return min(fits, key=lambda fit: (fit.cost, len(fit.route)), default=None)


def next_step(last: Step, ways: Ways, budget: Budget) -> Step | None:
    """The step behind this one that adds at most so many labels; None where it would place no call, or its run carries no more."""
    room = Room(last.plan, usage(last.plan, last.table))
    fits = placed(room, last.blocked, ways, budget)
    if not fits:
        return None
    added: Counter[int] = Counter()
    for fit in fits:
        added.update(dict(fit.grows))
    routes = {fit.call.name: fit.route for fit in fits}
    waiting = {call.name for call in last.blocked}
    # Calls that stand keep their place and so their labels; then come those that are placed, and those that still wait.
    calls = [call for call in last.calls if call.name not in waiting]
    calls += [replace(call, via=routes[call.name], backup=None) for call in last.blocked if call.name in routes]
    calls += [call for call in last.blocked if call.name not in routes]
    links = [replace(link, labels=link.labels + added[link.id]) for link in last.plan.links]
    step = run(Kind.UPGRADE if added else Kind.REROUTE, dict(added), replace(last.plan, links=links), calls)
    return step if step.carried > last.carried else None
