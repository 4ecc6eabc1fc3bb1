"""Calls that come and go by chance: Poisson arrivals, holding times, and how many are blocked, by cause."""

import math
import random
import re
from collections import Counter
from dataclasses import dataclass, replace
from enum import Enum
from itertools import accumulate, permutations
from statistics import fmean, stdev
from typing import Any

from . import program
from .errors import ToolError, meant, quoted
from .plan import MOST_LINES, MOST_SETUPS, Plan
from .routes import by_hops, least_route
from .setups import setups_of
from .studies import Study

REFUSED = re.compile(r"^call (c\d+) \S+ \S+ (blocked|bare) \S+ \S+ ([^-\s]\S*)$", re.MULTILINE)
"""A call of a table that is blocked, or without the backup that it asked for, and the cause."""


class Kind(Enum):
    """What a call asks for, as its setup says it."""

    UNPROTECTED = " unprotected"
    PROTECTED = ""


@dataclass(frozen=True)
class Demand:
    """Two nodes between which calls are asked for, and how often beside other pairs."""

    source: str
    target: str
    weight: float


@dataclass(frozen=True)
class Traffic:
    """Calls on this network: so many arrivals are counted, behind a warm-up of so many mean holding times."""

    network: Plan
    demands: tuple[Demand, ...]
    arrivals: int
    warm_up: float
    seed: int
    kind: Kind = Kind.UNPROTECTED
    two_way: bool = False
    by_hops: bool = False

    def study(self, loads: list[float], seeds: int) -> Study:
        """A run for each seed of each load."""
        orders = [Order(load, seed) for load in loads for seed in range(1, seeds + 1)]
        return Study("study-erlang", counted, self, orders)


@dataclass(frozen=True)
class Order:
    """What a run is to do: calls of so many Erlang, by this seed."""

    erlang: float
    seed: int


@dataclass(frozen=True)
class Arrival:
    """A call: when it comes and when it would go, in mean holding times, and its ends."""

    name: str
    comes: float
    goes: float
    source: str
    target: str


def arrivals(asked: Traffic, order: Order) -> list[Arrival]:
    """The calls of a run, in the order in which they come."""
    chance = random.Random(f"{asked.seed} {order.seed} {order.erlang:g}")
    sums = list(accumulate(demand.weight for demand in asked.demands))
    found: list[Arrival] = []
    time, left = 0.0, asked.arrivals
    while left:
        time += chance.expovariate(order.erlang)
        demand = chance.choices(asked.demands, cum_weights=sums)[0]
        name = f"c{len(found) + 1}"
        found.append(Arrival(name, time, time + chance.expovariate(1.0), demand.source, demand.target))
        left -= time >= asked.warm_up
        if len(found) > MOST_SETUPS:
            raise ToolError(f"{order.erlang:g} Erlang need more than {MOST_SETUPS:,} setups, which no plan has: {_FEWER}")
    return found


_FEWER = "fewer --arrivals or a shorter --warm-up"


def script(asked: Traffic, order: Order) -> list[str]:
    """The calls of a run as a script. Each is in some table before it goes."""
    lines: list[str] = []
    standing: list[Arrival] = []
    seen: set[str] = set()
    routes = _Routes(asked)
    for call in arrivals(asked, order):
        gone = sorted((it for it in standing if it.goes <= call.comes), key=lambda it: it.goes)
        if any(it.name not in seen for it in gone):
            lines.append("show")
            seen |= {it.name for it in standing}
        lines += [f"release {it.name}" for it in gone] + (["settle 1000"] if gone else [])
        standing = [it for it in standing if it.goes > call.comes] + [call]
        lines += [f"setup {call.name} {call.source} {call.target}{routes.words(call)}", "settle 1000"]
    if len(lines) > MOST_LINES:
        raise ToolError(f"{order.erlang:g} Erlang need {len(lines):,} lines, and a plan has {MOST_LINES:,}: {_FEWER}")
    return lines


class _Routes:
    """What stands behind the ends of a setup."""

    def __init__(self, asked: Traffic) -> None:
        self._asked = asked
        self._known: dict[tuple[str, str], str] = {}

    def words(self, call: Arrival) -> str:
        """The words that say what the call asks for, and its route where one is to be given."""
        ends = call.source, call.target
        if ends not in self._known:
            self._known[ends] = self._asked.kind.value + " both" * self._asked.two_way + self._via(*ends)
        return self._known[ends]

    def _via(self, source: str, target: str) -> str:
        route = least_route(self._asked.network, source, target, by_hops) if self._asked.by_hops else None
        return " via " + ",".join(str(link.id) for link in route) if route else ""


def counted(asked: Traffic, order: Order) -> dict[str, Any]:
    """Of a run how many calls were counted, and how many of them were blocked or without a backup, by cause."""
    text = replace(asked.network, script=script(asked, order)).text()
    status, told = program.printed(("run",), text)
    if status == program.EVENT_LIMIT:
        raise ToolError(f"at {order.erlang:g} Erlang a node makes more events than it may: fewer --arrivals, or a shorter --warm-up")
    if status != program.DONE or re.search("^unsettled", told, re.MULTILINE):
        raise ToolError(f"the run of {order.erlang:g} Erlang, seed {order.seed}, ended with status {status}: {told.strip()[-80:]}")
    states = {name: (state, cause) for name, state, cause in REFUSED.findall(told)}
    refused = Counter(states[it.name] for it in arrivals(asked, order) if it.comes >= asked.warm_up and it.name in states)
    of = {kind: {cause: refused[kind, cause] for it, cause in sorted(refused) if it == kind} for kind in ("blocked", "bare")}
    return {"calls": asked.arrivals} | of


@dataclass(frozen=True)
class Interval:
    """A share of calls: its mean over independent seeds, and between which bounds the true one lies in 95 of 100 such studies."""

    mean: float
    least: float
    most: float


@dataclass(frozen=True)
class Load:
    """What came of a load: how many calls were counted, which share was blocked and how sure that is, and shares by cause."""

    erlang: float
    seeds: int
    calls: int
    blocked: Interval
    causes: dict[str, float]
    bare: float


def load_of(erlang: float, runs: list[dict[str, Any]]) -> Load:
    """What came of these runs of one load."""
    calls = sum(run["calls"] for run in runs)
    shares = [sum(run["blocked"].values()) / run["calls"] for run in runs]
    sums = sum((Counter(run["blocked"]) for run in runs), Counter())
    bare = sum(sum(run["bare"].values()) for run in runs)
    causes = {cause: sums[cause] / calls for cause in sorted(sums)}
    # Seeds without a blocked call would leave no width. Where 3 are to be expected, none comes once in twenty studies.
    blocked = interval(shares) if any(shares) else Interval(0.0, 0.0, min(1.0, 3 / calls))
    return Load(erlang, len(runs), calls, blocked, causes, bare / calls)


def interval(shares: list[float]) -> Interval:
    """The mean, and the 95 % interval by Student's distribution; of one share alone nothing is known but that it is 0 to 1."""
    mean = fmean(shares)
    if len(shares) < 2:
        return Interval(mean, 0.0, 1.0)
    half = student(len(shares) - 1) * stdev(shares) / math.sqrt(len(shares))
    return Interval(mean, max(0.0, mean - half), min(1.0, mean + half))


_STUDENT = (
    12.706, 4.303, 3.182, 2.776, 2.571, 2.447, 2.365, 2.306, 2.262, 2.228, 2.201, 2.179, 2.160, 2.145, 2.131,
    2.120, 2.110, 2.101, 2.093, 2.086, 2.080, 2.074, 2.069, 2.064, 2.060, 2.056, 2.052, 2.048, 2.045, 2.042,
)  # fmt: skip
"""The 97.5 % points of Student's distribution with 1 to 30 degrees of freedom."""


def student(freedom: int) -> float:
    """The 97.5 % point of Student's distribution; above 30 degrees by the first terms of its expansion."""
    if freedom <= len(_STUDENT):
        return _STUDENT[freedom - 1]
    return 1.95996 + 2.3723 / freedom + 2.8224 / freedom**2


def uniform(network: Plan) -> tuple[Demand, ...]:
    """Each ordered pair of nodes as often as any other."""
    return tuple(Demand(source, target, 1.0) for source, target in permutations([node.name for node in network.nodes], 2))


def by_setups(plan: Plan) -> tuple[Demand, ...]:
    """Each pair as often as the plan's script asks for calls between the two."""
    counts = Counter((it.source, it.target) for it in setups_of(plan).values())
    if not counts:
        raise ToolError("its script has no setup, of which demands could be taken")
    return tuple(Demand(source, target, float(count)) for (source, target), count in counts.items())


def by_text(network: Plan, text: str) -> tuple[Demand, ...]:
    """The demands of a text, a line each: FROM TO WEIGHT; or NODE WEIGHT, where two nodes' weights are multiplied."""
    names = [node.name for node in network.nodes]
    lines = ((number, line.split("#")[0].split()) for number, line in enumerate(text.splitlines(), 1))
    rows = [_row(number, words, names) for number, words in lines if words]
    if len({len(ends) for ends, _ in rows}) > 1:
        raise ToolError("some lines have a node and a weight, and others two nodes and a weight")
    if rows and len(rows[0][0]) == 1:
        rows = [((one[0], other[0]), weight * beside) for (one, weight), (other, beside) in permutations(rows, 2)]
    found = tuple(Demand(*ends, weight) for ends, weight in rows if weight > 0 and ends[0] != ends[1])
    if not found:
        raise ToolError("no two different nodes have a demand above 0")
    return found


def _row(number: int, words: list[str], names: list[str]) -> tuple[tuple[str, ...], float]:
    """The one or two nodes of a line, and the weight."""
    *ends, text = words
    try:
        weight = float(text)
    except ValueError:
        weight = -1.0
    if len(ends) not in (1, 2) or not 0 <= weight < math.inf:
        raise ToolError(f"line {number} isn't FROM TO WEIGHT or NODE WEIGHT, with a weight from 0 on")
    unknown = next((end for end in ends if end not in names), None)
    if unknown is not None:
        raise ToolError(f"line {number}: no node of the plan has the name {quoted(unknown)}{meant(unknown, names)}")
    return tuple(ends), weight
