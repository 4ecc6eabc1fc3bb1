"""Calls that are asked for between random nodes, one after the other: what of them is blocked, and what is held, at each load."""

import random
from dataclasses import astuple, dataclass

from . import program
from .circuits import usage
from .errors import ToolError
from .plan import Plan
from .routes import by_hops, least_route
from .studies import Study
from .tables import Table


@dataclass(frozen=True)
class Loads:
    """What is to be tried on this network: up to so many calls, with a table after each step, in so many trials."""

    network: Plan
    most: int
    step: int
    trials: int
    seed: int
    protected: bool = False

    @property
    def loads(self) -> list[int]:
        return list(range(self.step, self.most + 1, self.step))

    def study(self) -> Study:
        """A run for each trial."""
        return Study("study-load", counted, self, list(range(1, self.trials + 1)))


def script(asked: Loads, trial: int) -> list[str]:
    """The calls of one trial. Each settles before the next is asked for."""
    chance = random.Random(f"{asked.seed} {trial}")
    names = [node.name for node in asked.network.nodes]
    lines = []
    for number in range(1, asked.loads[-1] + 1):
        source, target = chance.sample(names, 2)
        route = least_route(asked.network, source, target, by_hops)
        if route is None:
            raise ToolError(f"no route leads from {source} to {target}")
        via = ",".join(str(link.id) for link in route)
        kind = "" if asked.protected else " unprotected"
        lines += [f"setup c{number} {source} {target}{kind} via {via}", "settle 1000"]
        lines += ["show"] if number % asked.step == 0 else []
    return lines


def plan_of(asked: Loads, trial: int) -> str:
    """The plan of one trial."""
    return Plan(asked.network.nodes, asked.network.links, script(asked, trial)).text()


@dataclass(frozen=True)
class Counts:
    """What a table shows: calls that are blocked, and bare of a backup; and the wavelengths of fibres that are held.

    `shared` is what backups hold, `apart` what the same backups would hold if each had its own.
    """

    blocked: int
    bare: int
    working: int
    shared: int
    apart: int


def counts(network: Plan, table: Table) -> Counts:
    """What the table shows."""
    states = [call.state for call in table.calls]
    used = usage(network, table)
    backups = {call.backup for call in table.calls if call.backup}
    shared = sum(held[0].lsp in backups for row in used.holders.values() for held in row.values())
    working, apart = (sum(map(len, routes)) for routes in zip(*((it.work, it.backup) for it in used.circuits)))
    return Counts(states.count("blocked"), states.count("bare"), working, shared, apart)


def counted(asked: Loads, trial: int) -> list[tuple[int, ...]]:
    """What is counted at each load, in this trial: the fields of `Counts`."""
    run = program.run(plan_of(asked, trial))
    if run.status != program.DONE:
        raise ToolError(f"the run of trial {trial} ended with status {run.status}: {run.text.strip()[-80:]}")
    return [astuple(counts(asked.network, table)) for table in run.tables[: len(asked.loads)]]
