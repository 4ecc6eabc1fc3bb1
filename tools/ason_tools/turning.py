"""After how many rounds a guarded call that is hit stands on its backup: by its routes, and as a run shows it."""

import re
from collections.abc import Iterable
from dataclasses import dataclass

from .circuits import Circuit
from .plan import Plan

_TURNED = re.compile(r"^call (\S+) \S+ \S+ turned ", re.MULTILINE)


@dataclass(frozen=True)
class Routes:
    """The links of a call's working LSP, the ids of the nodes along it, and the hops of its backup."""

    links: tuple[int, ...]
    ids: tuple[int, ...]
    backup: int

    def at_most(self, cut: frozenset[int]) -> int:
        """On however many workers, where one group has failed alone and no frame is lost, held back or dropped.

        A round for the alarm, one for each hop of the Notify up, and of the Path down the backup and the Resv up it.
        """
        return 1 + self._nearest(cut) + 2 * self.backup

    def with_one_worker(self, cut: frozenset[int]) -> int:
        """With one worker just so many: nodes act in order of id, so only what goes to an earlier node waits for a round.

        Each hop of the backup is late so in one of its two directions.
        """
        told = self.ids[: self._nearest(cut) + 1]
        return 1 + sum(before < behind for before, behind in zip(told, told[1:])) + self.backup

    def _nearest(self, cut: frozenset[int]) -> int:
        """The hops from the call's first node to the node behind the nearest cut link."""
        return 1 + next(place for place, link in enumerate(self.links) if link in cut)


def routes_of(plan: Plan, circuits: list[Circuit]) -> dict[str, Routes]:
    """The routes of each guarded call, by its name."""
    ids = {node.name: node.id for node in plan.nodes}
    ends = {link.id: link for link in plan.links}
    found = {}
    for circuit in circuits:
        if circuit.call.state == "guarded":
            names = [circuit.call.source]
            for link in circuit.work:
                names.append(ends[link].other(names[-1]))
            found[circuit.call.name] = Routes(circuit.work, tuple(ids[name] for name in names), len(circuit.backup))
    return found


def have_turned(table: str, calls: Iterable[str]) -> bool:
    """Whether these calls are turned in the table, of which this is the text."""
    return set(_TURNED.findall(table)).issuperset(calls)
