"""How soon calls turn: random networks are cut, and each call that is hit turns when its two routes say.

Thirty networks; the environment variable TURNING_NETWORKS names another number, and then a line tells what was seen.
"""

import os
import random
import unittest
from collections import Counter
from dataclasses import dataclass, field, replace

from ason_tools import cuts, plan, studies, tables
from ason_tools.cuts import Cuts, Order, Rounds, Standing
from ason_tools.groups import Group, groups_of
from ason_tools.plan import Link, Node, Plan
from ason_tools.program import DONE
from ason_tools.studies import Way
from ason_tools.turning import Routes

from .support import EXAMPLES, ason_told

NETWORKS = int(os.environ.get("TURNING_NETWORKS", "30"))
WORKERS = (1, 2, 4)
CUTS = 3
"""So many groups of a network are cut, each by itself."""


def random_network(chance: random.Random) -> Plan:
    """A ring with links across it, whose ids don't rise along it, and protected calls, each set up before the next one."""
    count = chance.randint(4, 14)
    names = [f"n{place}" for place in range(count)]
    ids = sorted(zip(chance.sample(range(1, 60), count), names))
    nodes = [Node(name, number, convert=chance.random() < 0.5) for number, name in ids]
    ends = [(names[place], names[(place + 1) % count]) for place in range(count)]
    ends += [tuple(chance.sample(names, 2)) for _ in range(chance.randint(0, count // 2))]
    labels = chance.randint(2, 12)
    links = [Link(number, pair, labels, srlgs=(7,) * (chance.random() < 0.3)) for number, pair in enumerate(ends, 1)]
    pairs = [chance.sample(names, 2) for _ in range(chance.randint(1, 12))]
    both = [" both" * (chance.random() < 0.3) for _ in pairs]
    script = [line for number, pair in enumerate(pairs) for line in (f"setup c{number} {' '.join(pair)}{both[number]}", "settle 100")]
    return Plan(nodes, links, script)


def turned_in(start: Standing, group: Group, rounds: int, workers: int) -> dict[str, int]:
    """The first round of so many behind which each call is turned, once the group fails."""
    script = [*start.plan.script, f"fail {group.text()}", *["wait 1", "show"] * rounds]
    ended = ason_told("run", "--workers", str(workers), given=replace(start.plan, script=script).text())
    if ended.status != DONE:
        raise AssertionError(ended)
    found: dict[str, int] = {}
    for number, table in enumerate(tables.read(ended.out).tables, 1):
        for call in table.calls:
            if call.state == "turned":
                found.setdefault(call.name, number)
    return found


@dataclass
class Seen:
    """The calls that were hit, how many of them were late by so many hops of the Notify, and how far they stayed below the bound."""

    hit: int = 0
    late: Counter[int] = field(default_factory=Counter)
    slack: dict[int, Counter[int]] = field(default_factory=lambda: {workers: Counter() for workers in WORKERS})


class RandomTest(unittest.TestCase):
    """Each network with some groups cut, on one worker and on several."""

    def test_each_call_turns_when_its_routes_say(self) -> None:
        chance, seen = random.Random(190), Seen()
        for number in range(NETWORKS):
            start = cuts.standing(random_network(chance))
            hitting = [group for group in groups_of(start.plan) if self.hit(start, group)]
            for group in chance.sample(hitting, min(CUTS, len(hitting))):
                with self.subTest(network=number, group=group.text()):
                    self.cut(start, group, seen)
        # So that it isn't in vain: many calls, whose Notifies wait at no hop, at one and at two.
        self.assertGreater(seen.hit, 3 * NETWORKS)
        self.assertGreater(min(seen.late[hops] for hops in range(3)), NETWORKS // 10)
        if "TURNING_NETWORKS" in os.environ:
            worst = {workers: min(slack) for workers, slack in seen.slack.items()}
            print(f"{NETWORKS} networks, {seen.hit} calls hit; rounds below the bound, by workers, at the least: {worst}")

    def hit(self, start: Standing, group: Group) -> dict[str, Routes]:
        """The guarded calls that the group's failure hits."""
        return start.turning((group,), group.links(start.plan))

    def cut(self, start: Standing, group: Group, seen: Seen) -> None:
        """Cuts the group, and compares the round in which each call turns with what the call's routes say."""
        hit, links = self.hit(start, group), group.links(start.plan)
        most = max(routes.at_most(links) for routes in hit.values())
        for workers in WORKERS:
            found = turned_in(start, group, most, workers)
            self.assertEqual(found.keys(), hit.keys())
            for name, routes in hit.items():
                seen.slack[workers][routes.at_most(links) - found[name]] += 1
                self.assertLessEqual(found[name], routes.at_most(links))
                if workers == 1:
                    self.assertEqual(found[name], routes.with_one_worker(links))
        seen.hit += len(hit)
        seen.late.update(routes.with_one_worker(links) - 1 - routes.backup for routes in hit.values())


class RoutesTest(unittest.TestCase):
    """Where one can count by hand."""

    def test_ids_that_rise_along_the_working_route_have_the_notify_wait(self) -> None:
        rising = Routes((1, 2, 3), (1, 2, 3, 4), 5)
        falling = Routes((1, 2, 3), (8, 7, 6, 5), 5)
        cut = frozenset({3})
        self.assertEqual((rising.at_most(cut), rising.with_one_worker(cut)), (14, 9))
        self.assertEqual((falling.at_most(cut), falling.with_one_worker(cut)), (14, 6))

    def test_the_nearest_cut_counts(self) -> None:
        routes = Routes((1, 2, 3), (1, 2, 3, 4), 5)
        self.assertEqual([routes.at_most(frozenset(cut)) for cut in ({1}, {2, 3}, {1, 3})], [12, 13, 12])
        self.assertEqual([routes.with_one_worker(frozenset(cut)) for cut in ({1}, {2, 3}, {1, 3})], [7, 8, 7])

    def test_a_ring_turns_after_nine_rounds_of_fourteen(self) -> None:
        # The example's call goes over the links 1 to 3, up the ids, and its backup over the other five.
        ring = plan.read((EXAMPLES / "rounds.toml").read_text())
        asked = Cuts(cuts.standing(replace(ring, script=ring.script[:2])), cuts.single_cuts(ring))
        found = {it.name: it.rounds for it in asked.outcomes(studies.made(asked.study(), Way(1)).values)}
        told = {f"link {d}": Rounds(6 + d, 6 + d, 11 + d) for d in (1, 2, 3)}
        self.assertEqual(found, told | {f"link {number}": None for number in range(4, 9)})

    def test_a_number_that_the_routes_do_not_tell_is_sought(self) -> None:
        # As if frames had been dropped: the run is one of nine rounds, whatever was reckoned.
        ring = plan.read((EXAMPLES / "rounds.toml").read_text())
        start = cuts.standing(replace(ring, script=ring.script[:2]))
        for rounds in (3, 40):
            found = cuts.after(start.plan, Order((Group("link", 3),), ("c1",), ("c1",), rounds))
            self.assertEqual(found, {"calls": {"c1": ["turned", True]}, "rounds": 9})

    def test_a_call_that_never_turns_has_no_number(self) -> None:
        # Both its routes are cut.
        ring = plan.read((EXAMPLES / "rounds.toml").read_text())
        start = cuts.standing(replace(ring, script=ring.script[:2]))
        found = cuts.after(start.plan, Order((Group("link", 4), Group("link", 3)), ("c1",), ("c1",), 9))
        self.assertEqual(found, {"calls": {"c1": ["stuck", False]}, "rounds": None})

    def test_no_number_is_told_where_the_network_is_not_calm(self) -> None:
        ring = plan.read((EXAMPLES / "rounds.toml").read_text())
        start = cuts.standing(replace(ring, script=[*ring.script[:2], "fail link 7", "settle 100"]))
        self.assertFalse(start.survey.calm)
        self.assertEqual((start.hit(frozenset({1})), start.turning((Group("link", 1),), frozenset({1}))), (("c1",), {}))


if __name__ == "__main__":
    unittest.main()
