"""Calls that turn to their backups and go back, on a triangle and on rings, and in how many rounds."""

import itertools
import random
import unittest

import ason
from ason_tools.plan import Link, Node, Plan
from ason_tools.tables import Table

from .support import EXAMPLES, tool

SETUPS = ["setup c1 a c", "settle 100", "fail link 3"]
"""A call whose link fails then."""


def triangle(script: list[str], wait: int = 0) -> str:
    """Transparent nodes a, b and c, each joined to the others."""
    nodes = [Node(name, number, convert=False) for number, name in enumerate("abc", 1)]
    ends = (("a", "b"), ("b", "c"), ("a", "c"))
    return Plan(nodes, [Link(number, pair, 2) for number, pair in enumerate(ends, 1)], script, wait).text()


GUARDED = """\
calls 1 legs 5
call c1 a c guarded a.1.1 a.1.2 -
leg a.1.1 a work live - 3/1
leg a.1.1 c work live 3/1 -
leg a.1.2 a back held - 1/1
leg a.1.2 b back held 1/1 2/1
leg a.1.2 c back held 2/1 -
"""


class TriangleTest(unittest.TestCase):
    """One call over one link."""

    def printed(self, plan: str) -> str:
        run = ason.run(plan)
        self.assertEqual(run.status, ason.DONE)
        return run.output.text()

    def test_a_short_cut_ends_where_it_began(self) -> None:
        script = [*SETUPS, "wait 1", "repair link 3", "settle 100", "wait 10"]
        self.assertEqual(self.printed(triangle(script, wait=3)), GUARDED)

    def test_a_call_that_turns_is_released(self) -> None:
        self.assertEqual(self.printed(triangle([*SETUPS, "wait 2", "release c1"])), "calls 0 legs 0\n")

    def test_no_call_goes_back_while_it_is_hit(self) -> None:
        for wait, script in ((3, ["wait 100"]), (0, ["settle 100", "revert c1"])):
            self.assertIn("call c1 a c turned a.1.1 a.1.2 -", self.printed(triangle([*SETUPS, *script], wait)))

    def test_without_a_wait_a_call_goes_back_by_order_alone(self) -> None:
        script = [*SETUPS, "settle 100", "repair link 3", "settle 100", "wait 100"]
        self.assertIn("call c1 a c turned a.1.1 a.1.2 -", self.printed(triangle(script)))
        self.assertEqual(self.printed(triangle([*script, "revert c1"])), GUARDED)


NODES = 14
LABELS = 80


def ring() -> Plan:
    """A ring with links across it, two of whose links are of one risk group, and forty protected calls."""
    nodes = [Node(f"n{number}", number, convert=False) for number in range(1, NODES + 1)]
    around = [(place, place % NODES + 1) for place in range(1, NODES + 1)]
    across = [(place, place + NODES // 2) for place in range(1, NODES // 2 + 1)]
    links = [
        Link(number, (f"n{low}", f"n{high}"), LABELS, srlgs=(7,) if number in (3, 4) else ())
        for number, (low, high) in enumerate(around + across, 1)
    ]
    starts = [(place, 3) for place in range(1, 15)] + [(place, 5) for place in range(1, 15)] + [(place, 7) for place in range(1, 13)]
    calls = [f"setup k{call} n{place} n{(place + steps - 1) % NODES + 1}" for call, (place, steps) in enumerate(starts, 1)]
    script = [line for call in calls for line in (call, "settle 100")]
    script += ["show", "fail srlg 7", "settle 1000", "show", "repair srlg 7", "settle 1000", "wait 5"]
    return Plan(nodes, links, script, wait=2)


def links_of(table: Table, name: str) -> list[int]:
    """The links on which the working LSP of the call goes out, in order."""
    legs = table.legs_of(table.call(name).work)
    return sorted(leg.outgoing.link for leg in legs if leg.outgoing)


class RingTest(unittest.TestCase):
    """One risk group alone fails and is repaired."""

    def test_each_call_that_was_hit_turns_and_goes_back(self) -> None:
        run = ason.run(ring().text())
        self.assertEqual((run.status, run.unsettled, len(run.tables)), (ason.DONE, [], 3))
        before, hit, after = run.tables
        self.assertEqual((before.call("k3").state, links_of(before, "k3")), ("guarded", [3, 4, 5]))
        self.assertNotIn("stuck", [call.state for call in hit.calls])
        turned = hit.call("k3")
        self.assertEqual(turned.state, "turned")
        self.assertEqual({leg.phase for leg in hit.legs_of(turned.backup)}, {"live"})
        self.assertEqual(after, before)

    def test_every_guarded_call_that_was_hit_is_turned(self) -> None:
        before, hit, _ = ason.run(ring().text()).tables
        for call in before.calls:
            if call.state == "guarded":
                wanted = "turned" if {3, 4} & set(links_of(before, call.name)) else "guarded"
                self.assertEqual((call.name, hit.call(call.name).state), (call.name, wanted))


HOPS, BACK = 3, 5
"""The hops of a call around a ring, and those of its backup, which goes the other way round."""


def around(numbers: list[int], cut: int, rounds: int) -> str:
    """A ring of nodes with these numbers, a call over its first links, and the cut of one of them, so many rounds ago."""
    nodes = sorted((Node(f"p{place}", number) for place, number in enumerate(numbers)), key=lambda node: node.id)
    links = [Link(place + 1, (f"p{place}", f"p{(place + 1) % len(numbers)}"), 2) for place in range(len(numbers))]
    script = [f"setup c1 p0 p{HOPS}", "settle 100", f"fail link {cut}", f"wait {rounds}", "show"]
    return Plan(nodes, links, script).text()


class RoundsTest(unittest.TestCase):
    """In how many rounds a call turns, with one worker."""

    def state(self, plan: str) -> str:
        run = ason.run(plan)
        self.assertEqual((run.status, run.unsettled), (ason.DONE, []))
        return run.tables[0].call("c1").state

    def test_a_call_turns_in_just_as_many_rounds_as_the_order_of_its_nodes_says(self) -> None:
        draws = random.Random(7)
        for _ in range(20):
            numbers = draws.sample(range(1, 60), HOPS + BACK)
            for cut in range(1, HOPS + 1):
                # One round for the alarm, one for each hop up which the Notify goes to an earlier node, and the backup's.
                late = sum(near < far for near, far in itertools.pairwise(numbers[: cut + 1]))
                rounds = 1 + late + BACK
                with self.subTest(numbers=numbers, cut=cut):
                    self.assertEqual(self.state(around(numbers, cut, rounds)), "turned")
                    self.assertEqual(self.state(around(numbers, cut, rounds - 1)), "turning")


class PlanTest(unittest.TestCase):
    """The wait of a plan among the tools."""

    def test_a_wait_comes_back(self) -> None:
        text = ring().text()
        self.assertTrue(text.startswith("wait = 2\n"))
        ended = tool("draw", "-", "--network", given=text)
        self.assertEqual((ended.status, ended.err), (0, ""))

    def test_the_example_waits(self) -> None:
        self.assertIn("wait = 3\n", (EXAMPLES / "reverted.toml").read_text())


if __name__ == "__main__":
    unittest.main()
