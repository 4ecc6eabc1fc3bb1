"""What risk groups would hit, and which calls would contend; and two groups without a contend, which fail in any order."""

import itertools
import random
import unittest
from dataclasses import replace

import ason
from ason_tools import surveys
from ason_tools.groups import Group
from ason_tools.plan import Link, Node, Plan
from ason_tools.program import DONE, EVENT_LIMIT, PLAN_REFUSED, USAGE

from .support import ason_told
from .test_answers import A_TO_B, LOOP, PAIR, USAGE_LINE, network

DIAMOND = Plan(
    [Node(name, number, convert=False) for number, name in enumerate("abcd", 1)],
    [Link(number, (pair[0], pair[1]), 2) for number, pair in enumerate(("ad", "bd", "ac", "bc", "cd"), 1)],
    ["setup c1 a d", "settle 100", "setup c2 b d"],
)
"""Two calls over links 1 and 2, whose backups go over link 5."""

TOGETHER = replace(DIAMOND, links=[replace(link, srlgs=(7,) if link.id < 3 else ()) for link in DIAMOND.links])
"""The same, where links 1 and 2 are of one risk group, so that the backups have a label each."""

BOTH = ["group link 1 guarded c1 bare -", "group link 2 guarded c2 bare -"]
CONTEND = "contend link 1 link 2 5/1 d c1 c2"


def surveyed(plan: Plan) -> list[str]:
    """The lines of the plan's survey."""
    ended = ason_told("survey", given=plan.text())
    assert ended.status == DONE, ended
    return ended.out.splitlines()


def then(*lines: str) -> Plan:
    """The two calls, and then these lines."""
    return replace(DIAMOND, script=[*DIAMOND.script, "settle 100", *lines])


class SurveyTest(unittest.TestCase):
    """The survey of one table."""

    def test_two_backups_on_one_label_contend(self) -> None:
        self.assertEqual(surveyed(DIAMOND), ["survey calm yes", *BOTH, CONTEND])

    def test_a_group_of_both_working_routes_hits_both_calls(self) -> None:
        self.assertEqual(surveyed(TOGETHER), ["survey calm yes", "group srlg 7 guarded c1,c2 bare -", *BOTH])

    def test_a_call_without_a_backup_is_bare(self) -> None:
        lines = ["survey calm yes", "group link 1 guarded - bare c1"]
        self.assertEqual(surveyed(replace(PAIR, script=[A_TO_B])), lines)

    def test_the_pairs_of_an_srlg_with_a_link(self) -> None:
        links = [replace(link, srlgs=(7,) if link.id == 1 else ()) for link in DIAMOND.links]
        lines = ["survey calm yes", "group srlg 7 guarded c1 bare -", *BOTH, "contend srlg 7 link 2 5/1 d c1 c2", CONTEND]
        self.assertEqual(surveyed(replace(DIAMOND, links=links)), lines)

    def test_a_network_without_a_call(self) -> None:
        self.assertEqual(surveyed(PAIR), ["survey calm yes"])

    def test_nothing_of_the_run_is_printed(self) -> None:
        lines = surveyed(then("show", "fail link 4", "settle 1", "repair link 4", "show"))
        self.assertEqual(lines, ["survey calm yes", *BOTH, CONTEND])

    def test_a_failure_is_no_calm(self) -> None:
        hit = ["survey calm no", *BOTH, CONTEND]
        for lines in (["fail link 4"], ["fail link 1"], ["fail link 1", "settle 100", "repair link 1"]):
            with self.subTest(lines=lines):
                self.assertEqual(surveyed(then(*lines)), hit)
        back = then("fail link 1", "settle 100", "repair link 1", "settle 100", "revert c1")
        self.assertEqual(surveyed(back), ["survey calm yes", *BOTH, CONTEND])

    def test_a_run_that_stops_is_not_surveyed(self) -> None:
        script: list[str] = []
        for group in range(163):
            calls = [f"c{group}-{number}" for number in range(25)]
            script += [f"setup {call} a c unprotected via 1,2" for call in calls] + ["settle 1000"]
            script += [f"release {call}" for call in calls] + ["settle 1000"]
        row = replace(network("abc", "ab", "bc", labels=80), script=script)
        ended = ason_told("survey", given=row.text())
        self.assertEqual((ended.status, ended.out), (EVENT_LIMIT, "stopped at limit b\n"))

    def test_a_faulty_plan_is_refused(self) -> None:
        ended = ason_told("survey", given=LOOP.text())
        self.assertEqual((ended.status, ended.out), (PLAN_REFUSED, "refused plan link 1 ends\n"))

    def test_further_words_have_no_meaning(self) -> None:
        ended = ason_told("survey", "a", given=PAIR.text())
        self.assertEqual((ended.status, ended.out), (USAGE, USAGE_LINE))


class ReadTest(unittest.TestCase):
    """Surveys as values."""

    def test_a_survey_has_its_groups_and_calls(self) -> None:
        told = ason.survey(DIAMOND.text())
        one, two = Group("link", 1), Group("link", 2)
        self.assertTrue(told.calm)
        self.assertEqual(told.hits, (ason.Hit(one, ("c1",), ()), ason.Hit(two, ("c2",), ())))
        self.assertEqual(told.between(two, one), (ason.Contend(one, two, 5, 1, "d", "c1", "c2"),))
        self.assertEqual(told.between(one, Group("link", 3)), ())

    def test_what_is_no_survey(self) -> None:
        for text in ("", "calls 0 legs 0\n", "survey calm yes\nleg\n", "survey calm yes\ngroup link 1 guarded c1\n"):
            with self.subTest(text=text), self.assertRaises(ason.ToolError):
                surveys.read(text)


PLANS = 200


def random_plan(chance: random.Random) -> Plan:
    """Three or four nodes, each joined to two hubs that are joined too, with few labels and some links more. Protected calls,
    each set up before the next one, go mostly to a hub, and their backups over the other one, where they share labels."""
    names = "abcd"[: chance.randint(3, 4)]
    nodes = [Node(name, number, convert=chance.random() < 0.5) for number, name in enumerate([*names, "x", "y"], 1)]
    ends = [(name, hub) for name in names for hub in "xy"] + [("x", "y")]
    ends += [(one, two) for one, two in (chance.sample(names, 2) for _ in range(chance.randint(0, 2)))]
    links = [
        Link(number, pair, chance.randint(1, 3), srlgs=(7,) * (chance.random() < 0.2)) for number, pair in enumerate(ends, 1)
    ]
    calls = [chance.choice(ends[:-1]) if chance.random() < 0.7 else chance.sample(names, 2) for _ in range(chance.randint(3, 5))]
    script = [line for number, pair in enumerate(calls) for line in (f"setup c{number} {' '.join(pair)}", "settle 100")]
    return Plan(nodes, links, script)


def both_fail(plan: Plan, one: Group, two: Group, pause: bool) -> list[str]:
    """The one group fails and then the other one; both are repaired, and each call goes back."""
    calls = [line.split()[1] for line in plan.script if line.startswith("setup")]
    cut = [f"fail {one.text()}", *["settle 100"] * pause, f"fail {two.text()}", "settle 100", "show"]
    whole = [f"repair {one.text()}", f"repair {two.text()}", "settle 100"]
    return [*cut, *whole, *(f"revert {call}" for call in calls), "settle 100", "show"]


class ContendTest(unittest.TestCase):
    """Two groups of random plans fail."""

    def busy_after(self, plan: Plan, pairs: list[tuple[Group, Group]], pause: bool) -> list[bool]:
        """Whether a call is busy where both groups have failed. Behind each pair the network is again as it was."""
        cuts = [line for one, two in pairs for line in both_fail(plan, one, two, pause)]
        tables = ason.run(replace(plan, script=[*plan.script, "show", *cuts]).text()).tables
        first, cut, back = tables[0], tables[1:-1:2], tables[2:-1:2]
        self.assertEqual(len(cut), len(pairs))
        self.assertTrue(all(table == first for table in back))
        return [any(call.cause == "busy" for call in table.calls) for table in cut]

    def test_two_groups_without_a_contend_make_no_call_busy(self) -> None:
        chance = random.Random(20)
        contended = 0
        for number in range(PLANS):
            plan = random_plan(chance)
            told = ason.survey(plan.text())
            # The other groups hit no call, so that no backup is activated for them.
            pairs = list(itertools.permutations((hit.group for hit in told.hits), 2))
            apart = [pair for pair in pairs if not told.between(*pair)]
            with self.subTest(plan=number):
                self.assertTrue(told.calm)
                self.assertFalse(any(self.busy_after(plan, apart, chance.random() < 0.5)))
            together = [pair for pair in pairs if told.between(*pair)]
            contended += sum(self.busy_after(plan, together, True))
        # So that it isn't in vain: groups that are told do make calls busy.
        self.assertGreater(contended, PLANS)


if __name__ == "__main__":
    unittest.main()
