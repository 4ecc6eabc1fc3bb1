"""`tools/plan-grow`: what each step carries where one can say it by hand, the ways, and what can't be planned with."""

import csv
import io
import json
import os
import random
import signal
import subprocess
import sys
import tempfile
import time
import unittest
from collections import Counter
from itertools import combinations
from pathlib import Path
from xml.etree import ElementTree

from ason_tools import growing, plan, program, studies
from ason_tools.kways import Ways
from ason_tools.plan import Link, Node, Plan
from ason_tools.refusals import refusals

from .support import TOOLS, take_interrupts, tool


def network(script: list[str], links: list[tuple[str, int]], convert: bool = True, names: str = "abc") -> Plan:
    """Links between nodes of one letter, each with so many labels."""
    nodes = [Node(name, number, convert) for number, name in enumerate(names, 1)]
    return Plan(nodes, [Link(number, (ends[0], ends[1]), labels) for number, (ends, labels) in enumerate(links, 1)], script)


def setups(*ends: str, kind: str = " unprotected") -> list[str]:
    """A setup between each two nodes."""
    return [f"setup c{number} {pair[0]} {pair[1]}{kind}" for number, pair in enumerate(ends, 1)]


def grown(given: Plan, *words: str) -> list[list[int]]:
    """Of each step the labels that it added, those in all, the calls that are carried, and that are blocked."""
    ended = tool("plan-grow", "-", *words, "--csv", given=given.text())
    assert (ended.status, ended.err) == (0, ""), ended
    names = ("added", "labels", "carried", "blocked")
    return [[int(row[name]) for name in names] for row in csv.DictReader(io.StringIO(ended.out))]


# From a to b lead link 1 and the way over c. Each has a label, and all calls want link 1.
TRIANGLE = [("ab", 1), ("ac", 1), ("cb", 1)]


class StepsTest(unittest.TestCase):
    """What each step carries."""

    def test_other_ways_and_labels_together_carry_more_than_each_alone(self) -> None:
        given = network(setups("ab", "ab", "ab"), TRIANGLE)
        self.assertEqual(grown(given, "--budget", "0"), [[0, 0, 1, 2], [0, 0, 2, 1]])
        self.assertEqual(grown(given, "--ways", "1", "--budget", "1"), [[0, 0, 1, 2], [1, 1, 2, 1]])
        self.assertEqual(grown(given, "--budget", "1"), [[0, 0, 1, 2], [0, 0, 2, 1], [1, 1, 3, 0]])

    def test_on_a_network_of_60_nodes_both_carry_more_than_each_alone(self) -> None:
        words = ("--labels", "4", "--most", "130", "--step", "130", "--plan", "1")
        given = plan.read(tool("study-load", "examples/sixty.toml", *words).out)
        both = grown(given, "--budget", "16")
        labels = grown(given, "--budget", "16", "--ways", "1")
        ways = grown(given, "--budget", "0")
        self.assertTrue(all(rows[-1][1] <= 16 for rows in (both, labels)))
        self.assertEqual(both[:2], ways)
        self.assertGreater(both[-1][2], max(labels[-1][2], ways[-1][2]))

    def test_a_label_carries_calls_of_both_directions(self) -> None:
        given = network(setups("ab", "ba", "ab", "ba"), [("ab", 1)], names="ab")
        self.assertEqual(grown(given), [[0, 0, 2, 2], [1, 1, 4, 0]])

    def test_a_two_way_call_takes_both_directions(self) -> None:
        given = network(setups("ab", "ba", "ab", kind=" unprotected both"), [("ab", 1)], names="ab")
        self.assertEqual(grown(given), [[0, 0, 1, 2], [2, 2, 3, 0]])

    def test_a_transparent_node_needs_one_label_on_both_links(self) -> None:
        links = [("ab", 1), ("bc", 1)]
        calls = setups("ab", "ac")
        # Where b converts link 1 needs a second label; else both links do, since the first one's label 1 is taken.
        self.assertEqual(grown(network(calls, links)), [[0, 0, 1, 1], [1, 1, 2, 0]])
        self.assertEqual(grown(network(calls, links, convert=False)), [[0, 0, 1, 1], [2, 2, 2, 0]])

    def test_a_step_adds_as_many_labels_as_it_may_or_as_one_call_needs(self) -> None:
        given = network(setups(*["ac"] * 5), [("ab", 1), ("bc", 1)])
        self.assertEqual([row[:3] for row in grown(given, "--step", "1")], [[0, 0, 1], [2, 2, 2], [2, 4, 3], [2, 6, 4], [2, 8, 5]])
        self.assertEqual([row[:3] for row in grown(given, "--step", "4")], [[0, 0, 1], [4, 4, 3], [4, 8, 5]])
        self.assertEqual([row[:3] for row in grown(given, "--budget", "3")], [[0, 0, 1], [2, 2, 2]])

    def test_a_link_gets_no_more_labels_than_there_are(self) -> None:
        self.assertEqual(grown(network(setups(*["ab"] * 82), [("ab", 79)], names="ab")), [[0, 0, 79, 3], [1, 1, 80, 2]])

    def test_calls_without_any_way_stay_blocked(self) -> None:
        self.assertEqual(grown(network(setups("ab", "ac"), [("ab", 1)])), [[0, 0, 1, 1]])

    def test_where_all_fit_nothing_is_done(self) -> None:
        told = tool("plan-grow", "-", given=network(setups("ab"), TRIANGLE).text()).out.splitlines()
        self.assertEqual([line.split() for line in told[1:2]], [["as", "it", "is", "0", "0", "1", "0", "0"]])
        self.assertEqual(told[2:], ["1 of 1 calls fit as it is, and 1 with 0 labels more"])

    def test_a_call_that_gets_another_way_lets_the_others_stand(self) -> None:
        given = network(setups("ab", "ab", "ac", "cb"), [("ab", 1), ("ac", 2), ("cb", 2)])
        first = growing.run(growing.Kind.START, {}, given, growing.wanted(given))
        step = growing.next_step(first, Ways(given, 2), growing.NOTHING)
        self.assertEqual([(call.name, call.via) for call in step.calls], [("c1", None), ("c3", None), ("c4", None), ("c2", (2, 3))])
        self.assertEqual(step.carried, 4)


class ToolTest(unittest.TestCase):
    """The tool itself."""

    GIVEN = network(setups("ab", "ab", "ab", "ab"), TRIANGLE)

    def test_the_new_plan_carries_what_the_table_says(self) -> None:
        with tempfile.TemporaryDirectory() as room:
            path = Path(room) / "new.toml"
            ended = tool("plan-grow", "-", "--budget", "2", "--to", str(path), given=self.GIVEN.text())
            made = plan.read(path.read_text())
        self.assertEqual(ended.status, 0)
        self.assertEqual([link.labels for link in made.links], [3, 1, 1])
        self.assertEqual([call.state for call in program.run(made.text()).table.calls], ["bare"] * 4)

    def test_the_fibres_that_refuse_are_told(self) -> None:
        told = tool("plan-grow", "-", "--budget", "0", given=self.GIVEN.text()).out.splitlines()[-3:]
        self.assertEqual(told[0], "1 of 4 calls fit as it is, and 2 with 0 labels more")
        self.assertEqual(told[1], "as it is, calls are refused most by link 1 from a (3)")
        self.assertEqual(told[2], "at the end, calls are refused most by link 1 from a (2)")

    def test_json_and_the_picture_have_each_step(self) -> None:
        found = json.loads(tool("plan-grow", "-", "--step", "1", "--json", given=self.GIVEN.text()).out)
        self.assertEqual([row["step"] for row in found], ["as it is", "reroute", "upgrade", "upgrade"])
        self.assertEqual([row["links"] for row in found], [{}, {}, {"1": 1}, {"1": 1}])
        self.assertEqual(found[0]["refused"], [{"link": 1, "from": "a", "calls": 3}])
        root = ElementTree.fromstring(tool("plan-grow", "-", "--step", "1", "--svg", given=self.GIVEN.text()).out)
        # A point of each step for the calls that are carried, and one for those that are asked for.
        self.assertEqual(len(root.findall("{*}circle")), 8)

    def test_protected_calls_without_a_backup_are_told(self) -> None:
        given = network(setups("ab", "ab", kind=""), [("ab", 2)], names="ab")
        told = tool("plan-grow", "-", given=given.text()).out.splitlines()
        self.assertIn("2 of 2 calls fit as it is, and 2 with 0 labels more, of which 2 stand without the backup that they asked for", told)

    def test_ctrl_c_leaves_the_steps_that_are_done(self) -> None:
        with tempfile.TemporaryDirectory() as room:
            path = Path(room) / "program"
            # The third run has no end.
            path.write_text(f'#!/bin/sh\necho >> "{room}/runs"\n[ "$(wc -l < "{room}/runs")" -lt 3 ] || exec sleep 60\nexec "{program.program_path()}" "$@"\n')
            path.chmod(0o755)
            (Path(room) / "plan.toml").write_text(self.GIVEN.text())
            command = [sys.executable, str(TOOLS / "plan-grow"), str(Path(room) / "plan.toml"), "--csv"]
            how = {"stdout": subprocess.PIPE, "text": True, "start_new_session": True, "preexec_fn": take_interrupts}
            with subprocess.Popen(command, env=os.environ | {"ASON": str(path)}, **how) as process:
                while not (Path(room) / "runs").exists() or len((Path(room) / "runs").read_text()) < 3:
                    time.sleep(0.02)
                os.killpg(process.pid, signal.SIGINT)
                out, _ = process.communicate(timeout=30)
        self.assertEqual(process.returncode, studies.STOPPED)
        self.assertEqual([line.split(",")[0] for line in out.splitlines()], ["step", "as it is", "reroute"])

    def test_what_can_not_be_planned_with(self) -> None:
        cases = [
            (["--ways", "0"], [], "--ways and --step are at least 1, and --budget is at least 0"),
            ([], [], "the standard input: its script has no setup, so there are no calls to carry"),
            ([], ["setup c1 a b", "release c1"], "the standard input: its script line 2 is 'release c1', and only setups can be planned for"),
            ([], ["setup c1 a d"], "the standard input: ason says 'refused plan script 1 node' of the plan (tools/why shows where)"),
        ]
        for words, script, sentence in cases:
            ended = tool("plan-grow", "-", *words, given=network(script, TRIANGLE).text())
            self.assertEqual((ended.status, ended.out, ended.err), (2, "", f"plan-grow: {sentence}\n"))


class WaysTest(unittest.TestCase):
    """The least ways, against all ways on small networks; and which fibre refuses."""

    def test_the_least_ways_are_the_least_of_all(self) -> None:
        chance = random.Random(20261201)
        for _ in range(60):
            names = "abcde"
            pairs = [pair for pair in combinations(names, 2) if chance.random() < 0.7]
            links = [Link(number, pair, 1, chance.randint(1, 4)) for number, pair in enumerate(pairs, 1)]
            given = Plan([Node(name, number) for number, name in enumerate(names, 1)], links)
            costs = sorted(cost for cost, _ in every_way(given, "a", "e"))
            found = Ways(given, 4).between("a", "e")
            metrics = {link.id: link.metric for link in links}
            self.assertEqual([sum(metrics[link] for link in route) for route in found], costs[:4])
            self.assertLessEqual(set(found), {route for _, route in every_way(given, "a", "e")})
            self.assertEqual(len(set(found)), len(found))

    def test_the_fibre_that_refuses_is_the_first_without_a_label(self) -> None:
        given = network(setups("ac", "ab", "ac", "ca", "ca"), [("ab", 2), ("bc", 1)])
        table = program.run(growing.run(growing.Kind.START, {}, given, growing.wanted(given)).plan.text()).table
        # c1 and c2 fill link 1 from a; c4 fills link 2 from c.
        self.assertEqual(refusals(given, table), Counter({(1, "a"): 1, (2, "c"): 1}))


def every_way(given: Plan, source: str, target: str, barred: frozenset[str] = frozenset()) -> list[tuple[int, tuple[int, ...]]]:
    """All ways that come to no node twice, each with its cost."""
    if source == target:
        return [(0, ())]
    steps = [link for link in given.links if source in link.ends and link.other(source) not in barred]
    rest = ((link, way) for link in steps for way in every_way(given, link.other(source), target, barred | {source}))
    return [(link.metric + cost, (link.id, *route)) for link, (cost, route) in rest]


if __name__ == "__main__":
    unittest.main()
