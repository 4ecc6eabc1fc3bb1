"""`tools/study-erlang`: what theory says of it, what a network without controllers does of the same calls, and what can't be studied."""

import csv
import io
import json
import math
import tempfile
import unittest
from dataclasses import replace
from pathlib import Path
from xml.etree import ElementTree

from ason_tools import arrivals, plan
from ason_tools.arrivals import Demand, Kind, Order, Traffic
from ason_tools.plan import Link, Node, Plan
from ason_tools.routes import by_hops, least_route

from .support import EXAMPLES, tool

LABELS = 4
PAIR = Plan([Node("a", 1), Node("b", 2)], [Link(1, ("a", "b"), LABELS)])
LOADS = [1.0, 2.0, 3.0, 4.0, 6.0]


def erlang_b(servers: int, load: float) -> float:
    """The share of calls that a group of so many servers loses (Erlang, 1917)."""
    terms = [load**count / math.factorial(count) for count in range(servers + 1)]
    return terms[-1] / sum(terms)


def blocked_by_hand(network: Plan, calls: list[arrivals.Arrival]) -> set[str]:
    """The calls that are blocked in a network of fibres with so many labels each, where every node converts."""
    held: dict[tuple[int, str], list[float]] = {(link.id, end): [] for link in network.links for end in link.ends}
    blocked = set()
    for call in calls:
        node, fibres = call.source, []
        for link in least_route(network, call.source, call.target, by_hops):
            fibres.append((link.id, node))
            node = link.other(node)
        for fibre in fibres:
            held[fibre] = [goes for goes in held[fibre] if goes > call.comes]
        if all(len(held[number, end]) < network.link(number).labels for number, end in fibres):
            for fibre in fibres:
                held[fibre].append(call.goes)
        else:
            blocked.add(call.name)
    return blocked


class TheoryTest(unittest.TestCase):
    """One link, of which theory tells all."""

    def study(self, *words: str, network: Plan = PAIR) -> list[dict[str, str]]:
        ended = tool("study-erlang", "-", *words, "--csv", given=network.text())
        self.assertEqual((ended.status, ended.err), (0, ""))
        return list(csv.DictReader(io.StringIO(ended.out)))

    def test_one_link_is_erlang_b(self) -> None:
        with tempfile.TemporaryDirectory() as room:
            path = Path(room) / "demand"
            path.write_text("a b 1\n")
            words = ("--demand", str(path), "--arrivals", "1200", "--seeds", "8")
            rows = self.study(*words, "--least", "1", "--most", "4", "--step", "1")
            rows += self.study(*words, "--least", "6", "--most", "6")
        self.assertEqual([float(row["erlang"]) for row in rows], LOADS)
        for load, row in zip(LOADS, rows):
            with self.subTest(load=load):
                self.assertEqual(row["calls"], str(8 * 1200))
                self.assertLess(float(row["least"]), erlang_b(LABELS, load))
                self.assertGreater(float(row["most"]), erlang_b(LABELS, load))
                # The interval is narrow enough to tell four labels from three and from five.
                self.assertLess(float(row["most"]), erlang_b(LABELS - 1, load))
                self.assertGreater(float(row["least"]), erlang_b(LABELS + 1, load))

    def test_one_way_calls_have_a_fibre_for_each_direction_and_two_way_calls_one_for_both(self) -> None:
        words = ("--least", "4", "--most", "4", "--arrivals", "1200", "--seeds", "8")
        for more, load in (((), 2.0), (("--both",), 4.0)):
            row = self.study(*words, *more)[0]
            self.assertLess(float(row["least"]), erlang_b(LABELS, load))
            self.assertGreater(float(row["most"]), erlang_b(LABELS, load))

    def test_each_call_is_blocked_that_finds_a_full_fibre(self) -> None:
        nsfnet = plan.read((EXAMPLES / "nsfnet.toml").read_text()).with_labels(4)
        asked = Traffic(nsfnet, arrivals.uniform(nsfnet), 300, 2.0, 7, by_hops=True)
        for seed in (1, 2):
            order = Order(40.0, seed)
            calls = arrivals.arrivals(asked, order)
            blocked = blocked_by_hand(nsfnet, calls)
            wanted = [call.name for call in calls if call.comes >= 2.0 and call.name in blocked]
            self.assertGreater(len(wanted), 10)
            self.assertEqual(arrivals.counted(asked, order), {"calls": 300, "blocked": {"set": len(wanted)}, "bare": {}})

    def test_a_call_without_a_second_way_is_bare(self) -> None:
        asked = Traffic(PAIR, arrivals.uniform(PAIR), 50, 0.0, 1, Kind.PROTECTED)
        found = arrivals.counted(asked, Order(0.5, 1))
        # Half a call stands at a time, so none of fifty is blocked by four labels; and there is no way for a backup.
        self.assertEqual(found, {"calls": 50, "blocked": {}, "bare": {"nobackup": 50}})

    def test_transparent_nodes_block_more(self) -> None:
        line = Plan([Node(name, number) for number, name in enumerate("abcd", 1)], [Link(it, ("abcd"[it - 1], "abcd"[it]), 4) for it in (1, 2, 3)])
        words = ("--least", "6", "--most", "6", "--arrivals", "800", "--seeds", "4")
        shares = [float(self.study(*words, more, network=line)[0]["blocked"]) for more in ("--convert", "--no-convert")]
        self.assertLess(shares[0], shares[1])


class DemandTest(unittest.TestCase):
    """Between which nodes calls are asked for."""

    THREE = replace(PAIR, nodes=[*PAIR.nodes, Node("c", 3)])

    def test_weights_of_nodes_are_multiplied(self) -> None:
        found = arrivals.by_text(self.THREE, "a 2 # a city\n\nb 3\nc 0\n")
        self.assertEqual(found, (Demand("a", "b", 6.0), Demand("b", "a", 6.0)))

    def test_setups_are_counted(self) -> None:
        script = ["setup c1 a b unprotected", "settle 9", "setup c2 a b", "setup c3 b a both"]
        self.assertEqual(arrivals.by_setups(replace(PAIR, script=script)), (Demand("a", "b", 2.0), Demand("b", "a", 1.0)))

    def test_calls_are_drawn_by_weight(self) -> None:
        demands = (Demand("a", "b", 3.0), Demand("b", "a", 1.0))
        drawn = arrivals.arrivals(Traffic(PAIR, demands, 2000, 0.0, 1), Order(1.0, 1))
        # Of 2,000 calls 1,500 are expected, with a deviation of 19.4.
        self.assertLess(abs(sum(call.source == "a" for call in drawn) - 1500), 4 * 19.4)

    def test_what_is_no_demand(self) -> None:
        cases = {
            "a b": "line 1 isn't FROM TO WEIGHT or NODE WEIGHT, with a weight from 0 on",
            "a b -1": "line 1 isn't FROM TO WEIGHT or NODE WEIGHT, with a weight from 0 on",
            "a b nan": "line 1 isn't FROM TO WEIGHT or NODE WEIGHT, with a weight from 0 on",
            "\na B1 1": "line 2: no node of the plan has the name 'B1' (did you mean 'b'?)",
            "a b 1\nb 2": "some lines have a node and a weight, and others two nodes and a weight",
            "a b 0": "no two different nodes have a demand above 0",
            "": "no two different nodes have a demand above 0",
        }
        with tempfile.TemporaryDirectory() as room:
            path = Path(room) / "demand"
            for text, sentence in cases.items():
                path.write_text(text)
                ended = tool("study-erlang", "-", "--demand", str(path), given=PAIR.text())
                self.assertEqual((ended.status, ended.out, ended.err), (2, "", f"study-erlang: {path}: {sentence}\n"))
        ended = tool("study-erlang", "-", "--demand", "setups", given=PAIR.text())
        self.assertEqual(ended.err, "study-erlang: the standard input: its script has no setup, of which demands could be taken\n")


class StatisticsTest(unittest.TestCase):
    """Means and intervals."""

    def test_points_of_students_distribution(self) -> None:
        # From the usual table of the distribution.
        for freedom, point in ((1, 12.706), (9, 2.262), (29, 2.045), (40, 2.021), (60, 2.000), (120, 1.980)):
            self.assertAlmostEqual(arrivals.student(freedom), point, delta=0.0006)

    def test_an_interval(self) -> None:
        # The mean is 0.2, the deviation 0.1, and the interval 4.303 times 0.1 by the root of 3 wide on each side.
        found = arrivals.interval([0.1, 0.2, 0.3])
        self.assertAlmostEqual(found.mean, 0.2)
        self.assertAlmostEqual(found.most, 0.2 + 4.303 * 0.1 / math.sqrt(3), places=4)
        self.assertEqual(found.least, 0.0)
        # Of 200 calls none is blocked with a chance of 5 % where each is with 1 - 0.05 ** (1 / 200).
        none = arrivals.load_of(1.0, [{"calls": 100, "blocked": {}, "bare": {}}] * 2).blocked
        self.assertEqual((none.mean, none.least), (0.0, 0.0))
        self.assertAlmostEqual(none.most, 1 - 0.05 ** (1 / 200), places=3)
        self.assertEqual(arrivals.interval([0.4]), arrivals.Interval(0.4, 0.0, 1.0))


class ToolTest(unittest.TestCase):
    """The tool itself."""

    WORDS = ("--least", "2", "--most", "6", "--step", "2", "--arrivals", "60", "--seeds", "2")

    def test_each_form_has_each_load(self) -> None:
        told = tool("study-erlang", "-", *self.WORDS, given=PAIR.text()).out.splitlines()
        self.assertEqual([line.split()[:2] for line in told[1:]], [["2", "120"], ["4", "120"], ["6", "120"]])
        rows = json.loads(tool("study-erlang", "-", *self.WORDS, "--json", given=PAIR.text()).out)
        self.assertEqual([(row["erlang"], f"{row['blocked']['mean']:.4f}") for row in rows], [(float(it.split()[0]), it.split()[2]) for it in told[1:]])
        root = ElementTree.fromstring(tool("study-erlang", "-", *self.WORDS, "--svg", given=PAIR.text()).out)
        self.assertEqual(len(root.findall("{*}circle")), 3)

    def test_the_plan_of_a_run_is_a_plan(self) -> None:
        ended = tool("study-erlang", "-", *self.WORDS, "--plan", "2", given=PAIR.text())
        script = plan.read(ended.out).script
        self.assertEqual(len([line for line in script if line.startswith("setup")]), len(arrivals.arrivals(Traffic(PAIR, arrivals.uniform(PAIR), 60, 5.0, 1), Order(2.0, 2))))

    def test_what_can_not_be_studied(self) -> None:
        loads = "--least is above 0, --most at least that, --step above 0, and there are at most 1,000 loads"
        fewer = "fewer --arrivals or a shorter --warm-up"
        cases = [
            (["--least", "0"], loads),
            (["--step", "0"], loads),
            (["--least", "9", "--most", "8"], loads),
            (["--labels", "81"], "--labels is 1 to 80"),
            (["--seeds", "0"], "--arrivals and --seeds are at least 1, and --warm-up is at least 0"),
            (["--arrivals", "9000"], f"10 Erlang need more than 4,096 setups, which no plan has: {fewer}"),
        ]
        for words, sentence in cases:
            ended = tool("study-erlang", "-", *words, given=PAIR.text())
            self.assertEqual((ended.status, ended.out, ended.err), (2, "", f"study-erlang: {sentence}\n"))
        ended = tool("study-erlang", "-", "--arrivals", "4000", "--warm-up", "0", given=PAIR.text())
        self.assertRegex(ended.err, rf"\Astudy-erlang: \d+ Erlang need 1\d,\d\d\d lines, and a plan has 10,000: {fewer}\n\Z")


if __name__ == "__main__":
    unittest.main()
