"""`run --watch NODE`: what a viewer of a node reads at the end."""

import unittest
from dataclasses import replace

from ason_tools.program import DONE, PLAN_REFUSED

from .support import EXAMPLES, ason_told
from .test_answers import A_TO_B, LONE, PAIR
from .test_traces import TWO_TICKS


class ViewTest(unittest.TestCase):
    """Runs beside which a node is watched."""

    def test_two_ticks(self) -> None:
        for words in (["--watch", "a"], ["--stride", "1", "--watch", "a", "--workers", "2"]):
            with self.subTest(words=words):
                ended = ason_told("run", *words, given=TWO_TICKS)
                self.assertEqual((ended.status, ended.out), (DONE, "calls 0 legs 0\nview a entries 2\n"))

    def test_no_such_node(self) -> None:
        for name in ("z", "", "--trace", "A"):
            with self.subTest(name=name):
                ended = ason_told("run", "--watch", name, given=TWO_TICKS)
                self.assertEqual((ended.status, ended.out), (DONE, f"no node {name}\n"))

    def test_a_plan_with_a_fault_is_refused_first(self) -> None:
        ended = ason_told("run", "--watch", "z", given=TWO_TICKS + "id = 2\n")
        self.assertEqual(ended.status, PLAN_REFUSED)

    def test_the_view_has_the_legs_of_the_last_table(self) -> None:
        for example, node in (("nsfnet", "Princeton"), ("shared", "c"), ("lossy", "b"), ("turned", "a")):
            for workers in ("1", "3"):
                with self.subTest(example=example, workers=workers):
                    plan = (EXAMPLES / f"{example}.toml").read_text()
                    out = ason_told("run", "--workers", workers, "--watch", node, given=plan).out
                    table, view = out.split(f"view {node} entries ")
                    legs = table.rsplit("calls ", 1)[1].splitlines()[1:]
                    self.assertEqual(view.splitlines()[1:], [leg for leg in legs if leg.startswith("leg ") and leg.split()[2] == node])
                    self.assertGreater(int(view.splitlines()[0]), 0)
                    if workers == "1":
                        self.assertEqual(table, ason_told("run", given=plan).out)

    def test_noise_behind_the_last_round_is_not_counted(self) -> None:
        settled = [A_TO_B, "settle 100"]
        noise = ["noise a b 00", "noise a b 01"]
        for script, behind in ((settled, 0), (settled + noise, 2), (settled + noise + ["wait 1"], 0)):
            with self.subTest(script=script):
                plan = replace(PAIR, script=script).text()
                view = ason_told("run", "--watch", "b", given=plan).out.split("view b entries ")[1]
                events = ason_told("run", "--trace", given=plan).out.split("\nevents ")[1].split("\ntable\n")[0].splitlines()[1:]
                written = [event for event in events if event.split()[1] == "b"]
                self.assertEqual(int(view.split()[0]), len(written) - behind)

    def test_a_node_where_no_round_was_made(self) -> None:
        # All is quiet from the start, so no round is made.
        ended = ason_told("run", "--watch", "a", given=replace(LONE, script=[]).text())
        self.assertEqual((ended.status, ended.out), (DONE, "calls 0 legs 0\nview a entries 0\n"))
