"""`run --trace` and `check`: the trace of a run."""

import subprocess
import tempfile
import unittest
from collections import Counter
from dataclasses import replace

from ason_tools.program import DONE, EVENT_LIMIT, NOT_RUN, PLAN_REFUSED, WRITE_FAULT, program_path

from .support import EXAMPLES, ason_told
from .test_answers import A_TO_B, LONE, LOOP, PAIR, at_most_five_bytes
from .test_restoring import triangle

TWO_TICKS = """\
script = ["wait 2"]
[[node]]
name = "a"
id = 1
"""
TWO_TICKS_TRACE = f"""\
ason-trace 2
plan 47
{TWO_TICKS}
events 2
1 a tick
2 a tick
table
calls 0 legs 0
end
"""
# A frame that is lost, one that comes twice and one that is held, and one that spells nothing.
DISTURBED = ["lose a b 1", "repeat b c 1", "hold a c 1", "noise a b 00", "setup c1 a c"]


class TraceTest(unittest.TestCase):
    """Runs whose traces are told."""

    def lines(self, text: str) -> list[str]:
        """The lines of the events."""
        behind = text.split("\nevents ", 1)[1].splitlines()
        count = int(behind[0])
        self.assertEqual(behind[1 + count], "table")
        return behind[1 : 1 + count]

    def test_two_ticks(self) -> None:
        for words in (["--trace"], ["--stride", "3", "--trace", "--workers", "1"]):
            with self.subTest(words=words):
                ended = ason_told("run", *words, given=TWO_TICKS)
                self.assertEqual((ended.status, ended.out), (DONE, TWO_TICKS_TRACE))

    def test_a_trace_has_the_plan_and_the_last_table(self) -> None:
        for example in ("nsfnet", "lossy", "contended"):
            with self.subTest(example=example):
                plan = (EXAMPLES / f"{example}.toml").read_text()
                ended = ason_told("run", "--trace", given=plan)
                self.assertEqual(ended.status, DONE)
                self.assertTrue(ended.out.startswith(f"ason-trace 2\nplan {len(plan.encode())}\n{plan}\nevents "))
                table = ended.out.rsplit("\ntable\n", 1)[1]
                printed = ason_told("run", given=plan).out
                self.assertTrue(printed.endswith(table.removesuffix("end\n")))

    def test_events_rise(self) -> None:
        for words in ([], ["--workers", "4"]):
            with self.subTest(words=words):
                ended = ason_told("run", "--trace", *words, given=triangle(DISTURBED))
                places = [(int(stamp), node != "-", node) for stamp, node, *_ in map(str.split, self.lines(ended.out))]
                self.assertEqual(places, sorted(set(places)))

    def test_what_happens_to_frames(self) -> None:
        """Of the frames from one node to the other the one that the line names has so many lines, each other one has one."""
        for line, times in (("lose a b 1", 0), ("repeat a b 1", 2), ("hold a b 1", 1)):
            with self.subTest(line=line):
                plan = replace(PAIR, script=[line, A_TO_B]).text()
                told = [what.split(" ")[1:] for what in self.lines(ason_told("run", "--trace", given=plan).out)]
                taken = Counter(int(what[3]) for what in told if what[:3] == ["b", "deliver", "a"])
                frames = [taken[number] for number in range(1, max(taken) + 1)]
                self.assertEqual(sorted(frames), sorted([times] + [1] * (len(frames) - 1)))

    def test_each_end_of_a_link_is_told_once(self) -> None:
        """It fails twice and is repaired. Each end handles its items at its next turn, behind the tick, and rests after that."""
        script = ["fail link 1", "fail link 1", "wait 1", "repair link 1", "wait 1", "wait 1", "fail link 1", "repair link 1"]
        lines = self.lines(ason_told("run", "--trace", given=replace(PAIR, script=script).text()).out)
        behind = [line.split(" ")[1:] for line in lines[[" post " in line for line in lines].index(True) :]]
        for node in "ab":
            with self.subTest(node=node):
                told = [kind for who, kind, *_ in behind if who == node and kind != "deliver"]
                self.assertEqual(told, ["tick", "desk", "tick", "desk", "tick", "tick", "desk", "desk"])

    def test_posts_and_noise(self) -> None:
        lines = [line.split(" ", 1)[1] for line in self.lines(ason_told("run", "--trace", given=triangle(DISTURBED)).out)]
        self.assertEqual([line for line in lines if " noise " in line], ["b noise a 00"])
        self.assertEqual([line for line in lines if line.startswith("- ")], ["- post setup c1 a c"])

    def test_a_run_that_stops(self) -> None:
        plan = replace(LONE, script=["show", *["wait 10000"] * 5, "wait 1"])
        ended = ason_told("run", "--trace", given=plan.text())
        self.assertEqual((ended.status, ended.out), (EVENT_LIMIT, "stopped at limit a\n"))

    def test_a_plan_with_a_fault(self) -> None:
        ended = ason_told("run", "--trace", given=LOOP.text())
        self.assertEqual((ended.status, ended.out), (PLAN_REFUSED, "refused plan link 1 ends\n"))

    def test_an_output_that_fails(self) -> None:
        with tempfile.TemporaryFile() as file:
            command = [program_path(), "run", "--trace"]
            plan = PAIR.text().encode()
            ended = subprocess.run(command, input=plan, stdout=file, preexec_fn=at_most_five_bytes, check=False)
            file.seek(0)
            self.assertEqual((ended.returncode, file.read()), (WRITE_FAULT, b"ason-"))


class Checking(unittest.TestCase):
    """What `check` tells of a trace."""

    def told(self, trace: str, status: int, text: str) -> None:
        ended = ason_told("check", given=trace)
        self.assertEqual((ended.status, ended.out), (status, text))


class CheckTest(Checking):
    """Traces that are checked."""

    def test_two_ticks(self) -> None:
        self.told(TWO_TICKS_TRACE, DONE, "run of 2 events\ncalls 0 legs 0\n")

    def test_what_a_run_told_is_a_run(self) -> None:
        for words in ([], ["--workers", "4"]):
            for example in ("nsfnet", "lossy", "contended"):
                with self.subTest(example=example, words=words):
                    trace = ason_told("run", "--trace", *words, given=(EXAMPLES / f"{example}.toml").read_text()).out
                    events = trace.split("\nevents ", 1)[1].split("\n", 1)[0]
                    table = trace.rsplit("\ntable\n", 1)[1].removesuffix("end\n")
                    self.told(trace, DONE, f"run of {events} events\n{table}")

    def test_the_first_wrong_index_is_told(self) -> None:
        for old, new, index in (
            ("ason-trace 2", "ason-trace 3", 0),
            ("plan 47", "plan 46", 0),
            ("events 2", "events two", 0),
            ("1 a tick", "1 b tick", 1),
            ("2 a tick", "1 a tick", 2),
            ("2 a tick", "2 a desk", 2),
            ("events 2", "events 3", 3),
            ("calls 0", "calls 1", 3),
            ("end\n", "end\nend\n", 3),
        ):
            with self.subTest(old=old, new=new):
                self.told(TWO_TICKS_TRACE.replace(old, new), NOT_RUN, f"not a run {index}\n")
        self.told("", NOT_RUN, "not a run 0\n")

    def test_a_frame_that_was_not_sent(self) -> None:
        plan = PAIR.text()
        trace = f"ason-trace 2\nplan {len(plan)}\n{plan}\nevents 1\n1 b deliver a 1\ntable\ncalls 0 legs 0\nend\n"
        self.told(trace, NOT_RUN, "not a run 1\n")

    def test_a_plan_with_a_fault(self) -> None:
        plan = LOOP.text()
        self.told(f"ason-trace 2\nplan {len(plan)}\n{plan}\n", PLAN_REFUSED, "refused plan link 1 ends\n")


class FirstVersionTest(Checking):
    """Traces of version 1, whose events are replayed anew."""

    def trace(self, plan: str, events: list[str], table: str = "calls 0 legs 0") -> str:
        """The trace of version 1 with these events, or what an earlier machine took for one."""
        lines = "".join(line + "\n" for line in events)
        return f"ason-trace 1\nplan {len(plan)}\n{plan}\nevents {len(events)}\n{lines}table\n{table}\nend\n"

    def test_a_run_loses_nothing(self) -> None:
        trace = self.trace(TWO_TICKS, ["1 a tick", "2 a tick"])
        self.told(trace, DONE, "migrated 0 left out\nrun of 2 events\ncalls 0 legs 0\n")

    def test_what_cannot_happen_is_left_out(self) -> None:
        trace = self.trace(PAIR.text(), ["1 b deliver a 1"])
        self.told(trace, DONE, "migrated 1 left out\nrun of 0 events\ncalls 0 legs 0\n")

    def test_any_table_will_do(self) -> None:
        for table in ("calls 9 legs 9", "no table", "table\n\nend"):
            with self.subTest(table=table):
                trace = self.trace(TWO_TICKS, ["1 a tick", "2 a tick"], table)
                self.told(trace, DONE, "migrated 0 left out\nrun of 2 events\ncalls 0 legs 0\n")

    def test_the_form_is_the_same(self) -> None:
        for events, index in ((["1 b tick"], 1), (["2 a tick", "1 a tick"], 2)):
            with self.subTest(events=events):
                self.told(self.trace(TWO_TICKS, events), NOT_RUN, f"not a run {index}\n")
        self.told(self.trace(TWO_TICKS, ["1 a tick"]) + "more\n", NOT_RUN, "not a run 2\n")

    def test_no_plan_had_two_way_calls(self) -> None:
        plan = replace(PAIR, script=["setup c1 a b unprotected both"]).text()
        self.told(self.trace(plan, []), PLAN_REFUSED, "refused plan script 1 words\n")
        second = self.trace(plan, []).replace("ason-trace 1", "ason-trace 2", 1)
        self.told(second, DONE, "run of 0 events\ncalls 0 legs 0\n")


if __name__ == "__main__":
    unittest.main()
