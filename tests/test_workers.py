"""Runs on several worker threads, and runs in which frames are lost, come twice or late, or spell nothing."""

import re
import unittest
from dataclasses import replace
from itertools import product

from ason_tools.program import DONE, EVENT_LIMIT, USAGE

from .support import EXAMPLES, ason_told, plan_text
from .test_answers import LONE, STAR, network
from .test_restoring import GUARDED, SETUPS, ring, triangle

# Examples in which two calls ask for one label at the same time, so that either may win.
RACES = {"two"}

# What stands in place of the frames of a channel, or on it besides.
DISTURBANCES = (
    ["lose a b 1", "repeat b c 1", "hold a c 1"],
    ["noise a b -", "noise a b 2E110D00000100", f"noise a b {'00' * 65_535}"],
    [f"lose a c {number}" for number in range(1, 8)],
    [f"hold c a {number}" for number in range(1, 8)],
    [f"repeat {'abc'[number % 3]} {'abc'[(number + 1) % 3]} {1 + number // 3}" for number in range(30)],
    # Of several lines for one frame the last one counts.
    ["lose a c 1", "lose a c 1", "repeat a c 1"],
)

# Words behind `run` that have no meaning.
NO_OPTIONS = (
    ["--workers"],
    ["--workers", "0"],
    ["--workers", "17"],
    ["--workers", "01"],
    ["--workers", "+1"],
    ["--workers", "-1"],
    ["--workers", ""],
    ["--workers=2"],
    ["--workers", "2", "--workers", "2"],
    ["--stride", "0"],
    ["--stride", "65"],
    ["--stride", "1", "--workers", "1", "--stride", "1"],
    ["--stride", "--workers", "2"],
    ["--Workers", "2"],
    ["2"],
    ["--trace", "--trace"],
    ["--workers", "--trace"],
    ["--trace", "1"],
    ["--trace=1"],
    ["--watch"],
    ["--watch", "a", "--trace"],
    ["--trace", "--watch", "a"],
    ["--watch", "a", "--watch", "a"],
    ["--watch=a"],
)


class WordsTest(unittest.TestCase):
    """The options of `run`."""

    def test_options_come_in_any_order(self) -> None:
        plan = triangle(["setup c1 a c"])
        for words in ([], ["--workers", "16"], ["--stride", "64"], ["--workers", "2", "--stride", "3"], ["--stride", "3", "--workers", "2"]):
            with self.subTest(words=words):
                ended = ason_told("run", *words, given=plan)
                self.assertEqual((ended.status, ended.out), (DONE, GUARDED))

    def test_other_words_have_no_meaning(self) -> None:
        for words in NO_OPTIONS:
            with self.subTest(words=words):
                ended = ason_told("run", *words, given=plan_text())
                self.assertEqual((ended.status, ended.out[:6]), (USAGE, "usage:"))


class WorkersTest(unittest.TestCase):
    """The same script on any number of workers."""

    def test_one_call_of_two_that_cross_is_bare(self) -> None:
        # Both need the one wavelength of link 3.
        plan = replace(STAR, script=["setup c1 a d unprotected", "setup c2 c d unprotected"]).text()
        for workers, stride in product((1, 2, 3, 4), (1, 2, 16)):
            with self.subTest(workers=workers, stride=stride):
                ended = ason_told("run", "--workers", str(workers), "--stride", str(stride), given=plan)
                states = re.findall(r"^call \S+ \S+ \S+ (\S+) \S+ \S+ (\S+)$", ended.out, re.MULTILINE)
                self.assertEqual(ended.status, DONE)
                self.assertEqual(sorted(states), [("bare", "-"), ("blocked", "set")])
                self.assertEqual(len(re.findall("^leg ", ended.out, re.MULTILINE)), 3)
                if workers == 1:
                    self.assertEqual(states[0], ("bare", "-"))

    def test_examples_print_the_same(self) -> None:
        for plan in sorted(EXAMPLES.glob("*.toml")):
            if plan.stem not in RACES:
                with self.subTest(plan=plan.stem):
                    ended = ason_told("run", "--workers", "2", given=plan.read_text())
                    self.assertEqual((ended.status, ended.out), (DONE, plan.with_suffix(".out").read_text()))

    def test_a_ring_prints_the_same(self) -> None:
        """Forty calls, of which a failure hits some, that turn and go back."""
        plan = ring().text()
        alone, beside = (ason_told("run", "--workers", workers, given=plan) for workers in ("1", "2"))
        self.assertEqual((beside.status, beside.out), (DONE, alone.out))

    def test_a_call_ends_the_same_however_far_it_has_turned(self) -> None:
        short = triangle([*SETUPS, "wait 1", "repair link 3", "settle 100", "wait 10"], wait=3)
        released = triangle([*SETUPS, "wait 2", "release c1"])
        for plan, text in ((short, GUARDED), (released, "calls 0 legs 0\n")):
            self.assertEqual(ason_told("run", "--workers", "2", given=plan).out, text)

    def test_one_worker_prints_the_same_for_every_stride(self) -> None:
        lines = ["setup c1 a c", "wait 1", "show", "fail link 3", "wait 1", "show", "settle 3", "show", "repair link 3"]
        plan = triangle(lines)
        told = {ason_told("run", "--stride", str(stride), given=plan).out for stride in (1, 2, 7, 64)}
        self.assertEqual(len(told), 1)

    def test_a_full_log_ends_a_run_where_more_is_to_be_done(self) -> None:
        """On two workers as on one, 50,000 ticks fill the log of a node without a link, and then nothing is at hand; one tick more is."""
        ends = (([], DONE, "calls 0 legs 0\n"), (["wait 1"], EVENT_LIMIT, "stopped at limit a\n"))
        for plan, (more, status, text) in product((LONE, network("ab")), ends):
            with self.subTest(nodes=len(plan.nodes), more=more):
                ended = ason_told("run", "--workers", "2", given=replace(plan, script=[*["wait 10000"] * 5, *more]).text())
                self.assertEqual((ended.status, ended.out), (status, text))


class FramesTest(unittest.TestCase):
    """Frames that are lost, come twice or late, and bytes that spell nothing."""

    def test_the_table_is_the_same(self) -> None:
        for lines, workers in product(DISTURBANCES, (1, 2)):
            with self.subTest(lines=[line[:30] for line in lines], workers=workers):
                ended = ason_told("run", "--workers", str(workers), given=triangle([*lines, "setup c1 a c"]))
                self.assertEqual((ended.status, ended.out), (DONE, GUARDED))

    def test_a_frame_that_is_lost_goes_again(self) -> None:
        """The Path of the call is the first frame on link 3 after all is quiet, and goes again after a tick."""
        for kind, rounds in (("lose", 3), ("hold", 3)):
            with self.subTest(kind=kind):
                lines = [f"{kind} a c 1", "setup c1 a c unprotected", *["wait 1", "show"] * rounds]
                states = re.findall(r"^call c1 a c (\S+)", ason_told("run", given=triangle(lines)).out, re.MULTILINE)
                self.assertEqual(states[0], "asking")
                self.assertEqual(states[-1], "bare")


if __name__ == "__main__":
    unittest.main()
