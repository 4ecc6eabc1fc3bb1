"""The program on words and inputs: its status, and all that it writes."""

import os
import pty
import resource
import signal
import subprocess
import tempfile
import tty
import unittest
from dataclasses import replace

from ason_tools.plan import Link, Node, Plan
from ason_tools.program import (
    DONE,
    EVENT_LIMIT,
    PLAN_REFUSED,
    READ_FAULT,
    TOO_LONG,
    USAGE,
    WRITE_FAULT,
    program_path,
)

USAGE_LINE = (
    "usage: ason run [--workers N] [--stride T] [--trace | --watch NODE] | check | decode | route FROM TO "
    "| load SEED NODES CALLS | best FROM TO | survey\n"
)
LONGEST = 4_194_304
"""The most bytes of an input."""


def network(names: str, *ends: str, labels: int = 1) -> Plan:
    """Nodes of these names, numbered from 1, and links between these, numbered likewise."""
    nodes = [Node(name, number) for number, name in enumerate(names, 1)]
    return Plan(nodes, [Link(number, (pair[0], pair[1]), labels) for number, pair in enumerate(ends, 1)])


PAIR = network("ab", "ab")
STAR = network("abcd", "ab", "bc", "bd")
LOOP = network("a", "aa")
LONE = network("a")
TWINS = Plan(
    PAIR.nodes,
    [
        Link(1, ("a", "b"), 1, metric=2, srlgs=(7, 0)),
        Link(2, ("b", "a"), 1, metric=2, srlgs=(0,)),
        Link(3, ("a", "b"), 1, metric=3),
    ],
)
"""The first two links cost the same, less than the third, and share an SRLG."""
BROAD = network("ab", "ab", labels=10)

A_TO_B = "setup c1 a b unprotected via 1"
ONE_CALL = """\
calls 1 legs 2
call c1 a b bare a.1.1 - -
leg a.1.1 a work live - 1/1
leg a.1.1 b work live 1/1 -
"""

TABLES = [
    (PAIR, [], "calls 0 legs 0\n"),
    (PAIR, [A_TO_B], ONE_CALL),
    (PAIR, ["show", A_TO_B, "settle 1", "settle 1"], f"calls 0 legs 0\nunsettled desk 0 hop 2 flood 0\n{ONE_CALL}"),
    # the label of a call that was released is another call's
    (
        PAIR,
        [A_TO_B, "settle 100", "release c1", "settle 100", "setup c2 a b unprotected via 1"],
        """\
calls 1 legs 2
call c2 a b bare a.2.2 - -
leg a.2.2 a work live - 1/1
leg a.2.2 b work live 1/1 -
""",
    ),
    (
        PAIR,
        ["setup c1 b a unprotected via 1", "setup c2 a b unprotected via 1"],
        """\
calls 2 legs 4
call c1 b a bare b.1.1 - -
call c2 a b bare a.1.1 - -
leg a.1.1 a work live - 1/1
leg a.1.1 b work live 1/1 -
leg b.1.1 a work live 1/1 -
leg b.1.1 b work live - 1/1
""",
    ),
    (
        STAR,
        ["setup c1 a d unprotected via 1,3", "setup c2 a c unprotected via 1,2"],
        """\
calls 2 legs 3
call c1 a d blocked - - label
call c2 a c bare a.2.2 - -
leg a.2.2 a work live - 1/1
leg a.2.2 b work live 1/1 2/1
leg a.2.2 c work live 2/1 -
""",
    ),
    (
        STAR,
        ["setup c1 a d unprotected via 1,3", "setup c2 c d unprotected via 2,3"],
        """\
calls 2 legs 3
call c1 a d bare a.1.1 - -
call c2 c d blocked - - set
leg a.1.1 a work live - 1/1
leg a.1.1 b work live 1/1 3/1
leg a.1.1 d work live 3/1 -
""",
    ),
    (
        STAR,
        ["setup c1 a d unprotected via 1,3", "setup c2 c d unprotected via 2,3", "settle 100", "release c1"],
        "calls 1 legs 0\ncall c2 c d blocked - - set\n",
    ),
    (LONE, ["wait 10000"] * 5, "calls 0 legs 0\n"),
]
"""Networks, scripts, and what is printed."""

FAULTS = [
    (LOOP.text(), "link 1 ends"),
    (replace(PAIR, script=["show", "settle 0"]).text(), "script 2 range"),
    (replace(PAIR, script=["revert c1"]).text(), "script 1 call"),
    (replace(PAIR, script=["hold a b 0"]).text(), "script 1 range"),
    (
        replace(PAIR, script=["noise a b 2E110DD5CB01000014000C18010000000100000005"]).text(),
        "script 1 spells",
    ),
    ("script = []\n[[node]]\n", "node 1 missing"),
    ("wait = 1\n", "top missing"),
    ('script = ["]\n', "toml syntax"),
]
"""Inputs that are no plans, and the first fault of each."""

ROUTES = [
    (replace(PAIR, script=["show"]), ["a", "b"], "primary 1 1\nno backup\npotential a 0\npotential b 1\n"),
    (TWINS, ["a", "b"], "primary 2 1\nbackup 3 3\npotential a 0\npotential b 2\n"),
    (PAIR, ["a", "--"], "no node --\n"),
]
"""Networks, the words after `route`, and what is printed."""

MESSAGES = [
    ("", ""),
    (
        "1\n00\n\n11 0D D5 CB 01 00 00 14 00 0C 18 01 00 00 00 01 00 00 00 05",
        "not hex\nnot a message\nAck id - acks 5 lsp - egress -\n 24/1 12 read\n",
    ),
    (
        "110dd5cb 01000014 000c1801 00000001 000000\n11 0D D5 CC 01 00 00 14 00 0C 18 01 00 00 00 01 00 00 00 05\n",
        "not a message\nnot a message\n",
    ),
    (
        "11 05 C6 3F 01 00 00 48 00 0C 17 01 01 00 00 01 00 00 00 05 00 10 01 07 00 00 00 03 00 00 00 01 00 00 00 01 "
        "00 18 03 03 00 00 00 01 00 00 00 00 00 03 00 0C 00 00 00 01 00 00 00 02 00 0C 0B 07 00 00 00 01 00 00 00 02",
        "PathTear id 5 acks - lsp 1.1.2 egress 3\n 23/1 12 read\n 1/7 16 read\n 3/3 24 read\n 11/7 12 read\n",
    ),
]
"""Lines of messages in hexadecimal, and what is told of them."""


def told(*words: str, given: str = "") -> tuple[int, str]:
    """The status of the program on these words and this input, and what it writes."""
    ended = subprocess.run([program_path(), *words], input=given.encode(), stdout=subprocess.PIPE, check=False)
    return ended.returncode, ended.stdout.decode()


class AnswerTest(unittest.TestCase):
    """Inputs that are read and answered."""

    def test_plans_are_run(self) -> None:
        for plan, script, text in TABLES:
            with self.subTest(script=script):
                self.assertEqual(told("run", given=replace(plan, script=script).text()), (DONE, text))

    # Of each call a Path and a Resv aren't acknowledged.
    def test_ten_calls_are_unsettled(self) -> None:
        calls = [f"setup c{number} a b unprotected via 1" for number in range(10)]
        status, text = told("run", given=replace(BROAD, script=[*calls, "settle 1"]).text())
        lines = ["unsettled desk 0 hop 20 flood 0", "calls 10 legs 20"]
        self.assertEqual((status, text.splitlines()[:2]), (DONE, lines))

    def test_a_file_is_read_and_written(self) -> None:
        with tempfile.TemporaryFile() as given, tempfile.TemporaryFile() as out:
            given.write(replace(PAIR, script=[A_TO_B]).text().encode())
            given.seek(0)
            ended = subprocess.run([program_path(), "run"], stdin=given, stdout=out, check=False)
            out.seek(0)
            self.assertEqual((ended.returncode, out.read().decode()), (DONE, ONE_CALL))

    def test_faults_are_refused(self) -> None:
        for given, fault in FAULTS:
            with self.subTest(fault=fault):
                self.assertEqual(told("run", given=given), (PLAN_REFUSED, f"refused plan {fault}\n"))
        self.assertEqual(told("route", "a", "b", given=LOOP.text()), (PLAN_REFUSED, "refused plan link 1 ends\n"))

    def test_routes_are_told(self) -> None:
        for plan, words, text in ROUTES:
            with self.subTest(words=words):
                self.assertEqual(told("route", *words, given=plan.text()), (DONE, text))

    def test_messages_are_told(self) -> None:
        for lines, text in MESSAGES:
            with self.subTest(lines=lines):
                self.assertEqual(told("decode", given=lines), (DONE, text))

    def test_other_words_have_no_meaning(self) -> None:
        for words in (["--help"], ["run", "--workers", "0"], ["route", "a"]):
            with self.subTest(words=words):
                self.assertEqual(told(*words, given=PAIR.text()), (USAGE, USAGE_LINE))


class LimitTest(unittest.TestCase):
    """Inputs and runs up to their limits, and past them."""

    def test_the_longest_input(self) -> None:
        self.assertEqual(told("run", given="#" * LONGEST), (PLAN_REFUSED, "refused plan top missing\n"))
        self.assertEqual(told("run", given="#" * (LONGEST + 1)), (TOO_LONG, "refused input too long\n"))

    def test_a_node_that_only_ticks(self) -> None:
        plan = replace(LONE, script=[*["wait 10000"] * 5, "wait 1"])
        self.assertEqual(told("run", given=plan.text()), (EVENT_LIMIT, "stopped at limit a\n"))

    def test_the_node_with_the_most_events(self) -> None:
        """4,075 calls: the node between takes the frames of both others."""
        script = ["show"]
        for group in range(163):
            calls = [f"c{group}-{number}" for number in range(25)]
            script += [f"setup {call} a c unprotected via 1,2" for call in calls] + ["settle 1000"]
            script += [f"release {call}" for call in calls] + ["settle 1000"]
        row = network("abc", "ab", "bc", labels=80)
        text = "calls 0 legs 0\nstopped at limit b\n"
        self.assertEqual(told("run", given=replace(row, script=script).text()), (EVENT_LIMIT, text))


def at_most_five_bytes() -> None:
    """A file takes five bytes of what is written, and no more."""
    signal.signal(signal.SIGXFSZ, signal.SIG_IGN)
    resource.setrlimit(resource.RLIMIT_FSIZE, (5, 5))


class FailureTest(unittest.TestCase):
    """Inputs and outputs that fail after a part."""

    def test_an_input_that_fails(self) -> None:
        """What was written to a terminal is read at its other side, and then an error, once the terminal is closed."""
        for words in (["run"], ["survey"], ["route", "a", "b"], ["best", "a", "b"]):
            with self.subTest(words=words):
                other, terminal = pty.openpty()
                tty.setraw(terminal)
                os.write(terminal, PAIR.text().encode())
                os.close(terminal)
                ended = subprocess.run([program_path(), *words], stdin=other, stdout=subprocess.PIPE, check=False)
                os.close(other)
                self.assertEqual((ended.returncode, ended.stdout), (READ_FAULT, b""))

    def test_a_folder_is_no_input(self) -> None:
        folder = os.open(".", os.O_RDONLY)
        ended = subprocess.run([program_path(), "run"], stdin=folder, stdout=subprocess.PIPE, check=False)
        os.close(folder)
        self.assertEqual((ended.returncode, ended.stdout), (READ_FAULT, b""))

    def test_an_output_that_fails(self) -> None:
        plan = replace(PAIR, script=[A_TO_B]).text().encode()
        with tempfile.TemporaryFile() as file:
            command = [program_path(), "run"]
            ended = subprocess.run(command, input=plan, stdout=file, preexec_fn=at_most_five_bytes, check=False)
            file.seek(0)
            self.assertEqual((ended.returncode, file.read()), (WRITE_FAULT, b"calls"))


if __name__ == "__main__":
    unittest.main()
