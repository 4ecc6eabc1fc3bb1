"""Lines of scripts and keys of plans, each with what becomes of it, and the routes between two nodes."""

import unittest

from ason_tools.program import DONE, PLAN_REFUSED

from .support import ason_told

# Ways from a to d over b, over c and straight on. Links 1 and 4 have an SRLG in common; 7 is beside 1, and 6 beside 2.
NETWORK = """
node = [{ name = "a", id = 1 }, { name = "b", id = 2 }, { name = "c", id = 3 }, { name = "d", id = 4 }]
link = [
    { id = 1, ends = ["a", "b"], labels = 2, srlg = [7] },
    { id = 2, ends = ["b", "d"], labels = 2 },
    { id = 3, ends = ["a", "c"], labels = 2 },
    { id = 4, ends = ["c", "d"], labels = 2, srlg = [7] },
    { id = 5, ends = ["a", "d"], labels = 2 },
    { id = 6, ends = ["b", "d"], labels = 2 },
    { id = 7, ends = ["a", "b"], labels = 2 },
]
"""

# Script lines without a fault.
SCRIPTS = [
    ["setup c1 a d"],
    ["setup c1 a d via 1,2"],
    ["setup c1 a d via 1,2 backup 5"],
    ["setup c1 a d via 5 backup 3,4"],
    ["setup c1 b d via 2 backup 6"],
    ["  setup   c1 a d  via 1,2   backup 5 "],
    ["setup c1 a d", "protect c1"],
    ["setup c1 a d unprotected", "protect c1"],
    ["setup c1 a d", "release c1", "protect c1"],
    ["setup c1 a d", "retry c1"],
    ["setup c1 a d", "revert c1", "wait 1", "wait 10000"],
    ["fail srlg 7", "repair srlg 7", "fail link 7", "repair link 7"],
    ["lose a b 1", "repeat b a 65535", " hold   a d  2 "],
    ["noise a b -", "noise b a 2E110D00000100", "noise a b 00fF", f"noise a b {'0' * 131_070}"],
]

# Script lines, and what is told of their first fault: the number of its line, and its kind.
FAULTS = [
    # a backup that shares an SRLG, a link, an inner node
    (["setup c1 a d via 1,2 backup 3,4"], "1 backup"),
    (["setup c1 a d via 5 backup 5"], "1 backup"),
    (["setup c1 a d via 1,2 backup 7,6"], "1 backup"),
    # routes that lead elsewhere, or whose links are unknown
    (["setup c1 a d via 1 backup 5"], "1 route"),
    (["setup c1 a d via 5 backup 3"], "1 route"),
    (["setup c1 a d via 5 backup 9"], "1 route"),
    (["setup c1 a d via 5 backup 1,2,6,2"], "1 route"),
    (["setup c1 a d via 1"], "1 route"),
    # the kinds in their order
    (["setup 1c a a via 5 backup 4294967296"], "1 range"),
    (["setup c1 a x via 4294967296 backup 3,4"], "1 range"),
    (["setup 1c a x via 5 backup 5"], "1 name"),
    (["setup c1 a x via 5 backup 5"], "1 node"),
    (["setup c1 a a"], "1 same"),
    (["setup c1 a d", "setup c1 a d via 5 backup 5"], "2 call"),
    (["protect 9x"], "1 name"),
    (["protect c1"], "1 call"),
    (["retry 9x"], "1 name"),
    (["retry c1"], "1 call"),
    (["revert 9x"], "1 name"),
    (["revert c1"], "1 call"),
    (["show", "wait 0"], "2 range"),
    (["wait 10001"], "1 range"),
    (["fail srlg 4294967296"], "1 range"),
    # a link or an SRLG that the network doesn't have
    (["fail srlg 1"], "1 group"),
    (["fail link 0"], "1 group"),
    (["repair link 8"], "1 group"),
    # no lines
    (["setup c1 a d unprotected via 1,2 backup 5"], "1 words"),
    (["setup c1 a d unprotected backup 5"], "1 words"),
    (["setup c1 a d backup 5"], "1 words"),
    (["setup c1 a d via 1,2 backup 5,"], "1 words"),
    (["protect c1 c2"], "1 words"),
    (["fail srlg"], "1 words"),
    (["fail link 01"], "1 words"),
    (["repair node 1"], "1 words"),
    (["revert"], "1 words"),
    (["wait"], "1 words"),
    (["wait 01"], "1 words"),
    (["lose a b c"], "1 words"),
    (["repeat a b 01"], "1 words"),
    (["hold a b"], "1 words"),
    (["noise a b"], "1 words"),
    (["noise a b 2E 11"], "1 words"),
    # lines of frames, the kinds in their order: b and c aren't neighbours
    (["lose a x 0"], "1 range"),
    (["repeat b c 65536"], "1 range"),
    (["hold a b 99999999999999999999"], "1 range"),
    (["hold a x 1"], "1 node"),
    (["noise x c 0"], "1 node"),
    (["lose b c 1"], "1 channel"),
    (["repeat a a 1"], "1 channel"),
    (["noise b c 0"], "1 channel"),
    (["noise a b 0"], "1 hex"),
    (["noise a b --"], "1 hex"),
    (["noise a b 0x"], "1 hex"),
    ([f"noise a b {'0' * 131_072}"], "1 hex"),
    # noise that spells an acknowledgement of a message, or of a row of a link
    (["noise a b 2E110DD5CB01000014000C18010000000100000005"], "1 spells"),
    (["show", "noise a b 590200000000000005"], "2 spells"),
    (["noise a b 590200000000000005", "shout"], "1 spells"),
]

# Keys of the top table, and what is told of their fault, if any.
WAITS = [
    ("", ""),
    ("wait = 0", ""),
    ("wait = 10000", ""),
    ("wait = 10001", "range"),
    ("wait = -1", "range"),
    ('wait = "3"', "kind"),
]


def plan(script: list[str], keys: str = "") -> str:
    lines = ", ".join(f'"{line}"' for line in script)
    return f"{keys}\nscript = [{lines}]\n{NETWORK}"


class PlanTest(unittest.TestCase):
    """Plans are run, or their first fault is told."""

    def is_refused(self, text: str, fault: str) -> None:
        ended = ason_told("run", given=text)
        self.assertEqual((ended.status, ended.out), (PLAN_REFUSED, f"refused plan {fault}\n"))

    def test_each_line_is_read(self) -> None:
        for script in SCRIPTS:
            with self.subTest(script=script):
                self.assertEqual(ason_told("run", given=plan(script)).status, DONE)

    def test_each_line_has_its_fault(self) -> None:
        for script, fault in FAULTS:
            with self.subTest(script=script):
                self.is_refused(plan(script), f"script {fault}")

    def test_a_network_has_a_wait(self) -> None:
        for keys, fault in WAITS:
            with self.subTest(keys=keys):
                if fault:
                    self.is_refused(plan(["show"], keys), f"top {fault}")
                else:
                    self.assertEqual(ason_told("run", given=plan(["show"], keys)).status, DONE)

    def test_a_setup_has_its_routes(self) -> None:
        ended = ason_told("run", given=plan(["setup c1 d a via 4,3 backup 5"]))
        self.assertEqual((ended.status, ended.out), (DONE, GIVEN_ROUTES))

    def test_a_setup_without_a_word_is_protected(self) -> None:
        for word, state in (("", "guarded"), (" unprotected", "bare")):
            with self.subTest(word=word):
                self.assertIn(f"call c1 d a {state} ", ason_told("run", given=plan([f"setup c1 d a{word}"])).out)

    def test_a_protect_goes_to_the_ingress_of_its_call(self) -> None:
        script = ["setup c1 a d", "setup c2 d a unprotected via 4,3", "settle 100", "protect c2"]
        self.assertIn("call c2 d a guarded d.1.1 d.1.2 -", ason_told("run", given=plan(script)).out)

    def test_a_leg_that_closes(self) -> None:
        text = plan(["setup c1 a d unprotected via 5", "settle 100", "release c1", "wait 1", "show"])
        self.assertIn(CLOSING, ason_told("run", given=text).out)


GIVEN_ROUTES = """\
calls 1 legs 5
call c1 d a guarded d.1.1 d.1.2 -
leg d.1.1 a work live 3/1 -
leg d.1.1 c work live 4/1 3/1
leg d.1.1 d work live - 4/1
leg d.1.2 a back held 5/1 -
leg d.1.2 d back held - 5/1
"""

# The call is gone at its ingress, whose leg waits for the answer.
CLOSING = """\
calls 0 legs 1
leg a.1.1 a work closing - 5/1
"""

# Three nodes, each two of them joined.
TRIANGLE = """
node = [{ name = "a", id = 1 }, { name = "b", id = 2 }, { name = "c", id = 3 }]
link = [
    { id = 1, ends = ["a", "b"], labels = 2 },
    { id = 2, ends = ["b", "c"], labels = 2 },
    { id = 3, ends = ["a", "c"], labels = 2 },
]
"""

# The least route leaves no backup, and another route would.
TRAP = """
node = [{ name = "s", id = 1 }, { name = "x", id = 2 }, { name = "y", id = 3 }, { name = "t", id = 4 }]
link = [
    { id = 1, ends = ["s", "x"], labels = 1 },
    { id = 2, ends = ["x", "y"], labels = 1 },
    { id = 3, ends = ["y", "t"], labels = 1 },
    { id = 4, ends = ["s", "y"], labels = 1, metric = 3 },
    { id = 5, ends = ["x", "t"], labels = 1, metric = 3 },
]
"""

# Two nodes without a link.
APART = 'node = [{ name = "a", id = 1 }, { name = "b", id = 2 }]\n'

# Two ways round of the same cost.
SQUARE = """
node = [{ name = "a", id = 1 }, { name = "b", id = 2 }, { name = "c", id = 3 }, { name = "d", id = 4 }]
link = [
    { id = 1, ends = ["a", "b"], labels = 1 },
    { id = 2, ends = ["a", "c"], labels = 1 },
    { id = 3, ends = ["c", "d"], labels = 1 },
    { id = 4, ends = ["b", "d"], labels = 1 },
]
"""

# The way over b costs as much as the link of the greater number.
DETOUR = """
node = [{ name = "a", id = 1 }, { name = "b", id = 2 }, { name = "c", id = 3 }]
link = [
    { id = 3, ends = ["a", "b"], labels = 1 },
    { id = 4, ends = ["b", "c"], labels = 1 },
    { id = 9, ends = ["a", "c"], labels = 1, metric = 2 },
]
"""

# Parallel links, two of them with one SRLG.
PARALLEL = """
node = [{ name = "a", id = 1 }, { name = "b", id = 2 }]
link = [
    { id = 4, ends = ["a", "b"], labels = 1, metric = 7, srlg = [9] },
    { id = 5, ends = ["a", "b"], labels = 1, metric = 7, srlg = [9] },
    { id = 6, ends = ["a", "b"], labels = 1, metric = 8 },
]
"""

# Routes without a common link, over one inner node.
WAIST = """
node = [{ name = "a", id = 1 }, { name = "b", id = 2 }, { name = "c", id = 3 }]
link = [
    { id = 1, ends = ["a", "b"], labels = 1 },
    { id = 2, ends = ["b", "c"], labels = 1 },
    { id = 3, ends = ["a", "b"], labels = 1 },
    { id = 4, ends = ["b", "c"], labels = 1 },
]
"""

# Two parts that no link joins.
PARTS = """
node = [{ name = "a", id = 1 }, { name = "b", id = 2 }, { name = "c", id = 3 }, { name = "d", id = 4 }]
link = [{ id = 1, ends = ["a", "b"], labels = 1, metric = 5 }, { id = 2, ends = ["c", "d"], labels = 1 }]
"""

# Two links with one SRLG between two nodes.
SHARED = """
node = [{ name = "a", id = 1 }, { name = "b", id = 2 }]
link = [
    { id = 1, ends = ["a", "b"], labels = 1, srlg = [7] },
    { id = 2, ends = ["a", "b"], labels = 1, srlg = [8, 7] },
]
"""



def costs(**potentials: int | str) -> list[str]:
    """The lines of these potentials."""
    return [f"potential {node} {cost}" for node, cost in potentials.items()]


# A plan, two names, and the lines that are told.
ROUTES = [
    (TRIANGLE, "a", "c", ["primary 1 3", "backup 2 1,2", "potential a 0", "potential b 1", "potential c 1"]),
    (
        TRAP,
        "s",
        "t",
        ["primary 3 1,2,3", "no backup", "potential s 0", "potential x 1", "potential y 2", "potential t 3"],
    ),
    (APART, "a", "b", ["no primary", "potential a 0", "potential b -"]),
    (SHARED, "b", "a", ["primary 1 1", "no backup", "potential a 1", "potential b 0"]),
    # of two routes that cost as much, that with the lesser first link, whatever follows it, and if it is the longer one
    (SQUARE, "a", "d", ["primary 2 1,4", "backup 2 2,3", *costs(a=0, b=1, c=1, d=2)]),
    (SQUARE, "d", "a", ["primary 2 3,2", "backup 2 4,1", *costs(a=2, b=1, c=1, d=0)]),
    (DETOUR, "a", "c", ["primary 2 3,4", "backup 2 9", *costs(a=0, b=1, c=2)]),
    (PARALLEL, "a", "b", ["primary 7 4", "backup 8 6", *costs(a=0, b=7)]),
    (PARALLEL, "b", "a", ["primary 7 4", "backup 8 6", *costs(a=7, b=0)]),
    (WAIST, "a", "c", ["primary 2 1,2", "no backup", *costs(a=0, b=1, c=2)]),
    (PARTS, "a", "d", ["no primary", *costs(a=0, b=5, c="-", d="-")]),
    (APART, "b", "b", ["same node"]),
    (APART, "x", "-", ["no node x"]),
    (APART, "a", "-", ["no node -"]),
]


class RouteTest(unittest.TestCase):
    """What is told of the routes between two nodes."""

    def test_the_routes_of_two_nodes(self) -> None:
        for text, start, end, lines in ROUTES:
            with self.subTest(start=start, end=end, lines=lines[:1]):
                ended = ason_told("route", start, end, given=text)
                self.assertEqual((ended.status, ended.out.splitlines()), (DONE, lines))


if __name__ == "__main__":
    unittest.main()
