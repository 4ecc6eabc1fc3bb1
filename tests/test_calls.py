"""Calls that are set up, refused, hit, stuck and taken back, as tables show them round by round.

In a round the nodes take their turns in order of number. So what goes to a node of a greater number is handled in the
same round, and what goes to one of a smaller number in the next.
"""

import re
import unittest
from itertools import groupby

from ason_tools.program import DONE

from .support import ason_told

# Two links between two nodes.
PAIR = """
node = [{ name = "a", id = 1 }, { name = "b", id = 2 }]
link = [{ id = 1, ends = ["a", "b"], labels = 2 }, { id = 2, ends = ["a", "b"], labels = 2 }]
"""

# A link from a to z, and a way round over n5, n4 and n3, so that what goes from a to z on it takes a round a node.
RING = """
node = [
    { name = "a", id = 1 }, { name = "z", id = 2 }, { name = "n3", id = 3 }, { name = "n4", id = 4 },
    { name = "n5", id = 5 },
]
link = [
    { id = 1, ends = ["a", "z"], labels = 2 },
    { id = 2, ends = ["a", "n5"], labels = 2 },
    { id = 3, ends = ["n4", "n5"], labels = 2 },
    { id = 4, ends = ["n3", "n4"], labels = 2 },
    { id = 5, ends = ["z", "n3"], labels = 2 },
]
"""

# Three nodes in a row.
ROW = """
node = [{ name = "a", id = 1 }, { name = "b", id = 2 }, { name = "c", id = 3 }]
link = [{ id = 1, ends = ["a", "b"], labels = 2 }, { id = 2, ends = ["b", "c"], labels = 2 }]
"""

# The backups of calls from a and from b share wavelength 1 from c to d.
SHARED = """
node = [{ name = "a", id = 1 }, { name = "b", id = 2 }, { name = "c", id = 3 }, { name = "d", id = 4 }]
link = [
    { id = 1, ends = ["a", "d"], labels = 2, srlg = [7] },
    { id = 2, ends = ["b", "d"], labels = 2, srlg = [8] },
    { id = 3, ends = ["a", "c"], labels = 2 },
    { id = 4, ends = ["b", "c"], labels = 2 },
    { id = 5, ends = ["c", "d"], labels = 2 },
]
"""

# Two nodes without a link.
APART = 'node = [{ name = "a", id = 1 }, { name = "b", id = 2 }]'

# From a to b 26 links for working routes and one for backups, and a link from another node to b.
BROAD = f"""
node = [{{ name = "a", id = 1 }}, {{ name = "b", id = 2 }}, {{ name = "c", id = 3 }}]
link = [
    {"".join(f'{{ id = {link}, ends = ["a", "b"], labels = 80 }}, ' for link in range(1, 28))}
    {{ id = 28, ends = ["b", "c"], labels = 80 }},
]
"""

GUARDED = """\
calls 1 legs 4
call c1 a b guarded a.1.1 a.1.2 -
leg a.1.1 a work live - 1/1
leg a.1.1 b work live 1/1 -
leg a.1.2 a back held - 2/1
leg a.1.2 b back held 2/1 -
"""

# The egress has answered, and the ingress hasn't taken that yet.
BOTH_CLOSING = """\
calls 0 legs 2
leg a.1.1 a work closing - 1/1
leg a.1.2 a back closing - 2/1
"""

# A round and a table, some times.
ROUNDS = ["wait 1", "show"] * 8

REST = "settle 100"


def told(network: str, script: list[str], wait: int = 0) -> str:
    """What the run of the script prints."""
    lines = ", ".join(f'"{line}"' for line in script)
    ended = ason_told("run", given=f"wait = {wait}\nscript = [{lines}]\n{network}")
    assert ended.status == DONE
    return ended.out


def states(network: str, script: list[str], call: str = "c1", wait: int = 0) -> list[str]:
    """The states of the call in the tables, and its cause where it has one."""
    found = re.findall(rf"^call {call} \S+ \S+ (\S+) \S+ \S+ (\S+)$", told(network, script, wait), re.MULTILINE)
    return [state if cause == "-" else f"{state} {cause}" for state, cause in found]


def changes(found: list[str]) -> list[str]:
    """The states without those that are as before."""
    return [state for state, _ in groupby(found)]


def closing(first: str, second: str) -> str:
    """A table with the torn legs of the first two nodes of a row, which go out so, and the empty one at the end."""
    return f"calls 0 legs 2\nleg a.1.1 a work closing - {first}\nleg a.1.1 b work closing 1/- {second}\ncalls 0 legs 0\n"


def legs(text: str, lsp: str, node: str) -> list[str]:
    """The phases of the LSP's leg at the node in the tables."""
    return re.findall(rf"^leg {lsp} {node} \S+ (\S+)", text, re.MULTILINE)


class IngressTest(unittest.TestCase):
    """A call at its ingress."""

    def test_a_call_is_set_up_and_released(self) -> None:
        script = ["setup c1 a b unprotected via 1", "wait 1", "show", REST, "show", "release c1", "wait 1", "show"]
        text = told(PAIR, script)
        self.assertEqual(states(PAIR, script), ["asking", "bare"])
        self.assertEqual(legs(text, "a.1.1", "a"), ["asked", "live", "closing"])
        self.assertEqual(legs(text, "a.1.1", "b"), ["live", "live"])
        self.assertTrue(text.endswith("calls 0 legs 0\n"))

    def test_a_refused_call_is_blocked(self) -> None:
        script = [f"setup c{number} a b unprotected via 1" for number in (1, 2, 3)]
        for call, state in (("c1", "bare"), ("c2", "bare"), ("c3", "blocked set")):
            self.assertEqual(states(PAIR, script, call), [state])
        self.assertIn("calls 3 legs 4\n", told(PAIR, script))

    def test_no_route_leads_there(self) -> None:
        self.assertEqual(states(APART, ["setup c1 a b unprotected"]), ["blocked noroute"])
        self.assertEqual(states(ROW, ["setup c1 a b"]), ["bare nobackup"])

    # The failure stands on b's desk when the Path comes.
    def test_a_setup_over_a_cut_fibre_is_blocked(self) -> None:
        self.assertEqual(states(PAIR, ["setup c1 a b unprotected via 1", "fail link 1"]), ["blocked down"])

    def test_a_call_that_has_a_backup_is_not_protected_again(self) -> None:
        script = ["setup c1 a b via 1 backup 2", "wait 2", "show", "protect c1", REST, "show", "protect c1", REST]
        self.assertEqual(states(PAIR, script), ["pairing", "guarded", "guarded"])
        self.assertTrue(told(PAIR, script).endswith(GUARDED))

    # Both labels of link 2 are taken, and one of them is given up.
    def test_a_refused_backup_is_asked_for_again(self) -> None:
        script = ["setup c2 a b unprotected via 2", "setup c3 a b unprotected via 2", REST, "setup c1 a b via 1 backup 2"]
        text = told(PAIR, [*script, REST, "show", "release c2", REST, "protect c1"])
        lines = re.findall(r"^call c1 .*$", text, re.MULTILINE)
        self.assertEqual(lines, ["call c1 a b bare a.3.3 - set", "call c1 a b guarded a.3.3 a.3.5 -"])

    def test_both_lsps_of_a_released_call_are_torn(self) -> None:
        text = told(PAIR, ["setup c1 a b via 1 backup 2", REST, "release c1", "wait 1", "show"])
        self.assertEqual(text, BOTH_CLOSING + "calls 0 legs 0\n")

    def test_a_hit_call_turns_to_its_backup(self) -> None:
        script = ["setup c1 a b via 1 backup 2", REST, "fail link 1", *ROUNDS]
        self.assertEqual(changes(states(PAIR, script)), ["guarded", "turning", "turned"])

    def test_a_stuck_call_is_tried_again(self) -> None:
        script = ["setup c1 a d", REST, "setup c2 b d", REST, "fail srlg 7", REST, "fail srlg 8", *ROUNDS]
        script += ["repair srlg 7", REST, "revert c1", REST, "retry c2", *ROUNDS]
        came = changes(states(SHARED, script, "c2"))
        self.assertEqual(came, ["guarded", "turning", "stuck busy", "turning", "turned"])

    def test_a_hit_backup_is_not_turned_to(self) -> None:
        script = ["setup c1 a z via 1 backup 2,3,4,5", REST, "fail link 4", REST, "fail link 1", REST]
        self.assertEqual(states(RING, script), ["stuck backdown"])


class TornTest(unittest.TestCase):
    """Legs between the ends of a call that is released."""

    def test_a_torn_leg_stands_until_the_next_node_has_let_go(self) -> None:
        text = told(ROW, ["setup c1 a c unprotected", REST, "release c1", "wait 1", "show"])
        self.assertEqual(text, closing("1/1", "2/1"))

    # No label is known yet.
    def test_a_leg_is_torn_while_it_waits(self) -> None:
        text = told(ROW, ["setup c1 a c unprotected", "release c1", "wait 1", "show"])
        self.assertEqual(text, closing("1/-", "2/-"))


class FullTest(unittest.TestCase):
    """Nodes with 4,096 legs."""

    # Of the calls over one link each backup has a label of its own; calls over different links share it.
    def test_a_full_node_takes_no_leg_more(self) -> None:
        setups = [f"setup q{call} a b via {1 + call // 80} backup 27" for call in range(2047)]
        setups += ["setup last-but-one a b unprotected via 26", "setup last a b via 26 backup 27"]
        script = [line for place in range(0, len(setups), 32) for line in (*setups[place : place + 32], REST)]
        text = told(BROAD, [*script, "setup own a b unprotected via 26", "setup other c b unprotected", REST])
        self.assertTrue(text.startswith("calls 2051 legs 8192\n"))
        found = re.findall(r"^call (\S+) \S+ b (\S+) \S+ \S+ (\S+)$", text, re.MULTILINE)
        ends = [("last-but-one", "bare", "-"), ("last", "bare", "full"), ("own", "blocked", "full"), ("other", "blocked", "full")]
        self.assertEqual(found, [(f"q{call}", "guarded", "-") for call in range(2047)] + ends)


class RestoredTest(unittest.TestCase):
    """A call that goes back to its working LSP."""

    def test_a_turned_call_goes_back_by_order(self) -> None:
        script = ["setup c1 a b via 1 backup 2", REST, "fail link 1", REST, "repair link 1", REST, "show"]
        script += ["revert c1"]
        self.assertEqual(states(PAIR, script), ["turned", "guarded"])
        self.assertEqual(legs(told(PAIR, script), "a.1.2", "b"), ["live", "held"])

    # The ingress is told by b in the second round, and counts ticks from the third on.
    def test_a_turned_call_goes_back_after_the_wait(self) -> None:
        script = ["setup c1 a b via 1 backup 2", REST, "fail link 1", REST, "repair link 1", *ROUNDS]
        for wait in (1, 2, 5):
            with self.subTest(wait=wait):
                self.assertEqual(states(PAIR, script, wait=wait), ["turned"] * (wait + 1) + ["guarded"] * (8 - wait))

    def test_a_turned_call_goes_back_from_a_hit_backup(self) -> None:
        script = ["setup c1 a b via 1 backup 2", REST, "fail link 1", REST, "repair link 1", REST]
        script += ["fail link 2", *ROUNDS]
        self.assertEqual(changes(states(PAIR, script)), ["turned", "guarded"])

    def test_a_call_goes_back_as_soon_as_it_is_turned(self) -> None:
        script = ["setup c1 a z via 1 backup 2,3,4,5", REST, "fail link 1", "wait 2", "show"]
        self.assertEqual(changes(states(RING, [*script, *ROUNDS])), ["turning", "turned"])
        script += ["repair link 1", "fail link 2", *ROUNDS]
        self.assertEqual(changes(states(RING, script)), ["turning", "guarded"])


class BackupTest(unittest.TestCase):
    """A backup away from its ingress."""

    def test_a_backup_is_activated_node_by_node(self) -> None:
        text = told(RING, ["setup c1 a z via 1 backup 2,3,4,5", REST, "fail link 1", *ROUNDS])
        self.assertEqual(changes(legs(text, "a.1.2", "n4")), ["held", "armed", "live"])
        self.assertEqual(changes(legs(text, "a.1.2", "z")), ["held", "live"])

    # The other backup has the label then.
    def test_a_live_backup_is_taken_back(self) -> None:
        script = ["setup c1 a d", REST, "setup c2 b d", REST, "fail srlg 7", REST, "show", "repair srlg 7", REST]
        text = told(SHARED, [*script, "revert c1", REST, "show", "fail srlg 8"])
        self.assertEqual(legs(text, "a.1.2", "c"), ["live", "held", "held"])
        self.assertEqual(legs(text, "b.1.2", "c"), ["held", "held", "live"])
        self.assertRegex(text, r"(?s)leg a\.1\.2 c back live 3/1 5/1\n.*leg b\.1\.2 c back live 4/1 5/1\n")

    # The ingress knows of fibres further on only by what is passed back.
    def test_each_node_of_a_backup_passes_a_report_back(self) -> None:
        for link in (2, 3, 4, 5):
            script = ["setup c1 a z via 1 backup 2,3,4,5", REST, f"fail link {link}", REST]
            with self.subTest(link=link):
                self.assertEqual(states(RING, [*script, "fail link 1", REST]), ["stuck backdown"])
                self.assertEqual(states(RING, [*script, f"repair link {link}", REST, "fail link 1"]), ["turned"])


if __name__ == "__main__":
    unittest.main()
