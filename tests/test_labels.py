"""Which labels calls take, share and give up, of nodes that convert and of transparent ones, one-way and two-way.

In a round the nodes take their turns in order of number, so a `wait 1` shows a setup or a release on its way.
"""

import re
import unittest
from dataclasses import replace

from ason_tools.plan import Link, Plan
from ason_tools.program import DONE

from .support import ason_told
from .test_answers import network

REST = "settle 100"


def transparent(plan: Plan) -> Plan:
    """The same, where no node converts."""
    return replace(plan, nodes=[replace(node, convert=False) for node in plan.nodes])


def with_labels(plan: Plan, *labels: int) -> Plan:
    """The same, where the links have so many labels each."""
    return replace(plan, links=[replace(link, labels=count) for link, count in zip(plan.links, labels, strict=True)])


PAIR = network("ab", "ab", labels=2)
TWINS = network("ab", "ab", "ab", labels=2)
ROW = with_labels(network("abc", "ab", "bc"), 2, 3)
TRIANGLE = network("abc", "ab", "bc", "ac", labels=2)


def settled(*lines: str) -> list[str]:
    """The lines, each of which is settled before the next."""
    return [part for line in lines for part in (line, REST)]


# Networks, scripts, and what becomes of the calls and their legs.
CALLS = [
    # at the egress the least label that is free, and none where there is none
    (
        PAIR,
        [f"setup c{number} a b unprotected via 1" for number in (1, 2, 3)],
        """\
calls 3 legs 4
call c1 a b bare a.1.1 - -
call c2 a b bare a.2.2 - -
call c3 a b blocked - - set
leg a.1.1 a work live - 1/1
leg a.1.1 b work live 1/1 -
leg a.2.2 a work live - 1/2
leg a.2.2 b work live 1/2 -
""",
    ),
    # a call that is released gives its label up
    (
        PAIR,
        settled("setup c1 a b unprotected", "setup c2 a b unprotected", "release c1", "setup c3 a b unprotected"),
        """\
calls 2 legs 4
call c2 a b bare a.2.2 - -
call c3 a b bare a.3.3 - -
leg a.2.2 a work live - 1/2
leg a.2.2 b work live 1/2 -
leg a.3.3 a work live - 1/1
leg a.3.3 b work live 1/1 -
""",
    ),
    # a node that converts sends every label of the next link on, the third too, and passes the least label back
    (
        ROW,
        settled("setup c1 b c unprotected", "setup c2 b c unprotected", "setup c3 a c unprotected"),
        """\
calls 3 legs 7
call c1 b c bare b.1.1 - -
call c2 b c bare b.2.2 - -
call c3 a c bare a.1.1 - -
leg a.1.1 a work live - 1/1
leg a.1.1 b work live 1/1 2/3
leg a.1.1 c work live 2/3 -
leg b.1.1 b work live - 2/1
leg b.1.1 c work live 2/1 -
leg b.2.2 b work live - 2/2
leg b.2.2 c work live 2/2 -
""",
    ),
    # a transparent node sends on the labels that were offered, and passes back the one that comes
    (
        transparent(ROW),
        settled("setup c1 b c unprotected", "setup c2 a c unprotected"),
        """\
calls 2 legs 5
call c1 b c bare b.1.1 - -
call c2 a c bare a.1.1 - -
leg a.1.1 a work live - 1/2
leg a.1.1 b work live 1/2 2/2
leg a.1.1 c work live 2/2 -
leg b.1.1 b work live - 2/1
leg b.1.1 c work live 2/1 -
""",
    ),
    (
        transparent(ROW),
        settled("setup c1 b c unprotected", "setup c2 b c unprotected", "setup c3 a c unprotected"),
        """\
calls 3 legs 4
call c1 b c bare b.1.1 - -
call c2 b c bare b.2.2 - -
call c3 a c blocked - - set
leg b.1.1 b work live - 2/1
leg b.1.1 c work live 2/1 -
leg b.2.2 b work live - 2/2
leg b.2.2 c work live 2/2 -
""",
    ),
    # the label that comes back was taken meanwhile: by a transparent node none else will do, one that converts has another
    (
        transparent(ROW),
        ["setup c1 a c unprotected", "setup c2 a b unprotected"],
        """\
calls 2 legs 2
call c1 a c blocked - - label
call c2 a b bare a.2.2 - -
leg a.2.2 a work live - 1/1
leg a.2.2 b work live 1/1 -
""",
    ),
    (
        ROW,
        ["setup c1 a c unprotected", "setup c2 a b unprotected"],
        """\
calls 2 legs 5
call c1 a c bare a.1.1 - -
call c2 a b bare a.2.2 - -
leg a.1.1 a work live - 1/2
leg a.1.1 b work live 1/2 2/1
leg a.1.1 c work live 2/1 -
leg a.2.2 a work live - 1/1
leg a.2.2 b work live 1/1 -
""",
    ),
    # a working LSP shares no label, neither before a backup nor after it
    (
        TWINS,
        settled("setup c1 a b unprotected via 2", "setup c2 a b via 1 backup 2"),
        """\
calls 2 legs 6
call c1 a b bare a.1.1 - -
call c2 a b guarded a.2.2 a.2.3 -
leg a.1.1 a work live - 2/1
leg a.1.1 b work live 2/1 -
leg a.2.2 a work live - 1/1
leg a.2.2 b work live 1/1 -
leg a.2.3 a back held - 2/2
leg a.2.3 b back held 2/2 -
""",
    ),
    (
        TWINS,
        settled("setup c1 a b via 1 backup 2", "setup c2 a b unprotected via 2"),
        """\
calls 2 legs 6
call c1 a b guarded a.1.1 a.1.2 -
call c2 a b bare a.2.3 - -
leg a.1.1 a work live - 1/1
leg a.1.1 b work live 1/1 -
leg a.1.2 a back held - 2/1
leg a.1.2 b back held 2/1 -
leg a.2.3 a work live - 2/2
leg a.2.3 b work live 2/2 -
""",
    ),
    # two backups whose working routes have a link in common share none
    (
        TWINS,
        settled("setup c1 a b via 1 backup 2", "setup c2 a b via 1 backup 2"),
        """\
calls 2 legs 8
call c1 a b guarded a.1.1 a.1.2 -
call c2 a b guarded a.2.3 a.2.4 -
leg a.1.1 a work live - 1/1
leg a.1.1 b work live 1/1 -
leg a.1.2 a back held - 2/1
leg a.1.2 b back held 2/1 -
leg a.2.3 a work live - 1/2
leg a.2.3 b work live 1/2 -
leg a.2.4 a back held - 2/2
leg a.2.4 b back held 2/2 -
""",
    ),
]

TWO_WAY = [
    # a protected one: its backup is two-way too
    (
        transparent(TRIANGLE),
        ["setup c1 a c both"],
        """\
calls 1 legs 5
call c1 a c guarded a.1.1 a.1.2 -
leg a.1.1 a work live - 3/1 back 3/1 -
leg a.1.1 c work live 3/1 - back - 3/1
leg a.1.2 a back held - 1/1 back 1/1 -
leg a.1.2 b back held 1/1 2/1 back 2/1 1/1
leg a.1.2 c back held 2/1 - back - 2/1
""",
    ),
    # one in the other direction finds the label of the way back taken
    (
        transparent(PAIR),
        settled("setup c1 a b unprotected both", "setup c2 b a unprotected"),
        """\
calls 2 legs 4
call c1 a b bare a.1.1 - -
call c2 b a bare b.1.1 - -
leg a.1.1 a work live - 1/1 back 1/1 -
leg a.1.1 b work live 1/1 - back - 1/1
leg b.1.1 a work live 1/2 -
leg b.1.1 b work live - 1/2
""",
    ),
    (
        transparent(network("ab", "ab")),
        settled("setup c1 a b unprotected both", "setup c2 b a unprotected"),
        """\
calls 2 legs 2
call c1 a b bare a.1.1 - -
call c2 b a blocked - - set
leg a.1.1 a work live - 1/1 back 1/1 -
leg a.1.1 b work live 1/1 - back - 1/1
""",
    ),
    # a transparent node can't take the upstream label; one that converts takes another
    (
        transparent(network("abc", "ab", "bc", labels=2)),
        settled("setup c1 c b unprotected", "setup c2 a c unprotected both"),
        """\
calls 2 legs 2
call c1 c b bare c.1.1 - -
call c2 a c blocked - - label
leg c.1.1 b work live 2/1 -
leg c.1.1 c work live - 2/1
""",
    ),
    (
        network("abc", "ab", "bc", labels=2),
        settled("setup c1 c b unprotected", "setup c2 a c unprotected both"),
        """\
calls 2 legs 5
call c1 c b bare c.1.1 - -
call c2 a c bare a.1.1 - -
leg a.1.1 a work live - 1/1 back 1/1 -
leg a.1.1 b work live 1/1 2/1 back 2/2 1/1
leg a.1.1 c work live 2/1 - back - 2/2
leg c.1.1 b work live 2/1 -
leg c.1.1 c work live - 2/1
""",
    ),
]

# Three links between two nodes, of one label each, and two calls whose backups share that of the third.
SHARING = network("ab", "ab", "ab", "ab")
SHARERS = settled("setup c1 a b via 1 backup 3", "setup c2 a b via 2 backup 3")
SHARED = """\
calls 2 legs 8
call c1 a b guarded a.1.1 a.1.2 -
call c2 a b guarded a.2.3 a.2.4 -
leg a.1.1 a work live - 1/1
leg a.1.1 b work live 1/1 -
leg a.1.2 a back held - 3/1
leg a.1.2 b back held 3/1 -
leg a.2.3 a work live - 2/1
leg a.2.3 b work live 2/1 -
leg a.2.4 a back held - 3/1
leg a.2.4 b back held 3/1 -
"""
GIVEN_UP = """\
calls 3 legs 2
call c3 a b blocked - - set
call c4 a b blocked - - set
call c5 a b bare a.5.7 - -
leg a.5.7 a work live - 3/1
leg a.5.7 b work live 3/1 -
"""

# The working links of c2 and c3 have an SRLG in common. So on link 1 the backups of c1 and c3 share a label, and that of c2
# has another one; on link 2 it shares that of c1's.
SENDING = replace(
    network("abcd", "ab", "bc", "bd", labels=2),
    links=[
        *network("abcd", "ab", "bc", "bd", labels=2).links,
        Link(4, ("a", "c"), 2),
        Link(5, ("a", "c"), 2, srlgs=(9,)),
        Link(6, ("a", "d"), 2, srlgs=(9,)),
    ],
)
SENDERS = settled("setup c1 a c via 4 backup 1,2", "setup c3 a d via 6 backup 1,3", "setup c2 a c via 5 backup 1,2")
SENT_BY_BOTH = ["leg a.1.2 b back held 1/1 2/1", "leg a.2.4 b back held 1/1 3/1", "leg a.3.6 b back held 1/2 2/1"]


class LabelTest(unittest.TestCase):
    """The labels of calls and of their legs."""

    def told(self, plan: Plan, script: list[str]) -> str:
        ended = ason_told("run", given=replace(plan, script=script).text())
        self.assertEqual(ended.status, DONE)
        return ended.out

    def test_calls_take_labels(self) -> None:
        for plan, script, text in CALLS:
            with self.subTest(script=script):
                self.assertEqual(self.told(plan, script), text)

    def test_two_way_calls_take_labels_for_both_ways(self) -> None:
        for plan, script, text in TWO_WAY:
            with self.subTest(script=script):
                self.assertEqual(self.told(plan, script), text)

    def test_the_last_of_its_sharers_gives_a_label_up(self) -> None:
        script = [*SHARERS, "show"]
        others = settled("setup c3 a b unprotected via 3", "release c1", "setup c4 a b unprotected via 3")
        script += [*others, *settled("release c2", "setup c5 a b unprotected via 3")]
        self.assertEqual(self.told(SHARING, script), SHARED + GIVEN_UP)

    # At the first node that they have in common the two take different labels, and send the same.
    def test_a_backup_is_not_activated_where_another_one_sends_its_label(self) -> None:
        script = [*SENDERS, "show", *settled("fail link 4", "fail link 5"), "show"]
        text = self.told(SENDING, [*script, *settled("repair link 4", "revert c1", "retry c2")])
        for line in SENT_BY_BOTH:
            self.assertIn(line + "\n", text)
        for call, states in (
            ("c1", ["guarded -", "turned -", "guarded -"]),
            ("c2", ["guarded -", "stuck busy", "turned -"]),
        ):
            found = re.findall(rf"^call {call} \S+ \S+ (\S+) \S+ \S+ (\S+)$", text, re.MULTILINE)
            with self.subTest(call=call):
                self.assertEqual([" ".join(state) for state in found], states)
        phases = re.findall(r"^leg a\.3\.6 b back (\S+) 1/2 2/1$", text, re.MULTILINE)
        self.assertEqual(phases, ["held", "held", "live"])


if __name__ == "__main__":
    unittest.main()
