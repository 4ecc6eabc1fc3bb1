"""Traces that are written by hand, as `check` replays them: frames that are lost, come twice or overtake, and what goes again.

A frame is named by its number on its channel. A node's links are due to its neighbours from the start: their rows go at its
first tick, behind the messages that go again. What is expected is counted by hand, by the rules of hops and floods.
"""

import unittest
from dataclasses import replace

from ason_tools.plan import Plan
from ason_tools.program import DONE, NOT_RUN

from .support import ason_told
from .test_answers import network

TWO, THREE, FOUR = network("ab", "ab", labels=3), network("abc", "ab", "bc", labels=3), network("abcd", "ab", "bc", "cd")
TRIANGLE = network("abc", "ab", "bc", "ac")

NOTHING = "calls 0 legs 0\n"

CALLS = [f"setup q{number} a b unprotected via 1" for number in range(3)]

# Three Paths leave. The first is lost, and all go again at the tick, before the row of the link.
BEGUN = [
    *[event for call in CALLS for event in (f"- post {call}", "a desk")],
    "a tick",
    "b deliver a 4",
]

# Numbers 1, 1, 3, 2, 3 come to b, which takes 1, knows 1 again, leaves 3, and takes 2 and 3. Its frames are acknowledgements
# and Resvs by turns, but that frame 3 acknowledges number 1 again. At a the second Resv comes before the first, and the first
# comes twice. Then b takes a's row, and a the one that b sends at its tick, behind the third Resv, which isn't acknowledged
# yet. The last acknowledgement is that Resv's.
GONE_ON = [
    "b deliver a 4",
    "b deliver a 3",
    "b deliver a 5",
    "b deliver a 6",
    "a deliver b 5",
    "a deliver b 2",
    "a deliver b 2",
    "a deliver b 1",
    "a deliver b 5",
    "a deliver b 7",
    "a deliver b 3",
    "a deliver b 4",
    "a deliver b 6",
    "b deliver a 8",
    "b deliver a 10",
    "b deliver a 7",
    "a deliver b 8",
    "b tick",
    "a deliver b 10",
    "b deliver a 12",
]
LAST = ["b deliver a 11"]

THREE_CALLS = """\
calls 3 legs 6
call q0 a b bare a.1.1 - -
call q1 a b bare a.2.2 - -
call q2 a b bare a.3.3 - -
leg a.1.1 a work live - 1/1
leg a.1.1 b work live 1/1 -
leg a.2.2 a work live - 1/2
leg a.2.2 b work live 1/2 -
leg a.3.3 a work live - 1/3
leg a.3.3 b work live 1/3 -
"""

# No bytes, a byte alone, an unfinished message, and an unfinished flood.
NOISE = [f"b noise a {given}" for given in ("-", "2E", "2E100100", "590000")]

# Both nodes tick so often that all that isn't acknowledged goes again.
TICKS = ["a tick", "b tick"] * 7

# The row of a's link goes 1, 3 and 7 ticks after its first sending, while it isn't acknowledged.
THREE_TICKS = ["a tick", "b deliver a 1", "a tick", "b deliver a 2", "a tick"]
FOUR_MORE = ["a tick", "b deliver a 3", "a tick", "a tick", "a tick"]
TWO_MORE = ["a tick", "b deliver a 4", "a tick"]
ACKNOWLEDGED = ["a tick", "b deliver a 1", "a deliver b 1", "a tick"]

# At its tick b sends both its rows to a and to c.
OWN_ROWS = ["b tick", "a deliver b 1", "a deliver b 2", "c deliver b 1", "c deliver b 2"]

# Before a took the row of link 2 it has no route to c, and afterwards a Path leaves. It acknowledges the row, and sends it to
# nobody: b, from which it came, is its one neighbour.
SEARCHES = [f"setup q{number} a c unprotected" for number in range(2)]
LEARNT = [f"- post {SEARCHES[0]}", "a desk", "b tick", "a deliver b 2", f"- post {SEARCHES[1]}", "a desk"]
OVER_WHAT_IS_LEARNT = """\
calls 2 legs 1
call q0 a c blocked - - noroute
call q1 a c asking a.1.1 - -
leg a.1.1 a work asked - 1/-
"""

# A call from a to c over link 3, once it is posted.
CONNECTED = ["a desk", "c deliver a 1", "a deliver c 2"]

# When a message goes again, in ticks after it was sent.
AGES = (1, 3, 7, 67, 127)


class Replay(unittest.TestCase):
    """Events over a network and a script."""

    def told(self, over: Plan, script: list[str], events: list[str], table: str) -> tuple[int, str]:
        """What `check` answers of the trace with these events and this table."""
        plan = replace(over, script=script).text()
        lines = "".join(f"{stamp} {event}\n" for stamp, event in enumerate(events, 1))
        trace = f"ason-trace 2\nplan {len(plan)}\n{plan}\nevents {len(events)}\n{lines}table\n{table}end\n"
        ended = ason_told("check", given=trace)
        return ended.status, ended.out

    def leads_to(self, over: Plan, script: list[str], events: list[str], table: str) -> None:
        """The events happen, and the table is the one to which they lead."""
        told = self.told(over, script, events, table)
        self.assertEqual(told, (DONE, f"run of {len(events)} events\n{table}"))

    def ends_before(self, over: Plan, script: list[str], events: list[str], number: int) -> None:
        """The event of this number is the first that can't happen."""
        self.assertEqual(self.told(over, script, events, NOTHING), (NOT_RUN, f"not a run {number}\n"))


class HopTest(Replay):
    """Messages over one link."""

    def test_frames_are_lost_and_come_twice_and_overtake(self) -> None:
        for events in ([*BEGUN, *GONE_ON], [*BEGUN, *GONE_ON, *LAST]):
            self.leads_to(TWO, CALLS, events, THREE_CALLS)

    def test_so_many_frames_were_sent(self) -> None:
        events = [*BEGUN, *GONE_ON, *LAST]
        for last in ("b deliver a 13", "a deliver b 11"):
            with self.subTest(last=last):
                self.ends_before(TWO, CALLS, [*events, last], 30)
                # Nothing is left that goes again.
                self.ends_before(TWO, CALLS, [*events, *TICKS, last], 44)

    # Without the last acknowledgement the third Resv goes again, three ticks after it was sent.
    def test_what_is_not_acknowledged_goes_again(self) -> None:
        events = [*BEGUN, *GONE_ON, "b tick"]
        self.ends_before(TWO, CALLS, [*events, "a deliver b 11"], 30)
        self.leads_to(TWO, CALLS, [*events, "b tick", "a deliver b 11"], THREE_CALLS)

    # The row of the link, which is frame 3 since it goes at the first tick, is acknowledged first.
    def test_a_message_goes_again_at_its_ages(self) -> None:
        begun = [f"- post {CALLS[0]}", "a desk", "a tick", "b deliver a 3", "a deliver b 1"]
        table = "calls 1 legs 2\ncall q0 a b asking a.1.1 - -\nleg a.1.1 a work asked - 1/-\nleg a.1.1 b work live 1/1 -\n"
        for ticks in range(1, 131):
            events = [*begun, *["a tick"] * (ticks - 1)]
            sent = 2 + sum(age <= ticks for age in AGES)
            with self.subTest(ticks=ticks):
                if ticks in AGES:
                    self.leads_to(TWO, CALLS, [*events, f"b deliver a {2 if ticks == 1 else sent}"], table)
                if ticks + 1 in AGES or ticks == 130:
                    self.ends_before(TWO, CALLS, [*events, f"b deliver a {sent + 1}"], len(events) + 1)

    def test_what_cannot_happen(self) -> None:
        """A frame 0, one that wasn't sent, an empty desk, no node of the plan, a post that isn't the next: the first is told."""
        for event in ("b deliver a 0", "b deliver a 8", "a desk", "c tick", f"- post {CALLS[1]}"):
            with self.subTest(event=event):
                self.ends_before(TWO, CALLS, [*BEGUN, event, "x tick"], 9)

    def test_noise_changes_nothing_and_is_not_answered(self) -> None:
        self.leads_to(TWO, [], NOISE, NOTHING)
        self.ends_before(TWO, [], [*NOISE, "a deliver b 1"], 5)


class FloodTest(Replay):
    """Rows of links."""

    def test_a_row_goes_again_until_it_is_acknowledged(self) -> None:
        for events, last, number in (
            (THREE_TICKS, "b deliver a 3", 6),
            ([*THREE_TICKS, *FOUR_MORE], "b deliver a 4", 11),
            ([*THREE_TICKS, *FOUR_MORE, *TWO_MORE], "b deliver a 5", 14),
            (ACKNOWLEDGED, "b deliver a 2", 5),
        ):
            with self.subTest(number=number):
                self.leads_to(TWO, [], events, NOTHING)
                self.ends_before(TWO, [], [*events, last], number)

    def test_own_rows_go_to_each_neighbour(self) -> None:
        self.leads_to(THREE, [], OWN_ROWS, NOTHING)
        for node in "ac":
            with self.subTest(node=node):
                self.ends_before(THREE, [], [*OWN_ROWS, f"{node} deliver b 3"], 6)

    # c acknowledges b's row of link 1 and passes it on to d, and does the first alone where it comes again.
    def test_a_new_row_is_passed_on(self) -> None:
        events = ["b tick", *["c deliver b 1"] * 2, "d deliver c 1", "b deliver c 1", "b deliver c 2", "c deliver d 1"]
        self.leads_to(FOUR, [], events, NOTHING)
        for last in ("b deliver c 3", "d deliver c 2", "c deliver d 2"):
            with self.subTest(last=last):
                self.ends_before(FOUR, [], [*events, last], 8)

    def test_a_call_goes_over_a_link_that_was_learnt(self) -> None:
        self.leads_to(THREE, SEARCHES, LEARNT, OVER_WHAT_IS_LEARNT)
        self.ends_before(THREE, SEARCHES, [*LEARNT, "b deliver a 1", "b deliver a 2", "b deliver a 3"], 9)


class UnlearntTest(Replay):
    """Calls over a triangle of whose links no node has learnt any."""

    def leads_to_bare(self, setup: str, events: list[str], cause: str, *legs: str) -> None:
        table = [f"calls 1 legs {len(legs)}", f"call q0 a c bare a.1.1 - {cause}", *(f"leg a.1.1 {leg}" for leg in legs)]
        self.leads_to(TRIANGLE, [setup], [f"- post {setup}", *events], "".join(line + "\n" for line in table))

    # The node between doesn't know link 3, so it can't tell which risks the working route has.
    def test_a_node_on_the_way_of_a_backup_does_not_know_the_working_route(self) -> None:
        events = [*CONNECTED, "b deliver a 1", "a deliver b 2"]
        self.leads_to_bare("setup q0 a c via 3 backup 1,2", events, "primary", "a work live - 3/1", "c work live 3/1 -")

    def test_no_route_for_a_backup_is_known(self) -> None:
        self.leads_to_bare("setup q0 a c via 3", CONNECTED, "nobackup", "a work live - 3/1", "c work live 3/1 -")

    # Link 3 would do, but the ingress can't tell which risks link 2 has.
    def test_a_link_of_the_working_route_is_not_known(self) -> None:
        events = ["a desk", "b deliver a 1", "c deliver b 1", "b deliver c 2", "a deliver b 2"]
        legs = ("a work live - 1/1", "b work live 1/1 2/1", "c work live 2/1 -")
        self.leads_to_bare("setup q0 a c via 1,2", events, "nobackup", *legs)


if __name__ == "__main__":
    unittest.main()
