"""The bytes of frames, as controllers write them: rows of links and their acknowledgements, and the PROTECTION of a Path."""

import re
import unittest
from dataclasses import replace

from ason_tools import frames, traces
from ason_tools.plan import Link

from .support import ason_told
from .test_answers import A_TO_B, PAIR
from .test_floods import FLOOD, ID, ID_OF_LOW, LINKS, METRIC, SRLG, TYPE, row
from .test_restoring import SETUPS, triangle

# A PROTECTION: S, P and the LSP flags (RFC 4872, section 14).
UNPROTECTED = "000c25020000000000000000"
WORKING = "000c25020002000000000000"
RESERVED = "000c2502c002000000000000"
ACTIVATED = "000c25024002000000000000"


def written(trace: str) -> list[str]:
    """The frames that the nodes of the trace took, in order."""
    return [frame.hex() for _, frame in frames.deliveries(trace.encode(), traces.read(trace.encode()))]


class FloodTest(unittest.TestCase):
    """Two nodes and a link with an SRLG."""

    def test_a_row_from_both_ends_and_its_acknowledgement(self) -> None:
        plan = replace(PAIR, links=[Link(1, ("a", "b"), 1, srlgs=(7,))]).text()
        events = "1 a tick\n2 b deliver a 1\n3 b tick\n4 a deliver b 1\n5 a deliver b 2\n"
        trace = f"ason-trace 2\nplan {len(plan)}\n{plan}\nevents 5\n{events}table\ncalls 0 legs 0\nend\n"
        low, high = TYPE + ID + METRIC + LINKS + SRLG, TYPE + ID_OF_LOW + METRIC + LINKS + SRLG
        expected = [FLOOD + row(1, 1, low), FLOOD + "0200000000000001", FLOOD + row(1, 2, high)]
        self.assertEqual(written(trace), expected)


class ProtectionTest(unittest.TestCase):
    """The PROTECTION of each Path of a run, each once."""

    def protections(self, plan: str) -> list[str]:
        told = "".join(written(ason_told("run", "--trace", given=plan).out))
        return list(dict.fromkeys(re.findall("000c2502.{16}", told)))

    def test_an_unprotected_call(self) -> None:
        self.assertEqual(self.protections(replace(PAIR, script=[A_TO_B]).text()), [UNPROTECTED])

    def test_a_protected_call_that_turns(self) -> None:
        self.assertEqual(self.protections(triangle(SETUPS)), [WORKING, RESERVED, ACTIVATED])


if __name__ == "__main__":
    unittest.main()
