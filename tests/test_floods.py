"""Flood messages and their Link TLVs: which bytes spell one, and how they are written.

A plan with noise that spells a message is refused, and one whose noise spells nothing is run. The sub-TLVs follow RFC 3630,
section 2.5, and RFC 4203, section 1; the flood messages are this project's own.
"""

import unittest
from dataclasses import replace

from ason_tools.program import DONE, PLAN_REFUSED

from .support import ason_told
from .test_answers import network

PAIR = network("ab", "ab")

FLOOD = "59"

# The sub-TLVs of link 1 from node 1 to node 2, with metric 1 and SRLG 7; and the id of the other end, from node 2.
TYPE, ID, METRIC = "0001000101000000", "0002000400000002", "0005000400000001"
LINKS, SRLG = "000b00080000000100000001", "0010000400000007"
ID_OF_LOW = "0002000400000001"


def srlgs(count: int) -> str:
    """So many SRLGs, from 0 on."""
    return f"0010{4 * count:04x}" + "".join(f"{number:08x}" for number in range(count))


# Sub-TLVs from node 1 that spell the row of link 1.
ROWS = {
    "as written": TYPE + ID + METRIC + LINKS + SRLG,
    "in another order": SRLG + LINKS + ID + TYPE + METRIC,
    "padding that isn't zero": "0001000101090909" + ID + METRIC + LINKS + SRLG,
    "another type": TYPE + ID + "0009000105000000" + METRIC + LINKS + SRLG,
    "other types twice": TYPE + ID + METRIC + LINKS + SRLG + "0009000000090000",
    "no SRLG": TYPE + ID + METRIC + LINKS,
    "an SRLG twice": TYPE + ID + METRIC + LINKS + "001000080000000700000007",
    "sixteen SRLGs": TYPE + ID + METRIC + LINKS + srlgs(16),
}

# Such that spell no row.
NO_ROWS = {
    "no link type": ID + METRIC + LINKS + SRLG,
    "no link id": TYPE + METRIC + LINKS + SRLG,
    "no metric": TYPE + ID + LINKS + SRLG,
    "no identifiers": TYPE + ID + METRIC + SRLG,
    "two link types": TYPE + ID + METRIC + LINKS + SRLG + TYPE,
    "two link ids": TYPE + ID + METRIC + LINKS + SRLG + ID,
    "two metrics": TYPE + ID + METRIC + LINKS + SRLG + METRIC,
    "identifiers twice": TYPE + ID + METRIC + LINKS + SRLG + LINKS,
    "SRLGs twice": TYPE + ID + METRIC + LINKS + SRLG + SRLG,
    "a link type of two bytes": "0001000201000000" + ID + METRIC + LINKS + SRLG,
    "a link id of three bytes": TYPE + "0002000300000200" + METRIC + LINKS + SRLG,
    "a metric of two bytes": TYPE + ID + "0005000200010000" + LINKS + SRLG,
    "one identifier": TYPE + ID + METRIC + "000b000400000001" + SRLG,
    "half an SRLG": TYPE + ID + METRIC + LINKS + "0010000200070000",
    "padding left out": ID + METRIC + LINKS + SRLG + "0001000101",
    "a value past the end": TYPE + ID + METRIC + LINKS + SRLG + "000900040000",
    "another link type": "0001000102000000" + ID + METRIC + LINKS + SRLG,
    "a link to the origin": TYPE + ID_OF_LOW + METRIC + LINKS + SRLG,
    "metric 0": TYPE + ID + "0005000400000000" + LINKS + SRLG,
    "metric 65,536": TYPE + ID + "0005000400010000" + LINKS + SRLG,
    "other identifiers": TYPE + ID + METRIC + "000b00080000000100000002" + SRLG,
    "seventeen SRLGs": TYPE + ID + METRIC + LINKS + srlgs(17),
}

ACKNOWLEDGEMENTS = {"as written": "0200000000000005", "unread bits that are set": "0209090900000005"}
NO_MESSAGES = {
    "no byte": "",
    "an acknowledgement that is cut short": "02000000000000",
    "one with a byte more": "020000000000000500",
    "another kind": "0300000000000005",
    "a row that is cut short": "0100000000000005",
}


def row(number: int, origin: int, parts: str) -> str:
    """A row with this number from this node, and these sub-TLVs."""
    return f"01000000{number:08x}{origin:08x}0002{len(parts) // 2:04x}{parts}"


class SpellTest(unittest.TestCase):
    """Bytes that spell a flood message, and such that spell none."""

    def spells(self, message: str) -> bool:
        """Whether noise that is a frame with these bytes is refused."""
        ended = ason_told("run", given=replace(PAIR, script=[f"noise a b {FLOOD}{message}"]).text())
        if ended.status == PLAN_REFUSED:
            self.assertEqual(ended.out, "refused plan script 1 spells\n")
        else:
            self.assertEqual((ended.status, ended.out), (DONE, "calls 0 legs 0\n"))
        return ended.status == PLAN_REFUSED

    def test_rows(self) -> None:
        for what, parts in (ROWS | NO_ROWS).items():
            with self.subTest(what=what):
                self.assertEqual(self.spells(row(1, 1, parts)), what in ROWS)

    def test_acknowledgements(self) -> None:
        for what, message in (ACKNOWLEDGEMENTS | NO_MESSAGES).items():
            with self.subTest(what=what):
                self.assertEqual(self.spells(message), what in ACKNOWLEDGEMENTS)


if __name__ == "__main__":
    unittest.main()
