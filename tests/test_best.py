"""The best pair of disjoint routes between two nodes of a plan, and what is told where there is none."""

import unittest
from dataclasses import replace

from ason_tools.plan import Link, Node, Plan
from ason_tools.program import DONE, PLAN_REFUSED, USAGE

from .support import ason_told
from .test_answers import LOOP, PAIR, TWINS, USAGE_LINE
from .test_plans import TRAP

CERTIFIED = "certificate yes"


def ring(nodes: int, more: int = 0, apart: int = 0) -> str:
    """So many nodes in a ring, whose links have the metric 1; so many of the links once more, of the metric 2; and nodes apart."""
    names = [f"n{number}" for number in range(1, nodes + apart + 1)]
    pairs = [(names[place], names[(place + 1) % nodes]) for place in range(nodes)]
    links = [Link(number, pair, 1) for number, pair in enumerate(pairs, 1)]
    links += [Link(nodes + number, pair, 1, metric=2) for number, pair in enumerate(pairs[:more], 1)]
    return Plan([Node(name, number) for number, name in enumerate(names, 1)], links).text()


def backbone(nodes: int) -> str:
    """14 nodes in a ring, seven chords between opposite ones, and further nodes on a way from n14 back to n1."""
    names = [f"n{number}" for number in range(1, nodes + 1)]
    pairs = [(names[place], names[(place + 1) % 14]) for place in range(14)]
    pairs += [(names[place], names[place + 7]) for place in range(7)]
    pairs += list(zip(names[13:], names[14:])) + [(names[-1], names[0])] * (nodes > 14)
    links = [Link(number, pair, 80, srlgs=(7,) * (number in (3, 4))) for number, pair in enumerate(pairs, 1)]
    return Plan([Node(name, number, convert=False) for number, name in enumerate(names, 1)], links).text()


def pair(total: int, primary: str, backup: str) -> list[str]:
    """The lines of a pair."""
    return [f"total {total}", f"primary {primary}", f"backup {backup}", CERTIFIED]


NONE = ["no pair", CERTIFIED]

# A plan, two names, and the lines that are told.
BEST = [
    (TRAP, "s", "t", pair(8, "4 1,5", "4 4,3")),
    (TRAP, "t", "s", pair(8, "4 3,4", "4 5,1")),
    # one link alone
    (PAIR.text(), "a", "b", NONE),
    # links 1 and 2 share a risk group
    (TWINS.text(), "a", "b", pair(5, "2 1", "3 3")),
    (replace(TWINS, links=TWINS.links[:2]).text(), "a", "b", NONE),
    # no link at all
    (replace(PAIR, links=[]).text(), "a", "b", NONE),
    # both ways around the ring cost the same
    (ring(4), "n1", "n3", pair(4, "2 1,2", "2 4,3")),
    # the greatest network, with further nodes that aren't at the end of a link
    (ring(16, more=8, apart=4), "n1", "n9", pair(16, "8 1,2,3,4,5,6,7,8", "8 16,15,14,13,12,11,10,9")),
    # one link, or one end, more
    (ring(16, more=9), "n1", "n9", ["too large"]),
    (ring(17), "n1", "n9", ["too large"]),
    (backbone(17), "n1", "n2", ["too large"]),
    # names come before the size
    (ring(17), "n1", "n1", ["same node"]),
    (ring(17), "-", "+", ["no node -"]),
    (ring(17), "n1", "+", ["no node +"]),
]


class BestTest(unittest.TestCase):
    """What is told of the best pair."""

    def test_the_best_pair_of_two_nodes(self) -> None:
        for text, start, end, lines in BEST:
            with self.subTest(start=start, end=end, lines=lines[:2]):
                ended = ason_told("best", start, end, given=text)
                self.assertEqual((ended.status, ended.out.splitlines()), (DONE, lines))

    def test_a_faulty_plan_is_refused(self) -> None:
        ended = ason_told("best", "a", "b", given=LOOP.text())
        self.assertEqual((ended.status, ended.out), (PLAN_REFUSED, "refused plan link 1 ends\n"))

    def test_other_numbers_of_names_have_no_meaning(self) -> None:
        for names in ([], ["a"], ["a", "b", "b"]):
            with self.subTest(names=names):
                ended = ason_told("best", *names, given=PAIR.text())
                self.assertEqual((ended.status, ended.out), (USAGE, USAGE_LINE))


if __name__ == "__main__":
    unittest.main()
