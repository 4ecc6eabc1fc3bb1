"""Random plans on several workers: whatever way the threads interleave, each table that is printed keeps the laws."""

import random
import unittest
from collections import Counter
from collections.abc import Iterator
from dataclasses import replace
from itertools import combinations, product

from ason_tools import tables
from ason_tools.plan import Plan
from ason_tools.program import DONE
from ason_tools.tables import Call, Leg, Lsp, Table

from .support import ason_told
from .test_survey import random_plan

PLANS = 200
WORKERS = (2, 4, 16)
STRIDES = (1, 3, 64)


def raced_plan(chance: random.Random) -> Plan:
    """Calls that are set up at the same time while frames are lost, come twice or late; then a link fails and is repaired."""
    plan = random_plan(chance)
    channels = [pair for link in plan.links for pair in (link.ends, link.ends[::-1])]
    frames = [
        f"{chance.choice(('lose', 'repeat', 'hold'))} {' '.join(chance.choice(channels))} {chance.randint(1, 20)}"
        for _ in range(8)
    ]
    setups = [line + " unprotected" * (chance.random() < 0.3) for line in plan.script if line.startswith("setup")]
    link = chance.choice(plan.links).id
    tried = [f"{word} {line.split()[1]}" for line in setups for word in ("retry", "revert")]
    cut = [f"fail link {link}", "wait 2", "show", "settle 300", "show", f"repair link {link}", "settle 300"]
    return replace(plan, script=[*frames, *setups, "wait 3", "show", "settle 300", "show", *cut, *tried])


def taken(legs: list[Leg]) -> Counter[tuple[str, str, int, int]]:
    """How many of these legs have each label of each fibre, at the fibre's either end."""
    ends = [("in", leg.node, leg.incoming) for leg in legs] + [("out", leg.node, leg.outgoing) for leg in legs]
    return Counter((end, node, hold.link, hold.label) for end, node, hold in ends if hold and hold.label is not None)


class Lawful:
    """What each table of a plan keeps, whichever calls won."""

    def __init__(self, plan: Plan, table: Table) -> None:
        self.table = table
        self.links = {link.id: link for link in plan.links}
        self.converts = {node.name: node.convert for node in plan.nodes}
        setups = [line.split() for line in plan.script if line.startswith("setup")]
        self.orders = {words[1]: (words[2], words[3]) for words in setups}

    def breaches(self) -> Iterator[str]:
        """What the table breaks."""
        live = taken([leg for leg in self.table.legs if leg.phase == "live"])
        yield from (f"label {place} is lit {count} times" for place, count in live.items() if count > 1)
        for call in self.table.calls:
            if self.orders.get(call.name) != (call.source, call.target):
                yield f"call {call.name} is another order"
            if call.state not in ("asking", "blocked") and not self.joins(call, call.work):
                yield f"call {call.name} isn't carried"
            if call.state == "turned" and not self.joins(call, call.backup):
                yield f"call {call.name} isn't carried by its backup"
        kept = [call for call in self.table.calls if call.work and call.backup]
        for one, two in combinations(kept, 2):
            if self.share(one, two) and self.risks(one) & self.risks(two):
                yield f"backups of {one.name} and {two.name} share a label and a risk"

    def joins(self, call: Call, lsp: Lsp | None) -> bool:
        """The LSP is live at each node from the call's one end to its other one, on the labels that neighbours name too."""
        legs = {leg.node: leg for leg in self.table.legs_of(lsp)}
        node, came = call.source, None
        while True:
            leg = legs.pop(node, None)
            if leg is None or leg.phase != "live" or leg.incoming != came:
                return False
            if leg.outgoing is None:
                return node == call.target
            if came and not self.converts[node] and came.label != leg.outgoing.label:
                return False
            ends = self.links[leg.outgoing.link].ends
            node, came = ends[1 - ends.index(node)], leg.outgoing

    def share(self, one: Call, two: Call) -> bool:
        """Whether their backups have a label of a fibre in common."""
        return bool(taken(self.table.legs_of(one.backup)) & taken(self.table.legs_of(two.backup)))

    def risks(self, call: Call) -> set[tuple[str, int]]:
        """The risks of the working route."""
        links = [self.links[leg.outgoing.link] for leg in self.table.legs_of(call.work) if leg.outgoing]
        return {risk for link in links for risk in (("link", link.id), *(("srlg", group) for group in link.srlgs))}


class SchedulesTest(unittest.TestCase):
    """Two hundred plans, each on several workers and with several turns a round."""

    def test_each_table_keeps_the_laws(self) -> None:
        chance = random.Random(41)
        states: Counter[str] = Counter()
        for number in range(PLANS):
            plan = raced_plan(chance)
            for workers, stride in product(WORKERS, STRIDES):
                with self.subTest(plan=number, workers=workers, stride=stride):
                    ended = ason_told("run", "--workers", str(workers), "--stride", str(stride), given=plan.text())
                    self.assertEqual(ended.status, DONE)
                    told = tables.read(ended.out).tables
                    self.assertEqual(len(told), 5)
                    for table in told:
                        self.assertEqual(list(Lawful(plan, table).breaches()), [])
                        states.update(call.state for call in table.calls)
        # So that it isn't in vain: calls come to each state in which a table may find them at rest.
        self.assertGreater(min(states[state] for state in ("asking", "bare", "guarded", "turned", "blocked")), 50)


class LawfulTest(unittest.TestCase):
    """That the laws are told from what breaks them."""

    def test_what_breaks_them_is_told(self) -> None:
        plan = Plan(random_plan(random.Random(1)).nodes, random_plan(random.Random(1)).links, ["setup c0 a x unprotected"])
        table = tables.read(ason_told("run", given=plan.text()).out).tables[-1]
        self.assertEqual(list(Lawful(plan, table).breaches()), [])
        first, *others = table.legs
        other = replace(first, lsp=replace(first.lsp, number=9))
        self.assertEqual(len(list(Lawful(plan, replace(table, legs=(*table.legs, other))).breaches())), 1)
        self.assertEqual(list(Lawful(plan, replace(table, legs=tuple(others))).breaches()), ["call c0 isn't carried"])


if __name__ == "__main__":
    unittest.main()
