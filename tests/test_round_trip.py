"""Generated networks: a topology file to a plan, the plan to a run, its output to JSON and back."""

import dataclasses
import json
import random
import unittest
from concurrent.futures import ThreadPoolExecutor
from xml.sax.saxutils import escape, quoteattr

from ason_tools import plan, program
from ason_tools.planning import Wishes, make_plan, read_topology
from ason_tools.tables import Call, Hold, Leg, Lsp, Table

from .support import tool

NETWORKS = 200
SEED = 20261127
TITLES = ("Saint-\u00c9tienne", "New York", "1st & Main", "x", "\u6771\u4eac", "A very long name of a place", "a\"b<c>", "_", "None")


class Network:
    """A random network: titles of nodes, links with a cost, and demands."""

    def __init__(self, chance: random.Random) -> None:
        count = chance.randint(1, 64) if chance.random() < 0.1 else chance.randint(1, 14)
        self.titles = [chance.choice(TITLES) if chance.random() < 0.5 else f"N{number}" for number in range(count)]
        self.links = [tuple(chance.choices(range(count), k=2)) for _ in range(chance.randint(0, min(256, 3 * count)))]
        self.costs = [chance.choice([0.2, 1.0, 7.5, 65535.0, chance.uniform(0, 999)]) for _ in self.links]
        self.demands = [tuple(chance.choices(range(count), k=2)) for _ in range(chance.randint(0, 20))]
        self.labels = chance.choice([1, 2, 3, 80])

    def graphml(self) -> str:
        nodes = "".join(f'<node id="{key}"><data key="t">{escape(title)}</data></node>' for key, title in enumerate(self.titles))
        edges = "".join(
            f'<edge source="{a}" target="{b}"><data key="c">{cost!r}</data></edge>' for (a, b), cost in zip(self.links, self.costs)
        )
        keys = '<key id="t" for="node" attr.name="label"/><key id="c" for="edge" attr.name="routing_cost"/>'
        return f"<graphml>{keys}<graph>{nodes}{edges}</graph></graphml>"

    def xml(self) -> str:
        nodes = "".join(f"<node id={quoteattr(self.key(key))}/>" for key in range(len(self.titles)))
        links = "".join(
            f'<link id="L{number}"><source>{escape(self.key(a))}</source><target>{escape(self.key(b))}</target>'
            f"<routingCost>{cost!r}</routingCost></link>"
            for number, ((a, b), cost) in enumerate(zip(self.links, self.costs))
        )
        demands = "".join(
            f'<demand id="D{number}"><source>{escape(self.key(a))}</source><target>{escape(self.key(b))}</target></demand>'
            for number, (a, b) in enumerate(self.demands)
        )
        structure = f"<networkStructure><nodes>{nodes}</nodes><links>{links}</links></networkStructure>"
        return f"<network>{structure}<demands>{demands}</demands></network>"

    def native(self) -> str:
        nodes = "".join(f"  {key}.{title.split()[0].replace('(', '')}\n" for key, title in enumerate(self.titles))
        names = [line.strip() for line in nodes.splitlines()]
        links = "".join(
            f"  L{number} ( {names[a]} {names[b]} ) 0.00 0.00 {cost!r} 0.00 ( 1.00 2.00 )\n"
            for number, ((a, b), cost) in enumerate(zip(self.links, self.costs))
        )
        demands = "".join(f"  D{number} ( {names[a]} {names[b]} ) 1 1.00 UNLIMITED\n" for number, (a, b) in enumerate(self.demands))
        return f"?SNDlib native format\nNODES (\n{nodes})\nLINKS (\n{links})\nDEMANDS (\n{demands})\n"

    def key(self, node: int) -> str:
        """The id of a node in the XML form."""
        return f"{self.titles[node]} {node}"


def from_json(value: dict) -> Table:
    """The table that the JSON of `tools/table-json` has."""
    calls = tuple(Call(**row | {"work": lsp(row["work"]), "backup": lsp(row["backup"])}) for row in value["calls"])
    holds = ("incoming", "outgoing", "back_incoming", "back_outgoing")
    legs = tuple(
        Leg(**row | {"lsp": lsp(row["lsp"])} | {key: None if row[key] is None else Hold(**row[key]) for key in holds})
        for row in value["legs"]
    )
    return Table(calls, legs)


def lsp(value: dict | None) -> Lsp | None:
    return None if value is None else Lsp(**value)


class RoundTripTest(unittest.TestCase):
    """Each network in one of the three forms."""

    def check(self, number: int) -> None:
        """One network on its whole way."""
        chance = random.Random(SEED + number)
        network = Network(chance)
        form = chance.choice([network.graphml, network.xml, network.native])
        wishes = Wishes(labels=network.labels, metric=chance.choice([None, "routing_cost"]))
        made = make_plan(read_topology(form().encode()), wishes).plan
        text = made.text()
        self.assertEqual(plan.read(text), made)
        loops = sum(a == b for a, b in network.links)
        self.assertEqual((len(made.nodes), len(made.links)), (len(network.titles), len(network.links) - loops))
        run = program.run(text)
        self.assertEqual((run.status, run.refused), (program.DONE, None), text)
        self.assertEqual(len(run.table.calls), len(made.script))
        states = {call.state for call in run.table.calls}
        self.assertLessEqual(states, {"bare", "blocked"})
        self.assertEqual(run.output.text(), run.text)
        self.assertEqual(from_json(json.loads(json.dumps(dataclasses.asdict(run.table)))), run.table)

    def test_two_hundred_networks(self) -> None:
        with ThreadPoolExecutor(4) as pool:
            for number, done in enumerate([pool.submit(self.check, number) for number in range(NETWORKS)]):
                with self.subTest(number=number):
                    done.result()

    def test_the_tools_themselves_on_a_few(self) -> None:
        for number in range(3):
            network = Network(random.Random(number))
            planned = tool("plan-from", "-", "--labels", "2", given=network.xml())
            self.assertEqual(planned.status, 0, planned.err)
            printed = program.run(planned.out).output
            told = tool("table-json", given=printed.text())
            self.assertEqual(told.status, 0, told.err)
            part = json.loads(told.out)[-1]
            self.assertEqual(part.pop("part"), "table")
            self.assertEqual(from_json(part), printed.tables[-1])


if __name__ == "__main__":
    unittest.main()
