"""`tools/plan-from` on GNPy's topologies, and routes that GNPy found infeasible."""

import json
import tempfile
import unittest
from pathlib import Path
from random import Random

from ason_tools import program, vetoes
from ason_tools.errors import ToolError
from ason_tools.plan import Link, Node, Plan
from ason_tools.planning import Planned, Wishes, make_plan, read_topology
from ason_tools.routes import by_metric, least_route, routes_in_order

from .support import EXAMPLES, tool

LAKE = EXAMPLES / "bodensee.json"
PATHS = EXAMPLES / "bodensee-paths.json"


def element(uid: str, kind: str, length: float | None = None, city: str | None = None, unit: str = "km") -> dict:
    """An element as GNPy's files have it."""
    found: dict = {"uid": uid, "type": kind}
    if length is not None:
        found["params"] = {"length": length, "length_units": unit, "loss_coef": 0.2}
    if city is not None:
        found["metadata"] = {"location": {"city": city, "region": "", "latitude": 0.0, "longitude": 0.0}}
    return found


def network(elements: list[dict], *ways: str) -> bytes:
    """A file with these elements, and connections from each word of a way to the next."""
    pairs = [pair for way in ways for pair in zip(way.split(), way.split()[1:])]
    connections = [{"from_node": start, "to_node": end} for start, end in pairs]
    return json.dumps({"elements": elements, "connections": connections}).encode()


def planned(data: bytes, **wishes: object) -> Planned:
    return make_plan(read_topology(data), Wishes(**wishes))


def links(plan: Plan) -> list[tuple[tuple[str, str], int]]:
    return [(link.ends, link.metric) for link in plan.links]


ENDS = [element("A", "Transceiver"), element("B", "Transceiver"), element("f1", "Fiber", 80.4), element("f2", "Fiber", 80.4)]


class TopologyTest(unittest.TestCase):
    """What elements and connections become."""

    def test_the_example(self) -> None:
        plan = planned(LAKE.read_bytes()).plan
        self.assertEqual([node.name for node in plan.nodes], ["Zurich", "Konstanz", "Friedrichshafen", "Bregenz", "St-Gallen"])
        self.assertEqual(plan.nodes[0].position, (8.54, 47.37))
        # The lengths of the spans, as the file has them: of F3 60.0 and 41.5, of F5 24.0 and 8.6.
        self.assertCountEqual(
            links(plan),
            [
                (("Zurich", "Konstanz"), 68),
                (("Zurich", "St-Gallen"), 83),
                (("Zurich", "St-Gallen"), 102),
                (("Konstanz", "Friedrichshafen"), 27),
                (("Konstanz", "St-Gallen"), 47),
                (("Friedrichshafen", "Bregenz"), 33),
                (("Bregenz", "St-Gallen"), 39),
            ],
        )

    def test_transceivers_without_roadms_are_nodes(self) -> None:
        data = network([*ENDS, element("amp", "Edfa")], "A f1 amp B", "B f2 A")
        result = planned(data, calls=(("A", "B"),))
        self.assertEqual(links(result.plan), [(("A", "B"), 80)])
        self.assertEqual((result.plan.script, result.notes), (["setup c1 A B unprotected via 1"], []))

    def test_metres_and_raman_fibres(self) -> None:
        fibres = [element("f1", "RamanFiber", 2500, unit="m"), element("f2", "Fiber", 2.5)]
        self.assertEqual(links(planned(network([*ENDS[:2], *fibres], "A f1 B", "B f2 A")).plan), [(("A", "B"), 2)])

    def test_both_directions_through_one_fused_element(self) -> None:
        fibres = [element(f"g{number}", "Fiber", 10.0) for number in (1, 2)]
        data = network([*ENDS, *fibres, element("x", "Fused")], "A f1 x g1 B", "B g2 x f2 A")
        result = planned(data)
        self.assertEqual((links(result.plan), result.notes), ([(("A", "B"), 90)], []))

    def test_a_way_without_a_way_back(self) -> None:
        result = planned(network(ENDS[:3], "A f1 B"))
        self.assertEqual(links(result.plan), [(("A", "B"), 80)])
        self.assertEqual(result.notes, ["the way of 'f1' has no way back: it is taken for both"])

    def test_names_and_cities(self) -> None:
        roadms = [element(f"roadm {name}", "Roadm", city=city) for name, city in (("a", "Köln"), ("b", "?"), ("c", "Ulm"), ("d", "Ulm"))]
        plan = planned(network(roadms)).plan
        self.assertEqual([node.name for node in plan.nodes], ["Koln", "n", "c", "d"])
        self.assertEqual({node.position for node in plan.nodes}, {None})

    def test_another_attribute_may_be_the_metric(self) -> None:
        self.assertEqual(links(planned(network(ENDS, "A f1 B", "B f2 A"), metric="length", per=10.0).plan), [(("A", "B"), 8)])

    def test_what_is_refused(self) -> None:
        cases = [
            (b"{", "it is no JSON: expecting property name"),
            (b"{}", "the document has no elements that is an array of objects"),
            (b'{"elements": [{}], "connections": []}', "element 1 has no uid that is a text"),
            (b'{"elements": [{"uid": "a"}], "connections": []}', "element 1 has no type that is a text"),
            (network([ENDS[0], ENDS[0]]), "two elements have the uid 'A'"),
            (network(ENDS[:1], "A q"), "connection 1 ends at 'q', which is no element of the file"),
            (network([*ENDS[:2], element("f", "Fiber")], "A f B"), "fibre 'f' has no length from 0 on in km or m"),
            (network([*ENDS[:2], element("f", "Fiber", -1)], "A f B"), "fibre 'f' has no length from 0 on in km or m"),
            (network([*ENDS[:2], element("f", "Fiber", 1, unit="mi")], "A f B"), "fibre 'f' has no length from 0 on in km or m"),
            (network([]), "it has no node"),
        ]
        for data, sentence in cases:
            with self.subTest(sentence=sentence), self.assertRaises(ToolError) as caught:
                planned(data)
            self.assertIn(sentence, str(caught.exception))


class CheckTest(unittest.TestCase):
    """Routes that GNPy found infeasible."""

    def setup_lines(self, infeasible: list[list[str]], **wishes: object) -> tuple[list[str], list[str]]:
        """The script, and the sentences but that on parallel edges."""
        result = planned(LAKE.read_bytes(), infeasible=tuple(map(tuple, infeasible)), **wishes)
        return result.plan.script, [note for note in result.notes if "join the same nodes" not in note]

    def test_an_answer_has_its_infeasible_routes(self) -> None:
        # The first answer is feasible, and the third lacks spectrum.
        (route,) = vetoes.read(PATHS.read_text())
        self.assertEqual((route[0], route[-1], len(route)), ("trx Zürich", "trx Bregenz", 7))

    def test_the_next_route_is_given(self) -> None:
        # Over St. Gallen 83.1 + 38.9 km, over Konstanz and Friedrichshafen 68.4 + 27.2 + 32.6.
        calls = (("Zürich", "Bregenz"),)
        self.assertEqual(self.setup_lines([], calls=calls)[0], ["setup c1 Zurich Bregenz unprotected via 2,7"])
        barred = vetoes.read(PATHS.read_text())
        self.assertEqual(self.setup_lines(barred, calls=calls), (["setup c1 Zurich Bregenz unprotected via 1,4,6"], []))
        # The other way round it isn't on the list.
        back = self.setup_lines(barred, calls=(("Bregenz", "Zürich"),))[0]
        self.assertEqual(back, ["setup c1 Bregenz Zurich unprotected via 7,2"])

    def test_a_route_by_its_nodes_alone_is_each_of_the_parallel_links(self) -> None:
        routes = [["Zürich", "St. Gallen"], ["Zurich", "roadm Konstanz", "trx St. Gallen"]]
        script, notes = self.setup_lines(routes[:1], calls=(("Zürich", "St. Gallen"),))
        self.assertEqual((script, notes), (["setup c1 Zurich St-Gallen unprotected via 1,5"], []))
        script, _ = self.setup_lines(routes, calls=(("Zürich", "St. Gallen"),))
        self.assertEqual(script, ["setup c1 Zurich St-Gallen unprotected via 1,4,6,7"])

    def test_a_backup_is_given_that_is_not_infeasible(self) -> None:
        calls = (("Zürich", "Bregenz"),)
        barred = [["Zürich", "fiber (Zürich → Konstanz)-F1", "Konstanz", "Friedrichshafen", "Bregenz"]]
        self.assertEqual(self.setup_lines([], calls=calls, protected=True)[0], ["setup c1 Zurich Bregenz via 2,7 backup 1,4,6"])
        script, notes = self.setup_lines(barred, calls=calls, protected=True)
        self.assertEqual(script, ["setup c1 Zurich Bregenz unprotected via 2,7"])
        self.assertEqual(notes, ["demand 'c1' has no backup that isn't infeasible: it goes unprotected"])

    def test_a_demand_without_a_feasible_route_is_left_out(self) -> None:
        data = network(ENDS, "A f1 B", "B f2 A")
        result = planned(data, infeasible=(("A", "f1", "B"),), calls=(("A", "B"),))
        self.assertEqual(result.plan.script, [])
        self.assertEqual(result.notes, ["demand 'c1' has no route of at most 63 links that isn't infeasible and is left out"])

    def test_a_route_of_another_network_is_told(self) -> None:
        notes = self.setup_lines([["Zürich", "Bregenz"], ["x"]])[1]
        self.assertEqual(
            notes,
            [
                "route 1 of the infeasible ones ('Zürich Bregenz') isn't one of this network",
                "route 2 of the infeasible ones ('x') isn't one of this network",
            ],
        )

    def test_the_program_runs_the_plan(self) -> None:
        ended = tool("plan-from", str(LAKE), "--gnpy-check", str(PATHS), "--protected", "--settle", "--call", "Zürich", "Bregenz")
        self.assertEqual(ended.status, 0)
        self.assertEqual([call.state for call in program.run(ended.out).table.calls], ["guarded"])

    def test_words_that_are_wrong(self) -> None:
        with tempfile.TemporaryDirectory() as folder:
            path = Path(folder) / "list.json"
            path.write_text('[["a", 1]]')
            cases = [
                (["--routes", "found", "--gnpy-check", str(PATHS)], "--gnpy-check needs --routes given, since the program finds routes by itself"),
                (["--gnpy-check", str(path)], f"{path}: it is no list of routes, each a list of ids"),
                (["--gnpy-check", str(LAKE)], f"{LAKE}: the document has no response that is an array of objects"),
            ]
            for words, sentence in cases:
                ended = tool("plan-from", str(LAKE), *words)
                self.assertEqual((ended.status, ended.out, ended.err), (2, "", f"plan-from: {sentence}\n"))


class RoutesTest(unittest.TestCase):
    """Routes in order of their cost."""

    def test_the_routes_of_drawn_networks(self) -> None:
        chance = Random(5)
        for _ in range(30):
            names = "abcdef"
            pairs = [tuple(chance.sample(names, 2)) for _ in range(9)]
            found = [Link(number, pair, 1, chance.randint(1, 9)) for number, pair in enumerate(pairs, 1)]
            plan = Plan([Node(name, number) for number, name in enumerate(names, 1)], found)
            routes = list(routes_in_order(plan, "a", "f", by_metric))
            self.assertEqual(routes[0] if routes else None, least_route(plan, "a", "f", by_metric))
            costs = [sum(link.metric for link in route) for route in routes]
            self.assertEqual(costs, sorted(costs))
            self.assertCountEqual([[link.id for link in route] for route in routes], all_routes(found, "a", []))


def all_routes(found: list[Link], node: str, route: list[int]) -> list[list[int]]:
    """Each way on from this node to f that passes no node twice."""
    if node == "f":
        return [route]
    left = [link for link in found if node not in link.ends]
    on = [link for link in found if node in link.ends]
    return [way for link in on for way in all_routes(left, link.other(node), [*route, link.id])]


if __name__ == "__main__":
    unittest.main()
