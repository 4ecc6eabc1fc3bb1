"""Plans from topologies of RFC 8345 and of networkx, and tables as ietf-te and as CSV."""

import base64
import copy
import json
import tempfile
import unittest
from pathlib import Path
from typing import Any

import ason
from ason_tools import ietf_te, plan, routes_told, tables

from .support import EXAMPLES, Ended, plan_text, tool
from .test_commands import BAD_FILES

ALPS = json.loads((EXAMPLES / "alps.json").read_text())

# Three nodes in a ring, without anything of traffic engineering, and without the names of modules before members.
RING = {
    "networks": {
        "network": [
            {
                "network-id": "otn-hc",
                "node": [{"node-id": name} for name in ("D1", "D2", "D3")],
                "link": [
                    {"link-id": f"{a},{b}", "source": {"source-node": a}, "destination": {"dest-node": b}}
                    for a, b in (("D1", "D2"), ("D2", "D1"), ("D1", "D3"), ("D3", "D1"), ("D2", "D3"), ("D3", "D2"))
                ],
            }
        ]
    }
}


def one_way(key: str, source: tuple[str, str], target: tuple[str, str], **attributes: Any) -> dict[str, Any]:
    """A link of RFC 8345 between two termination points."""
    link = {
        "link-id": key,
        "source": {"source-node": source[0], "source-tp": source[1]},
        "destination": {"dest-node": target[0], "dest-tp": target[1]},
    }
    return link | {"ietf-te-topology:te": {"te-link-attributes": attributes}}


def network_of(links: list[dict[str, Any]]) -> dict[str, Any]:
    """A topology of the nodes a, b and c with these links."""
    nodes = [{"node-id": name} for name in "abc"]
    return {"ietf-network:networks": {"network": [{"network-id": "n", "node": nodes, "ietf-network-topology:link": links}]}}


class TopologyTest(unittest.TestCase):
    """JSON of RFC 8345 and RFC 8795 to plans."""

    def made(self, topology: Any, *words: str) -> Ended:
        return tool("plan-from-ietf", "-", *words, given=json.dumps(topology))

    def links(self, ended: Ended) -> list[tuple[tuple[str, str], int, tuple[int, ...]]]:
        return [(link.ends, link.metric, link.srlgs) for link in plan.read(ended.out).links]

    def test_metrics_srlgs_names_and_places(self) -> None:
        ended = tool("plan-from-ietf", str(EXAMPLES / "alps.json"), "--labels", "4", "--call", "Lyon", "Genève", "--settle")
        self.assertEqual((ended.status, ended.err), (0, "node 'Genève' is Geneve\n"))
        read = plan.read(ended.out)
        self.assertEqual([node.name for node in read.nodes], ["Lyon", "Grenoble", "Torino", "Milano", "Geneve"])
        self.assertEqual(read.nodes[2].position, (7.69, 45.07))
        self.assertEqual(
            self.links(ended),
            [
                (("Lyon", "Grenoble"), 110, (3,)),
                (("Grenoble", "Torino"), 230, ()),
                (("Torino", "Milano"), 140, ()),
                (("Milano", "Geneve"), 320, ()),
                (("Geneve", "Lyon"), 150, ()),
                (("Geneve", "Grenoble"), 140, (3,)),
            ],
        )
        self.assertEqual({link.labels for link in read.links}, {4})
        self.assertEqual(read.script, ["setup c1 Lyon Geneve", "settle 1000"])

    def test_without_traffic_engineering(self) -> None:
        ended = self.made(RING, "--unprotected", "--call", "D1", "D2", "--no-convert")
        self.assertEqual((ended.status, ended.err), (0, ""))
        self.assertEqual(self.links(ended), [(("D1", "D2"), 1, ()), (("D1", "D3"), 1, ()), (("D2", "D3"), 1, ())])
        self.assertEqual(plan.read(ended.out).script, ["setup c1 D1 D2 unprotected"])
        self.assertNotIn("convert", ended.out)

    def test_parallel_links_belong_together_by_their_termination_points(self) -> None:
        links = [
            one_way("1", ("a", "1"), ("b", "1"), **{"te-srlgs": {"value": [1]}}),
            one_way("2", ("a", "2"), ("b", "2"), **{"te-srlgs": {"value": [2]}}),
            one_way("3", ("b", "2"), ("a", "2"), **{"te-srlgs": {"value": [3]}}),
            one_way("4", ("b", "1"), ("a", "1"), **{"te-srlgs": {"value": [4]}}),
        ]
        ended = self.made(network_of(links))
        self.assertEqual(self.links(ended), [(("a", "b"), 1, (1, 4)), (("a", "b"), 1, (2, 3))])

    def test_what_is_left_out_or_merged_is_told(self) -> None:
        links = [
            one_way("loop", ("a", "1"), ("a", "2")),
            one_way("dark", ("a", "3"), ("b", "3"), **{"admin-status": "down"}),
            one_way("there", ("a", "4"), ("b", "4"), **{"te-default-metric": 3}),
            one_way("back", ("b", "4"), ("a", "4"), **{"te-default-metric": 5}),
            one_way("alone", ("b", "5"), ("c", "5")),
        ]
        topology = network_of(links)
        topology["ietf-network:networks"]["network"].append({"network-id": "other"})
        ended = self.made(topology)
        self.assertEqual(self.links(ended), [(("a", "b"), 3, ()), (("b", "c"), 1, ())])
        told = [
            "network 'other' is left out",
            "link 'loop' is a loop and is left out",
            "link 'dark' is down and is left out",
            "link 'alone' has no link back and is taken for both ways",
            "links 'there' and 'back' have different metrics: the first counts",
        ]
        self.assertEqual(ended.err.splitlines(), [f"plan-from-ietf: {sentence}" for sentence in told])

    def test_which_network(self) -> None:
        typed = copy.deepcopy(ALPS)
        typed["ietf-network:networks"]["network"].insert(0, RING["networks"]["network"][0])
        self.assertIn('name = "Lyon"', self.made(typed).out)
        self.assertIn('name = "D1"', self.made(typed, "--network", "otn-hc").out)
        self.assertIn("no network has the id 'none'", self.made(typed, "--network", "none").err)

    def test_faults_are_told_in_a_sentence(self) -> None:
        end = ("a", "1")
        faults: list[tuple[Any, str]] = [
            ([], "it is no JSON object"),
            ({}, "it has no network"),
            ({"networks": {"network": {}}}, "the network of the document is no array"),
            ({"networks": {"network": [5]}}, "network 1 has no network-id"),
            ({"networks": {"network": [{"network-id": "n"}]}}, "the network has no node"),
            ({"networks": {"network": [{"network-id": "n", "node": [{"node-id": 1}]}]}}, "node 1 has no node-id"),
            ({"networks": {"network": [{"network-id": "n", "node": [{"node-id": "a"}] * 2}]}}, "two nodes have the id 'a'"),
            ({"networks": {"network": [{"network-id": "n", "node": [{"node-id": str(n)} for n in range(65)]}]}}, "more than 64 nodes"),
            (network_of([{"link-id": "1"}]), "link '1' has no source"),
            (network_of([{"link-id": "1", "source": {"source-node": "a"}, "destination": {}}]), "link '1' has no dest-node"),
            (network_of([one_way("1", end, ("z", "1"))]), "link '1' ends at 'z', which is no node"),
            (network_of([one_way("1", end, ("b", "1"), **{"te-default-metric": "9"})]), "the te-default-metric of link '1' is no number"),
            (network_of([one_way("1", end, ("b", "1"), **{"te-default-metric": 70_000})]), "the metric of link '1' is '70000', and not 1 to 65,535"),
            (network_of([one_way("1", end, ("b", "1"), **{"te-srlgs": {"value": ["x"]}})]), "an SRLG of link '1' is no number"),
            (network_of([one_way("1", end, ("b", "1"), **{"te-srlgs": {"value": [*range(17)]}})]), "link '1' has 17 SRLGs"),
            (network_of([one_way(str(n), end, ("b", "1")) for n in range(257)]), "more than 256 links"),
        ]
        for topology, words in faults:
            with self.subTest(words=words):
                ended = self.made(topology)
                self.assertEqual((ended.status, ended.out), (2, ""))
                self.assertRegex(ended.err, r"\Aplan-from-ietf: [^\n]*\n\Z")
                self.assertIn(words, ended.err)

    def test_wrong_words(self) -> None:
        for words, told in ((["--labels", "81"], "--labels is 1 to 80"), (["--call", "D1", "X"], "'X' is no node"), (["--call", "D1", "D1"], "itself")):
            self.assertIn(told, self.made(RING, *words).err)


class GraphTest(unittest.TestCase):
    """Graphs to plans: of a class that has what is asked of a graph, and of networkx where it is there."""

    class Plain:
        """A graph with what `plan_of_graph` asks of one."""

        def __init__(self, directed: bool = False) -> None:
            self.directed = directed
            self.kept: tuple[list, list] = ([], [])

        def add_node(self, node: Any, **data: Any) -> None:
            self.kept[0].append((node, data))

        def add_edge(self, source: Any, target: Any, **data: Any) -> None:
            self.kept[1].append((source, target, data))

        def nodes(self, data: bool) -> list:
            return self.kept[0]

        def edges(self, data: bool) -> list:
            return self.kept[1]

        def is_directed(self) -> bool:
            return self.directed

    def graphs(self, directed: bool) -> list[Any]:
        """An empty graph of each kind."""
        found: list[Any] = [self.Plain(directed)]
        try:
            import networkx
        except ImportError:
            return found
        return [*found, networkx.DiGraph() if directed else networkx.Graph()]

    def test_nodes_links_and_calls(self) -> None:
        for graph in self.graphs(directed=False):
            graph.add_node(1, label="São Paulo", pos=(-46.6, -23.5), roadm=False)
            graph.add_node("b", roadm=True)
            graph.add_node(("c", 3), lon=1, lat="2")
            graph.add_edge(1, "b", length=3.0, risk=[7, 9], waves=4)
            graph.add_edge("b", ("c", 3), length=5, risk=7, waves=8)
            graph.add_edge("b", "b", length=1, waves=1)
            made = ason.plan_of_graph(
                graph, labels="waves", metric="length", srlgs="risk", convert="roadm", calls=[(1, ("c", 3)), ("b", 1)], protected=False
            )
            with self.subTest(graph=type(graph).__name__):
                self.assertEqual([(node.name, node.convert) for node in made.nodes], [("Sao-Paulo", False), ("b", True), ("c-3", False)])
                self.assertEqual([node.position for node in made.nodes], [(-46.6, -23.5), None, (1.0, 2.0)])
                links = [(link.ends, link.labels, link.metric, link.srlgs) for link in made.links]
                self.assertEqual(links, [(("Sao-Paulo", "b"), 4, 3, (7, 9)), (("b", "c-3"), 8, 5, (7,))])
                setups = ["setup c1 Sao-Paulo c-3 unprotected", "settle 1000", "setup c2 b Sao-Paulo unprotected", "settle 1000"]
                self.assertEqual(made.script, setups)
                self.assertEqual(plan.read(made.text()), made)

    def test_in_a_directed_graph_an_edge_each_way_is_one_link(self) -> None:
        for graph in self.graphs(directed=True):
            graph.add_node("a")
            graph.add_node("b")
            graph.add_edge("a", "b", w=2, risk=1)
            graph.add_edge("b", "a", w=3, risk=2)
            with self.subTest(graph=type(graph).__name__):
                made = ason.plan_of_graph(graph, metric="w", srlgs="risk")
                self.assertEqual([(link.ends, link.metric, link.srlgs) for link in made.links], [(("a", "b"), 2, (1, 2))])

    def test_faults_are_told_in_a_sentence(self) -> None:
        graph = self.Plain()
        with self.assertRaisesRegex(ason.ToolError, "the graph has no node"):
            ason.plan_of_graph(graph)
        graph.add_node("a")
        graph.add_node("b")
        graph.add_edge("a", "b", w=2.5)
        faults: list[tuple[dict[str, Any], str]] = [
            ({"metric": "x"}, "edge 'a - b' has no 'x'"),
            ({"metric": "w"}, "the metric of link 'a - b' is '2.5', and not 1 to 65,535"),
            ({"labels": 81}, "the labels of link 'a - b' is '81', and not 1 to 80"),
            ({"srlgs": "w"}, "an SRLG of link 'a - b' is '2.5'"),
            ({"calls": [("a", "z")]}, "'z' is no node"),
        ]
        for words, told in faults:
            with self.subTest(told=told), self.assertRaisesRegex(ason.ToolError, told):
                ason.plan_of_graph(graph, **words)

    def test_the_program_runs_such_a_plan(self) -> None:
        graph = self.Plain()
        for node in "abc":
            graph.add_node(node)
        for ends in ("ab", "bc", "ac"):
            graph.add_edge(*ends)
        call = ason.run(ason.plan_of_graph(graph, calls=[("a", "c")]).text()).table.calls[0]
        self.assertEqual((call.name, call.source, call.target, call.state), ("c1", "a", "c", "guarded"))


class RouteTest(unittest.TestCase):
    """What `ason route` prints, as values."""

    def test_routes_and_potentials(self) -> None:
        routes = routes_told.read((EXAMPLES / "triangle.route").read_text().split("\n", 1)[1])
        self.assertEqual((routes.primary, routes.backup), (ason.Route(1, (3,)), ason.Route(2, (1, 2))))
        self.assertEqual(routes.potentials, {"a": 0, "b": 1, "c": 1})

    def test_what_is_not_there(self) -> None:
        routes = routes_told.read("no primary\npotential a 0\npotential b -\n")
        self.assertEqual((routes.primary, routes.backup, routes.potentials), (None, None, {"a": 0, "b": None}))
        self.assertIsNone(routes_told.read("primary 1 3\nno backup\npotential a 0\n").backup)

    def test_what_is_no_answer(self) -> None:
        for text in ("no node x\n", "same node\n", "refused plan top missing\n", "primary 1\npotential a 0\n", "", "usage: ason run\n"):
            with self.subTest(text=text), self.assertRaises(ason.ToolError):
                routes_told.read(text)

    def test_the_program_tells_them(self) -> None:
        text = (EXAMPLES / "triangle.toml").read_text()
        self.assertEqual(ason.route(text, "a", "c").backup, ason.Route(2, (1, 2)))
        with self.assertRaisesRegex(ason.ToolError, "no node x"):
            ason.route(text, "a", "x")


class TableTest(unittest.TestCase):
    """Tables to ietf-te and to CSV."""

    def state(self, *words: str) -> dict[str, Any]:
        ended = tool("table-ietf", *words)
        self.assertEqual((ended.status, ended.err), (0, ""))
        return json.loads(ended.out)["ietf-te:te"]

    def test_tunnels(self) -> None:
        found = self.state(str(EXAMPLES / "contended.toml"), str(EXAMPLES / "contended.out"))["tunnels"]["tunnel"]
        told = [(tunnel["name"], tunnel["description"], tunnel["operational-state"].partition(":")[2]) for tunnel in found]
        self.assertEqual(told, [("c1", "turned", "tunnel-state-up"), ("c2", "stuck: busy", "tunnel-state-down")])
        self.assertEqual(found[1]["source"], {"te-node-id": "0.0.0.2", "node-id": "b"})
        self.assertIn("restoration", found[0])

    def test_lsps_and_the_route_at_the_ingress(self) -> None:
        found = self.state(str(EXAMPLES / "contended.toml"), str(EXAMPLES / "contended.out"))["lsps"]["lsp"]
        backup = [lsp for lsp in found if (lsp["tunnel-name"], lsp["lsp-id"]) == ("c2", 2)]
        self.assertEqual([lsp["origin-type"] for lsp in backup], ["ingress", "transit", "egress"])
        self.assertEqual({lsp["operational-state"] for lsp in backup}, {"ietf-te-types:lsp-state-setup-ok"})
        self.assertEqual({(lsp["lsp-protection-role"], lsp["lsp-resource-status"]) for lsp in backup}, {("protection", "secondary")})
        hops = backup[0]["lsp-actual-route-information"]["lsp-actual-route-information"]
        self.assertEqual([hop["index"] for hop in hops], [1, 2, 3, 4])
        self.assertEqual([hop["unnumbered-link-hop"]["link-tp-id"] for hop in hops[::2]], [4, 5])
        labels = [base64.b64decode(hop["label-hop"]["te-label"]["generic"]) for hop in hops[1::2]]
        self.assertEqual([int.from_bytes(label, "big") for label in labels], [1, 1])
        self.assertFalse(any("lsp-actual-route-information" in lsp for lsp in backup[1:]))

    def test_each_phase_has_a_state(self) -> None:
        self.assertEqual(set(ietf_te.LSP_STATES), set(tables.PHASES))
        self.assertLess(set(ietf_te.CARRIED), set(tables.STATES))

    def test_a_torn_lsp_is_of_no_call(self) -> None:
        table = tables.read("calls 0 legs 1\nleg a.2.1 b work closing 1/1 2/-\n").tables[0]
        lsp = ietf_te.te_state(plan.read(plan_text()), table)["ietf-te:te"]["lsps"]["lsp"][0]
        self.assertEqual((lsp["tunnel-name"], lsp["operational-state"]), ("a.2", "ietf-te-types:lsp-state-tearing-down"))
        self.assertNotIn("destination", lsp)

    def test_node_ids_are_dotted(self) -> None:
        self.assertEqual(ietf_te.dotted(4_294_967_295), "255.255.255.255")
        self.assertEqual(ietf_te.dotted(0x0A000102), "10.0.1.2")

    def test_csv(self) -> None:
        text = "calls 1 legs 2\ncall c1 a b blocked - - set\nleg a.1.1 a work live - 1/1\nleg a.1.1 b work asked 1/- -\ncalls 0 legs 0\n"
        self.assertEqual(tool("table-csv", given=text).out, "name,from,to,state,work,backup,cause\n")
        self.assertEqual(tool("table-csv", "--table", "1", given=text).out.splitlines()[1:], ["c1,a,b,blocked,,,set"])
        self.assertEqual(tool("table-csv", "--all", given=text).out.splitlines()[1:], ["1,c1,a,b,blocked,,,set"])
        legs = tool("table-csv", "--legs", "--all", given=text).out.splitlines()
        self.assertEqual(legs[0], "table,lsp,node,role,phase,link_in,label_in,link_out,label_out")
        self.assertEqual(legs[1:], ["1,a.1.1,a,work,live,,,1,1", "1,a.1.1,b,work,asked,1,,,"])

    def test_faults_are_told_in_a_sentence(self) -> None:
        example = str(EXAMPLES / "two.toml")
        faults = [
            (("table-csv", "--table", "3", str(EXAMPLES / "two.out")), "there is no table 3: the output has 2"),
            (("table-csv", "-"), "the output has no table"),
            (("table-ietf", example, str(EXAMPLES / "nsfnet.out")), "which is no node of the plan"),
            (("table-ietf", example, str(EXAMPLES / "two.out"), "--table", "0"), "there is no table 0: the output has 2"),
            (("table-ietf", "-", "-"), "can't both be the standard input"),
        ]
        for words, told in faults:
            with self.subTest(words=words):
                ended = tool(*words)
                self.assertEqual((ended.status, ended.out), (2, ""))
                self.assertRegex(ended.err, rf"\A{words[0]}: [^\n]*{told}\n?\Z")

    def test_what_ason_refused_is_passed_on_with_its_status(self) -> None:
        for said, status in (("refused plan script 3 words", 3), ("stopped at limit a", 6), ("refused input too long", 8)):
            for words in (("table-csv",), ("table-ietf", str(EXAMPLES / "two.toml"), "-")):
                with self.subTest(words=words, said=said):
                    ended = tool(*words, given=said + "\n")
                    self.assertEqual((ended.status, ended.out), (status, ""))
                    self.assertRegex(ended.err, rf"\A{words[0]}: [^\n]*ason printed no table: {said}\n\Z")

    def test_bad_files(self) -> None:
        with tempfile.TemporaryDirectory() as room:
            for label, data in BAD_FILES.items():
                path = Path(room) / "file"
                path.write_bytes(data)
                plan_and_table = ["table-ietf", str(EXAMPLES / "two.toml"), str(path)]
                for words in (["plan-from-ietf", str(path)], ["table-csv", str(path)], ["table-ietf", str(path)], plan_and_table):
                    with self.subTest(label=label, words=words):
                        ended = tool(*words)
                        self.assertEqual((ended.status, ended.out), (2, ""))
                        self.assertRegex(ended.err, rf"\A{words[0]}: [^\n]*\n\Z")

    def test_help_has_an_example(self) -> None:
        for name in ("plan-from-ietf", "table-csv", "table-ietf"):
            ended = tool(name, "--help")
            self.assertEqual((ended.status, ended.err), (0, ""))
            self.assertIn("example:", ended.out)


if __name__ == "__main__":
    unittest.main()
