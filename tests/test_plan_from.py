"""`tools/plan-from`: the forms of topology files, names, metrics, demands, and what is refused."""

import shutil
import tempfile
import tomllib
import unittest
from pathlib import Path

from ason_tools import program
from ason_tools.ducts import ducts
from ason_tools.errors import ToolError
from ason_tools.names import Namer, is_name
from ason_tools.plan import Link, Node, Plan
from ason_tools.planning import Planned, Wishes, make_plan, read_topology

from .support import EXAMPLES, tool

NATIVE = b"""?SNDlib native format; type: network; version: 1.0
# network triangle

META (
  granularity = 1 month
)

NODES (
  Oslo ( 10.75 59.91 )
  Lima ( -77.03 -12.04 ) # a comment
  Cairo
)

LINKS (
  L1 ( Oslo Lima ) 0.00 0.00 7.00 0.00 ( 40.00 120.00 80.00 200.00 )
  L2 ( Lima Cairo ) 0.00 0.00 2.60 0.00 ( )
  L3 ( Oslo Cairo ) 0.00 0.00 90.00 0.00 ( 40.00 300.00 )
)

DEMANDS (
  D1 ( Oslo Cairo ) 1 5.00 UNLIMITED
  D2 ( Cairo Oslo ) 1 5.00 2
)

ADMISSIBLE_PATHS (
  D1 (
    P_1 ( L1 L2 )
  )
)
"""

XML = b"""<?xml version="1.0" encoding="ISO-8859-1"?>
<network xmlns="http://sndlib.zib.de/network" version="1.0">
 <networkStructure>
  <nodes coordinatesType="geographical">
   <node id="Oslo"><coordinates><x>10.75</x><y>59.91</y></coordinates></node>
   <node id="Lima"><coordinates><x>-77.03</x><y>-12.04</y></coordinates></node>
   <node id="Cairo"/>
  </nodes>
  <links>
   <link id="L1"><source>Oslo</source><target>Lima</target><routingCost>7.00</routingCost>
    <additionalModules><addModule><capacity>40.0</capacity><cost>120.0</cost></addModule></additionalModules></link>
   <link id="L2"><source>Lima</source><target>Cairo</target><routingCost>2.60</routingCost></link>
   <link id="L3"><source>Oslo</source><target>Cairo</target><routingCost>90.00</routingCost></link>
  </links>
 </networkStructure>
 <demands>
  <demand id="D1"><source>Oslo</source><target>Cairo</target><routingUnit>1</routingUnit></demand>
  <demand id="D2"><source>Cairo</source><target>Oslo</target><routingUnit>1</routingUnit></demand>
 </demands>
</network>
"""


GML = b"""# as the Topology Zoo has it
Creator "Topology Zoo Toolset"
graph [
  label "Test"
  directed 0
  node [
    id 0
    label "Oslo"
    Longitude 10.75
    Latitude 59.91
  ]
  node [ id 5 label "T&#248;nsberg &amp; more" graphics [ x 1.5e1 y -12.04 ] ]
  node [ id 7 label "Cairo" ]
  edge [
    source 0
    target 5
    LinkLabel "<10 Gbps"
    cost 7
  ]
  edge [ source 5 target 7 cost 2.6 ]
  edge [ source 0 target 7 cost 90 id "e3" ]
]
"""


def graphml(nodes: str, edges: str, kind: str = "undirected") -> bytes:
    """A GraphML file with these nodes and edges; the keys are label and cost."""
    return (
        '<graphml xmlns="http://graphml.graphdrawing.org/xmlns"><key id="d0" for="node" attr.name="label"/>'
        f'<key id="d1" for="edge" attr.name="cost"/><graph edgedefault="{kind}">{nodes}{edges}</graph></graphml>'
    ).encode()


TWO = '<node id="0"/><node id="1"/>'
EDGE = '<edge source="0" target="1"/>'


def placed(edges: str) -> bytes:
    """A GraphML file with the nodes 0 and 1, a degree apart, and these edges."""
    keys = '<key id="e" for="node" attr.name="lon"/><key id="n" for="node" attr.name="lat"/>'
    nodes = "".join(f'<node id="{n}"><data key="e">{n}</data><data key="n">0</data></node>' for n in (0, 1))
    return graphml(nodes, edges).replace(b"<graph ", keys.encode() + b"<graph ")


def planned(data: bytes, **wishes: object) -> Planned:
    return make_plan(read_topology(data), Wishes(**wishes))


class FormsTest(unittest.TestCase):
    """What the forms of files become."""

    def test_sndlib_native_and_xml_are_one_network(self) -> None:
        for data in (NATIVE, XML):
            result = planned(data, metric="routing_cost", labels=4)
            plan = result.plan
            self.assertEqual([(node.name, node.id) for node in plan.nodes], [("Oslo", 1), ("Lima", 2), ("Cairo", 3)])
            self.assertEqual(plan.nodes[1].position, (-77.03, -12.04))
            self.assertIsNone(plan.nodes[2].position)
            links = [(link.id, link.ends, link.labels, link.metric) for link in plan.links]
            expected = [(1, ("Oslo", "Lima"), 4, 7), (2, ("Lima", "Cairo"), 4, 3), (3, ("Oslo", "Cairo"), 4, 90)]
            self.assertEqual(links, expected)
            self.assertEqual(
                plan.script, ["setup D1 Oslo Cairo unprotected via 1,2", "setup D2 Cairo Oslo unprotected via 2,1"]
            )
            self.assertEqual((result.renamed, result.notes), ([], []))

    def test_without_a_metric_the_least_number_of_links_counts(self) -> None:
        self.assertEqual(planned(NATIVE).plan.script[0], "setup D1 Oslo Cairo unprotected via 3")

    def test_setups_may_come_one_after_the_other(self) -> None:
        script = planned(NATIVE, settle=True).plan.script
        self.assertEqual(script[1::2], ["settle 1000"] * 2)
        self.assertEqual(script[0::2], planned(NATIVE).plan.script)

    def test_the_first_module_of_a_link_is_an_attribute(self) -> None:
        data = NATIVE.replace(b"( )\n  L3", b"( 10.00 5.00 )\n  L3")
        self.assertEqual([link.metric for link in planned(data, metric="module_cost", per=10.0).plan.links], [12, 1, 30])

    def test_nsfnet_is_the_network_of_the_example(self) -> None:
        made = planned((EXAMPLES / "nsfnet.graphml").read_bytes(), metric="Length", per=100.0, labels=2)
        kept = tomllib.loads((EXAMPLES / "nsfnet.toml").read_text())
        del kept["script"]
        self.assertEqual(tomllib.loads(made.plan.text()) | {"script": []}, kept | {"script": []})

    def test_two_ways_of_a_directed_file_are_one_link(self) -> None:
        back = '<edge source="1" target="0"/>'
        self.assertEqual(len(planned(graphml(TWO, EDGE + back, "directed")).plan.links), 1)
        self.assertEqual(len(planned(graphml(TWO, EDGE + EDGE + back, "directed")).plan.links), 2)
        self.assertEqual(len(planned(graphml(TWO, EDGE + back)).plan.links), 2)

    def test_edges_have_their_own_direction(self) -> None:
        both = '<edge source="0" target="1" directed="true"/><edge source="1" target="0" directed="true"/>'
        self.assertEqual(len(planned(graphml(TWO, both)).plan.links), 1)
        self.assertEqual(len(planned(graphml(TWO, both.replace("true", "false"), "directed")).plan.links), 2)
        self.assertEqual(len(planned(graphml(TWO, both.replace("true", "false", 1), "directed")).plan.links), 2)

    def test_defaults_of_graphml_are_values(self) -> None:
        data = graphml(TWO, EDGE + EDGE.replace("/>", '><data key="d1">9</data></edge>'))
        data = data.replace(b'attr.name="cost"/>', b'attr.name="cost"><default> 4 </default></key>')
        self.assertEqual([link.metric for link in planned(data, metric="cost").plan.links], [4, 9])

    def test_a_second_graph_is_told(self) -> None:
        data = graphml(TWO, EDGE).replace(b"</graphml>", b'<graph><node id="x"/></graph></graphml>')
        self.assertEqual(planned(data).notes, ["the file has 2 graphs, of which the first is read"])
        self.assertEqual(planned(GML + b"graph [ ]").notes, ["the file has 2 graphs, of which the first is read"])

    def test_gml_of_the_topology_zoo(self) -> None:
        result = planned(GML, metric="cost", calls=(("Oslo", "7"),))
        nodes = [(node.name, node.position) for node in result.plan.nodes]
        self.assertEqual(nodes, [("Oslo", (10.75, 59.91)), ("Tonsberg-more", (15.0, -12.04)), ("Cairo", None)])
        links = [(link.ends, link.metric) for link in result.plan.links]
        self.assertEqual(links, [(("Oslo", "Tonsberg-more"), 7), (("Tonsberg-more", "Cairo"), 3), (("Oslo", "Cairo"), 90)])
        self.assertEqual(result.plan.script, ["setup c1 Oslo Cairo unprotected via 1,2"])
        self.assertEqual(result.renamed, [("node", "T\u00f8nsberg & more", "Tonsberg-more")])

    def test_a_directed_gml_has_a_link_for_two_ways(self) -> None:
        back = GML.replace(b"directed 0", b"directed 1").replace(b"edge [ source 5 target 7", b"edge [ source 5 target 0")
        self.assertEqual(len(planned(back).plan.links), 2)

    def test_calls_may_name_their_ends_by_name_title_or_id(self) -> None:
        nodes = '<node id="n0"><data key="d0">New York</data></node><node id="n1"><data key="d0">Z\u00fcrich</data></node>'
        calls = (("New York", "Zurich"), ("n1", "New-York"))
        plan = planned(graphml(nodes, '<edge source="n0" target="n1"/>'), calls=calls).plan
        self.assertEqual(
            plan.script, ["setup c1 New-York Zurich unprotected via 1", "setup c2 Zurich New-York unprotected via 1"]
        )

    def test_what_is_left_out_or_merged_is_told(self) -> None:
        nodes = TWO + '<node id="2"/>'
        edges = EDGE + EDGE + '<edge source="1" target="1"/>'
        result = planned(graphml(nodes, edges), calls=(("0", "2"), ("1", "1")))
        self.assertEqual(len(result.plan.links), 2)
        self.assertEqual(result.plan.script, [])
        self.assertEqual(
            result.notes,
            [
                "edges '1' and '2' join the same nodes: each is a link",
                "edge '3' is a loop and is left out",
                "demand 'c1' has no route of at most 63 links and is left out",
                "demand 'c2' has one node at both ends and is left out",
            ],
        )

    def test_the_program_takes_a_plan_with_parallel_links(self) -> None:
        run = program.run(planned(graphml(TWO, EDGE + EDGE), calls=(("0", "1"),)).plan.text())
        self.assertEqual((run.status, run.table.calls[0].state), (0, "bare"))

    def test_least_routes_of_one_cost_go_by_the_least_links(self) -> None:
        nodes = "".join(f'<node id="{key}"/>' for key in "sabt")
        edges = "".join(f'<edge source="{ends[0]}" target="{ends[1]}"/>' for ends in ("bt", "sb", "sa", "at"))
        self.assertEqual(planned(graphml(nodes, edges), calls=(("s", "t"),)).plan.script, ["setup c1 s t unprotected via 2,1"])


class ProtectionTest(unittest.TestCase):
    """Protected calls, and the risks that links share."""

    def srlgs(self, risks: list[str], **wishes: object) -> list[tuple[int, ...]]:
        """The SRLGs of parallel edges with these texts as their cost."""
        edges = "".join(EDGE.replace("/>", f'><data key="d1">{text}</data></edge>') for text in risks)
        return [link.srlgs for link in planned(graphml(TWO, edges), srlg="cost", **wishes).plan.links]

    def spans(self, places: dict[str, tuple[float, float]], spans: list[str], apart: float) -> list[set[str]]:
        """The spans of each duct, by their ends, among nodes at these degrees east and north."""
        nodes = [Node(name, number, True, place) for number, (name, place) in enumerate(places.items(), 1)]
        links = [Link(number, (ends[0], ends[1]), 1) for number, ends in enumerate(spans, 1)]
        return [{"".join(link.ends) for link in duct} for duct in ducts(Plan(nodes, links), apart)]

    def test_a_protected_call_gets_a_backup(self) -> None:
        plan = planned(NATIVE, protected=True, settle=True).plan
        self.assertEqual(plan.script[0], "setup D1 Oslo Cairo via 3")
        call = program.run(plan.text()).table.call("D1")
        self.assertEqual((call.state, call.cause), ("guarded", None))

    def test_a_call_over_the_only_duct_gets_none(self) -> None:
        result = planned(placed(EDGE + EDGE), protected=True, duct=10.0, calls=(("0", "1"),))
        self.assertEqual([link.srlgs for link in result.plan.links], [(1,), (1,)])
        self.assertIn("links 1 and 2 lie in one duct: SRLG 1", result.notes)
        call = program.run(result.plan.text()).table.call("c1")
        self.assertEqual((call.state, call.cause), ("bare", "nobackup"))

    def test_srlgs_are_numbers_or_words(self) -> None:
        self.assertEqual(self.srlgs(["7", "7;9", "3 4", "", "7, 7"]), [(7,), (7, 9), (3, 4), (), (7,)])
        self.assertEqual(self.srlgs(["river bridge", "5,river bridge", "tunnel"]), [(6,), (5, 6), (7,)])

    def test_words_become_numbers_that_are_told(self) -> None:
        edges = EDGE.replace("/>", '><data key="d1">river bridge</data></edge>')
        self.assertEqual(planned(graphml(TWO, edges), srlg="cost").renamed[-1], ("srlg", "river bridge", "1"))

    def test_ducts_have_numbers_above_those_of_the_file(self) -> None:
        edges = "".join(EDGE.replace("/>", f'><data key="d1">{risk}</data></edge>') for risk in (40, 12))
        links = planned(placed(edges), srlg="cost", duct=5.0).plan.links
        self.assertEqual([link.srlgs for link in links], [(40, 41), (12, 41)])

    def test_spans_beside_longer_ones_share_a_duct(self) -> None:
        # A degree of latitude is 111 km. The point b is 0.4 degrees, 44 km, north of the line from a to c.
        places = {"a": (0.0, 0.0), "b": (1.0, 0.4), "c": (2.0, 0.0), "d": (0.0, 0.3)}
        self.assertEqual(self.spans(places, ["ab", "bc", "ac"], 45), [{"ab", "ac"}, {"bc", "ac"}])
        self.assertEqual(self.spans(places, ["ab", "bc", "ac"], 44), [])
        # The span from a to d is short, and leads away from the line.
        self.assertEqual(self.spans(places, ["ad", "ac"], 45), [])
        self.assertEqual(self.spans(places, ["ac", "ac"], 0.1), [{"ac"}])

    def test_a_duct_may_cross_the_date_line(self) -> None:
        places = {"a": (179.0, 0.0), "b": (-179.0, 0.0), "c": (-178.0, 0.0)}
        self.assertEqual(self.spans(places, ["ab", "ac"], 1), [{"ab", "ac"}])

    def test_a_setup_for_each_unit_of_a_demand(self) -> None:
        script = planned(NATIVE, units=2.0).plan.script
        self.assertEqual([line.split()[1] for line in script], ["D1", "D1-2", "D1-3", "D2", "D2-2", "D2-3"])
        self.assertEqual(len(planned(NATIVE, units=5.0, calls=(("Oslo", "Lima"),)).plan.script), 3)
        xml = XML.replace(b"</routingUnit></demand>\n  <demand id=\"D2", b"</routingUnit><demandValue>4.1</demandValue></demand>\n  <demand id=\"D2")
        xml = xml.replace(b"</routingUnit></demand>\n </demands>", b"</routingUnit><demandValue>0</demandValue></demand>\n </demands>")
        result = planned(xml, units=2.0)
        self.assertEqual([line.split()[1] for line in result.plan.script], ["D1", "D1-2", "D1-3"])
        self.assertEqual(result.notes, ["demand 'D2' asks for nothing and is left out"])


class NamesTest(unittest.TestCase):
    """Names are shortened to the rule, each another."""

    def test_names(self) -> None:
        cases = [
            (["Oslo"], ["Oslo"]),
            (["New York", "New-York"], ["New-York", "New-York-2"]),
            (["Z\u00fcrich", "S\u00e3o Paulo"], ["Zurich", "Sao-Paulo"]),
            (["\u0141\u00f3d\u017a", "Troms\u00f8", "Stra\u00dfe"], ["Lodz", "Tromso", "Strasse"]),
            (["\u00c6r\u00f8", "\u0152uvre", "\u0110akovo", "Alta\u0131"], ["AEro", "OEuvre", "Dakovo", "Altai"]),
            (["0", "1"], ["n0", "n1"]),
            (["\u6771\u4eac", "", "?"], ["n", "n-2", "n-3"]),
            (["Salt Lake City, Utah", "Salt Lake City, UT"], ["Salt-Lake-City-U", "Salt-Lake-City-2"]),
            (["abcdefghijklmnop", "abcdefghijklmnopq"], ["abcdefghijklmnop", "abcdefghijklmn-2"]),
        ]
        for texts, names in cases:
            namer = Namer("n")
            self.assertEqual([namer.name(text) for text in texts], names)
            self.assertTrue(all(is_name(name) for name in names))

    def test_hundreds_of_one_text_have_hundreds_of_names(self) -> None:
        namer = Namer("n")
        names = [namer.name("a very long name indeed") for _ in range(300)]
        self.assertEqual(len(set(names)), 300)
        self.assertTrue(all(is_name(name) for name in names))


REFUSED: list[tuple[bytes, dict[str, object], str]] = [
    (b"", {}, "it is neither GraphML nor GML nor a network of SNDlib or GNPy"),
    (b"hello", {}, "it is neither GraphML nor GML nor a network of SNDlib or GNPy"),
    (b"<a>", {}, "it is no XML: line 1, column 4: no element found"),
    (b"<svg/>", {}, "its outermost element is 'svg', neither graphml nor network"),
    (b"<graphml/>", {}, "it has no graph"),
    (b"<!DOCTYPE x [<!ENTITY a 'b'>]><graphml><graph/></graphml>", {}, "it has a document type"),
    (b"<?xml version='1.0' encoding='shift-jis'?><graphml/>", {}, "its encoding isn't one of UTF-8"),
    (b"<?xml version='1.0' encoding='no-such'?><graphml/>", {}, "its encoding isn't one of UTF-8"),
    (b"<a>" * 100_000, {}, "its elements stand more than 64 deep"),
    (b"<network/>", {}, "it has no node"),
    (graphml("", ""), {}, "it has no node"),
    (graphml("<node/>", ""), {}, "node 1 has no id"),
    (graphml('<node id="0"/><node id="0"/>', ""), {}, "two nodes have the id '0'"),
    (graphml('<node id="0"><graph/></node>', ""), {}, "node 1 holds a graph of its own"),
    (graphml(TWO, '<edge source="0"/>'), {}, "edge 1 has no target"),
    (graphml(TWO, '<edge source="0" target="7"/>'), {}, "edge '1' ends at '7', which is no node of the file"),
    (graphml(TWO, "<hyperedge/>"), {}, "it has a hyperedge"),
    (graphml("".join(f'<node id="{n}"/>' for n in range(65)), ""), {}, "it has 65 nodes, and a plan has at most 64"),
    (graphml(TWO, EDGE * 257), {}, "it has 257 links, and a plan has at most 256"),
    (graphml(TWO, EDGE), {"metric": "cost"}, "edge '1' has no 'cost'; it has no attribute"),
    (graphml(TWO, EDGE.replace("/>", '><data key="d1">far</data></edge>')), {"metric": "cost"}, "is 'far', no number from 0 on"),
    (graphml(TWO, EDGE.replace("/>", '><data key="d1">nan</data></edge>')), {"metric": "cost"}, "is 'nan', no number from 0 on"),
    (graphml(TWO, EDGE.replace("/>", '><data key="d1">1e9</data></edge>')), {"metric": "cost"}, "above 65,535 (--per makes it less)"),
    (graphml(TWO, EDGE), {"calls": (("0", "x"),)}, "'x' is no node of the file"),
    (graphml(TWO, EDGE), {"calls": (("0", "1"),) * 4097}, "its demands need 4,097 setups or more, and a plan has at most 4,096"),
    (graphml(TWO, EDGE), {"srlg": "risk"}, "no edge has 'risk'; the first has no attribute"),
    (graphml(TWO, EDGE.replace("/>", '><data key="d1">4294967296</data></edge>')), {"srlg": "cost"}, "the SRLG 4294967296"),
    (
        graphml(TWO, EDGE.replace("/>", f'><data key="d1">{" ".join(map(str, range(17)))}</data></edge>')),
        {"srlg": "cost"},
        "edge '1' has 17 SRLGs, and a link has at most 16",
    ),
    (graphml(TWO, EDGE), {"duct": 5.0}, "node 'n0' has no position, so no ducts can be told"),
    (NATIVE.replace(b"10.75 59.91", b"320 59.91"), {"duct": 5.0}, "the position of node 'Oslo' isn't a longitude and a latitude"),
    (XML, {"units": 2.0}, "demand 'D1' has no amount from 0 on"),
    (NATIVE, {"units": 0.001}, "its demands need 5,000 setups or more, and a plan has at most 4,096"),
    (b"graph [ node [ id 0 ]", {}, "its end is missing"),
    (b"graph [ node [ label \"x\" ] ]", {}, "node 1 has no id"),
    (b"graph [ node [ id 0 ] edge [ source 0 ] ]", {}, "edge 1 has no target"),
    (b"graph [\n  node = 3\n]", {}, "it is no GML: line 2, column 8"),
    (b"graph [\n  7 node\n]", {}, "it is no GML: line 2, column 3"),
    (b"label \"x\"", {}, "it has no graph"),
    (b"a [ " * 100_000, {}, "its lists stand more than 64 deep"),
    (b"?SNDlib native format\nfoo\n", {}, "line 2 begins no section"),
    (b"?SNDlib native format\nNODES (\n a\n", {}, "the section NODES has no end"),
    (b"?SNDlib native format\nNODES (\n a ( 1\n)\n", {}, "line 3 is no node"),
    (b"?SNDlib native format\nNODES (\n a ) )\n)\n", {}, "line 3 is no node"),
    (b"?SNDlib native format\nMETA (\n) )\n", {}, "line 3 ends more than was begun"),
    (b"?SNDlib native format\nNODES (\n a\n)\nLINKS (\n L1 a a\n)\n", {}, "line 6 is no link"),
    (b"?SNDlib native format\nNODES (\n a\n)\nDEMANDS (\n D1 ( a x ) 1 1 1\n)\n", {}, "demand 'D1' ends at 'x'"),
    (b"?SNDlib native format\nNODES (\n \xff\n)\n", {}, "isn't UTF-8: line 3, column 2"),
    (b"<network><networkStructure><nodes><node/></nodes></networkStructure></network>", {}, "node 1 has no id"),
]


class RefusalTest(unittest.TestCase):
    """What no plan can be made of."""

    def test_each_has_its_sentence(self) -> None:
        for data, wishes, sentence in REFUSED:
            with self.subTest(sentence=sentence):
                with self.assertRaises(ToolError) as caught:
                    planned(data, **wishes)
                self.assertIn(sentence, str(caught.exception))
                self.assertNotIn("\n", str(caught.exception))


class ToolTest(unittest.TestCase):
    """The tool itself."""

    def test_a_plan_and_a_table_of_names(self) -> None:
        ended = tool("plan-from", "examples/nsfnet.graphml", "--call", "Palo Alto", "Ithaca")
        self.assertEqual(ended.status, 0)
        self.assertIn('"setup c1 Palo-Alto Ithaca unprotected via 5,8,18"', ended.out)
        self.assertIn("node 'Salt Lake City' is Salt-Lake-City\n", ended.err)

    def test_notes_have_real_letters(self) -> None:
        path = Path(tempfile.mkdtemp()) / "lodz.gml"
        self.addCleanup(shutil.rmtree, path.parent)
        path.write_text('graph [ node [ id 0 label "\u0141\u00f3d\u017a" ] ]')
        ended = tool("plan-from", str(path))
        self.assertEqual((ended.status, ended.err), (0, "node '\u0141\u00f3d\u017a' is Lodz\n"))

    def test_routes_left_to_the_program(self) -> None:
        ended = tool("plan-from", "examples/nsfnet.graphml", "--routes", "found", "--call", "Palo Alto", "Ithaca")
        self.assertEqual(ended.status, 0)
        self.assertIn('"setup c1 Palo-Alto Ithaca unprotected"', ended.out)

    def test_words_that_are_wrong(self) -> None:
        cases = [
            (["--labels", "81"], "plan-from: --labels is 1 to 80\n"),
            (["--per", "0"], "plan-from: --per is a number above 0\n"),
            (["--units", "x"], "plan-from: --units is a number above 0\n"),
            (["--srlg-by-duct", "-1"], "plan-from: --srlg-by-duct is a number above 0\n"),
        ]
        for words, sentence in cases:
            ended = tool("plan-from", "examples/nsfnet.graphml", *words)
            self.assertEqual((ended.status, ended.out, ended.err), (2, "", sentence))


if __name__ == "__main__":
    unittest.main()
