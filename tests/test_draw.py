"""`tools/draw`: which circuits go where, what carries them, who holds which label, and that the picture shows it."""

import math
import re
import time
import unittest
from xml.etree import ElementTree

from ason_tools import dot, layout, moments, network_map, picture, plan, scene, tables
from ason_tools.circuits import Usage, usage
from ason_tools.errors import ToolError
from ason_tools.groups import Group, failed_links
from ason_tools.plan import Link, Node, Plan
from ason_tools.tables import Call, Hold, Leg, Lsp, Table

from .support import EXAMPLES, plan_text, tool

# A protected call whose backup is in use, one that is blocked, and an LSP that is being torn.
TABLE = """\
calls 2 legs 6
call east a c turned a.1.1 a.1.2 -
call west d a blocked - - set
leg a.1.1 a work live - 4/1
leg a.1.1 c work live 4/1 -
leg a.1.2 a back live - 1/2
leg a.1.2 b back live 1/2 2/1
leg a.1.2 c back live 2/1 -
leg c.1.1 c work closing - 3/2
"""


def drawn(text: str = TABLE, failed: frozenset[int] = frozenset()) -> tuple[plan.Plan, Usage]:
    network = plan.read(plan_text())
    return network, usage(network, tables.read(text).tables[-1], failed)


def contended(place: int) -> tuple[plan.Plan, Usage]:
    """The example in which two backups share label 1 of link 5, at the table of this place."""
    network = plan.read((EXAMPLES / "contended.toml").read_text())
    return network, usage(network, tables.read((EXAMPLES / "contended.out").read_text()).tables[place])


def large() -> tuple[Plan, Table]:
    """As many nodes and links as a plan may have: a ring, each node joined to the next four; 40 calls over five links."""
    names = [f"city-{number}" for number in range(1, 65)]
    links = [
        Link(64 * (step - 1) + place + 1, (names[place], names[(place + step) % 64]), 16)
        for step in (1, 2, 3, 4)
        for place in range(64)
    ]
    calls, legs = [], []
    for number in range(40):
        lsp = Lsp(names[number], 1, 1)
        steps = [number + 4 * step for step in range(6)]
        holds = [None, *(Hold(64 * 3 + place % 64 + 1, number // 4 + 1) for place in steps[:-1]), None]
        calls.append(Call(f"c{number}", names[steps[0] % 64], names[steps[-1] % 64], "bare", lsp, None, None))
        legs += [Leg(lsp, names[place % 64], "work", "live", *holds[at : at + 2]) for at, place in enumerate(steps)]
    return Plan([Node(name, number) for number, name in enumerate(names, 1)], links), Table(tuple(calls), tuple(legs))


class UsageTest(unittest.TestCase):
    """What a table says of the links."""

    def test_circuits_have_their_links_in_order(self) -> None:
        _, used = drawn()
        self.assertEqual([(it.call.name, it.work, it.backup) for it in used.circuits], [("east", (4,), (1, 2)), ("west", (), ())])

    def test_labels_have_their_holders(self) -> None:
        network, used = drawn()
        held = {
            fibre: {label: [(it.circuit and it.circuit.call.name, it.is_connected) for it in held] for label, held in row.items()}
            for fibre, row in used.holders.items()
        }
        self.assertEqual(
            held,
            {
                (4, "a"): {1: [("east", True)]},
                (1, "a"): {2: [("east", True)]},
                (2, "b"): {1: [("east", True)]},
                (3, "c"): {2: [(None, False)]},
            },
        )
        self.assertEqual(used.full(network), set())

    def test_a_shared_label_has_all_its_holders(self) -> None:
        for place in (0, 1):
            _, used = contended(place)
            held = [(it.circuit.call.name, it.is_connected) for it in used.holders[5, "c"][1]]
            self.assertEqual(held, [("c1", True), ("c2", False)])

    def test_a_call_is_carried_by_what_is_connected_and_whole(self) -> None:
        states = ("guarded", "turned", "stuck", "turning", "bare")
        cases = [(set(), ["1", "2", "1", "1", "1"]), ({4}, ["-", "2", "-", "-", "-"]), ({2}, ["1", "-", "1", "1", "1"]), ({2, 4}, ["-"] * 5)]
        for failed, wanted in cases:
            found = []
            for state in states:
                _, used = drawn(TABLE.replace("turned", state), frozenset(failed))
                carrier = used.circuits[0].carrier
                found.append(str(carrier.number) if carrier else "-")
            self.assertEqual(found, wanted)

    def test_nothing_carries_a_call_whose_lsp_is_not_connected_to_its_end(self) -> None:
        for gone in ("leg a.1.2 c back live 2/1 -\n", "leg a.1.2 b back live 1/2 2/1\n"):
            text = TABLE.replace(gone, "").replace("legs 6", "legs 5")
            self.assertIsNone(drawn(text)[1].circuits[0].carrier)
        self.assertIsNone(drawn(TABLE.replace("c back live", "c back armed"))[1].circuits[0].carrier)

    def test_a_fibre_without_a_free_label_is_full(self) -> None:
        rows = "calls 0 legs 2\nleg a.1.1 b work live 1/1 -\nleg a.2.2 b work live 1/2 -\n"
        network, used = drawn(rows)
        self.assertEqual(used.full(network), {(1, "a")})

    def test_backward_labels_are_on_the_other_fibres(self) -> None:
        rows = "calls 0 legs 1\nleg a.1.1 b work live 1/1 2/2 back 2/1 1/2\n"
        _, used = drawn(rows)
        self.assertEqual({fibre: list(row) for fibre, row in used.holders.items()}, {(2, "b"): [2], (1, "b"): [2], (1, "a"): [1], (2, "c"): [1]})

    def test_links_are_down_from_fail_to_repair(self) -> None:
        script = ["fail link 1", "show", "fail srlg 7", "repair link 1", "show", "repair srlg 7"]
        text = plan_text(script).replace('ends = ["b", "c"]\nlabels = 2', 'ends = ["b", "c"]\nlabels = 2\nsrlg = [7]')
        network = plan.read(text)
        self.assertEqual([failed_links(network, shows) for shows in (0, 1, None)], [{1}, {2}, set()])

    def test_a_table_of_another_network_is_refused(self) -> None:
        cases = [
            ("call east a x bare - - -\n", "calls 1 legs 0\n", "the node x"),
            ("leg a.1.1 a work live - 3/1\n", "calls 0 legs 1\n", "a leg of a on link 3"),
            ("leg a.1.1 a work live - 9/1\n", "calls 0 legs 1\n", "a leg of a on link 9"),
            ("leg a.1.1 a work live - 1/3\n", "calls 0 legs 1\n", "label 3 of link 1, which has 2 in the plan"),
        ]
        for row, head, words in cases:
            with self.subTest(row=row), self.assertRaisesRegex(ToolError, words):
                drawn(head + row)


class LayoutTest(unittest.TestCase):
    """Where nodes stand."""

    def points(self, text: str) -> dict[str, layout.Point]:
        return layout.layout(plan.read(text), 800, 500)

    def test_positions_keep_east_and_north(self) -> None:
        points = self.points((EXAMPLES / "nsfnet.toml").read_text())
        self.assertLess(points["Seattle"][0], points["Boulder"][0])
        self.assertLess(points["Boulder"][0], points["Princeton"][0])
        self.assertLess(points["Seattle"][1], points["San-Diego"][1])

    def test_nodes_are_in_the_box_and_apart(self) -> None:
        ring = "".join(f'[[node]]\nname = "n{n}"\nid = {n}\n' for n in range(1, 65))
        ring += "".join(f'[[link]]\nid = {n}\nends = ["n{n}", "n{n % 64 + 1}"]\nlabels = 1\n' for n in range(1, 65))
        for text in (ring, plan_text(), '[[node]]\nname = "a"\nid = 1\n', (EXAMPLES / "nsfnet.toml").read_text()):
            points = list(self.points(text).values())
            self.assertTrue(all(0 <= x <= 800 and 0 <= y <= 500 for x, y in points))
            near = [(a, b) for i, a in enumerate(points) for b in points[:i] if abs(a[0] - b[0]) + abs(a[1] - b[1]) < 25]
            self.assertEqual(near, [])

    def test_one_place_for_all_is_no_fault(self) -> None:
        text = plan_text() + "".join(f"# place {name} 1 1\n" for name in "abcd")
        self.assertEqual(len(set(self.points(text).values())), 4)

    def test_a_layout_is_the_same_again(self) -> None:
        self.assertEqual(self.points(plan_text()), self.points(plan_text()))


class PictureTest(unittest.TestCase):
    """The SVG and the DOT."""

    def scene(self, failed: set[int], chosen: frozenset[str] | None = None) -> scene.Scene:
        down = frozenset(failed)
        return scene.Scene(*drawn(failed=down), down, "a & b", chosen)

    def test_what_carries_a_call_is_solid_and_what_is_down_is_marked(self) -> None:
        svg = picture.draw(self.scene({4}), True)
        root = ElementTree.fromstring(svg)
        mine = [line for line in root.findall("{*}polyline") if line.get("stroke") == scene.COLOURS[0]]
        # The links 1 and 2 of the backup, then link 4 of the working route.
        self.assertEqual([line.get("stroke-dasharray") is not None for line in mine], [False, False, True])
        texts = [text.text for text in root.findall("{*}text")]
        for word in ("east: a to c", "turned", "west: d to a", "blocked (set)", "link that is down", "1: a to b", "1 free", "1 free, down"):
            self.assertIn(word, texts)
        self.assertNotIn("link that is down", picture.draw(self.scene(set()), True))

    def test_a_turned_call_whose_backup_is_cut_is_cut_off(self) -> None:
        root = ElementTree.fromstring(picture.draw(self.scene({2, 4}), False))
        mine = [line for line in root.findall("{*}polyline") if line.get("stroke") == scene.COLOURS[0]]
        self.assertTrue(all(line.get("stroke-dasharray") for line in mine))
        self.assertIn("turned, cut off", [text.text for text in root.findall("{*}text")])

    def test_a_shared_label_shows_the_number_of_each_holder(self) -> None:
        network, used = contended(1)
        root = ElementTree.fromstring(picture.draw(scene.Scene(network, used, frozenset({1, 2}), "x"), True))
        row = next(text.get("y") for text in root.findall("{*}text") if text.text == "5: c to d")
        cells = [rect for rect in root.findall("{*}rect") if abs(float(rect.get("y")) - float(row) + 13.5) < 1]
        fills = [(rect.get("fill"), rect.get("stroke-dasharray")) for rect in cells]
        self.assertEqual(fills, [(scene.COLOURS[0], None), ("#ffffff", "3 2"), ("#ffffff", None)])

    def test_the_chosen_calls_alone_are_drawn(self) -> None:
        network, used = contended(1)
        root = ElementTree.fromstring(picture.draw(scene.Scene(network, used, frozenset({1, 2}), "x", frozenset({"c2"})), True))
        texts = [text.text for text in root.findall("{*}text")]
        self.assertIn("c2: b to d", texts)
        self.assertNotIn("c1: a to d", texts)
        self.assertEqual([text for text in texts if text and ": " in text[:3]], ["2: b to d", "4: b to c", "5: c to d"])
        self.assertIn(scene.SOFT, [rect.get("fill") for rect in root.findall("{*}rect")])

    def test_labels_for_which_calls_would_contend_are_marked(self) -> None:
        for name, count in (("shared", 1), ("apart", 0)):
            with self.subTest(name=name):
                svg = tool("draw", f"examples/{name}.toml", "--labels").out
                edges = [it for it in ElementTree.fromstring(svg).findall("{*}rect") if it.get("fill") == "none"]
                self.assertEqual(len(edges), count)
                self.assertEqual("calls contend" in svg, count > 0)
        printed = (EXAMPLES / "shared.out").read_text()
        svg = tool("draw", "examples/shared.toml", "-", "--labels", given=printed).out
        self.assertNotIn("calls contend", svg)

    def test_the_map_grows_with_the_network(self) -> None:
        sizes = []
        for count in (4, 14, 30, 64):
            nodes = [Node(f"n{number}", number) for number in range(1, count + 1)]
            links = [Link(number, (f"n{number}", f"n{number % count + 1}"), 1) for number in range(1, count + 1)]
            sizes.append(network_map.size(scene.Scene(Plan(nodes, links), Usage(), frozenset(), "x")))
        self.assertEqual(sizes, sorted(set(sizes)))

    def test_a_large_network_takes_less_than_a_second(self) -> None:
        network, table = large()
        began = time.process_time()
        svg = picture.draw(scene.Scene(network, usage(network, table), frozenset(), "x"), True)
        self.assertLess(time.process_time() - began, 1.0)
        root = ElementTree.fromstring(svg)
        nodes = [(float(it.get("cx")), float(it.get("cy"))) for it in root.findall("{*}circle") if it.get("r") == "11"]
        self.assertEqual(len(nodes), 64)
        self.assertGreater(min(math.dist(a, b) for place, a in enumerate(nodes) for b in nodes[:place]), 40)

    def test_dot_has_an_edge_for_each_circuit_on_a_link(self) -> None:
        text = dot.draw(self.scene({4}))
        paint = scene.COLOURS[0]
        self.assertIn(f'"a" -- "c" [label="east", color="{paint}", style=dashed, penwidth=2, dir=forward];', text)
        self.assertEqual(len(re.findall("style=solid", text)), 2)
        self.assertIn('label="4 down"', text)


class MomentsTest(unittest.TestCase):
    """The moments of a strip."""

    def test_before_the_cut_after_it_and_at_the_end(self) -> None:
        script = ["setup c1 a c", "show", "settle 9", "fail  link 4", "settle 9", "show", "repair link 4", "settle 9", "revert c1"]
        found = moments.of_script(Plan(script=script))
        self.assertEqual(found.titles, ("before", "fail link 4", "repair link 4, revert c1"))
        kept = [line for line in script if line != "show"]
        self.assertEqual(found.plan.script, [*kept[:2], "show", *kept[2:4], "show", *kept[4:]])

    def test_a_cut_that_is_not_repaired_has_two_moments(self) -> None:
        found = moments.of_script(Plan(script=["fail link 4", "fail srlg 7", "settle 9"]))
        self.assertEqual(found.titles, ("before", "fail link 4, fail srlg 7"))
        self.assertEqual(found.plan.script, ["show", "fail link 4", "fail srlg 7", "settle 9"])

    def test_a_script_that_cuts_nothing_has_no_moments(self) -> None:
        with self.assertRaisesRegex(ToolError, "its script cuts nothing"):
            moments.of_script(Plan(script=["settle 9", "repair link 4"]))

    def test_a_group_is_cut_and_repaired_and_the_calls_go_back(self) -> None:
        found = moments.of_cut(Plan(script=["setup c1 a c", "show"]), Group("srlg", 7), ["c1"])
        wanted = ["settle 1000", "show", "fail srlg 7", "settle 1000", "show", "repair srlg 7", "settle 1000", "revert c1"]
        self.assertEqual(found.plan.script, ["setup c1 a c", *wanted])
        self.assertEqual(found.titles, ("before", "fail srlg 7", "repair srlg 7, revert c1"))


class ToolTest(unittest.TestCase):
    """The tool itself."""

    def test_a_plan_is_run_and_drawn(self) -> None:
        ended = tool("draw", "examples/nsfnet.toml", "--labels")
        self.assertEqual((ended.status, ended.err), (0, ""))
        self.assertIn(">lakes-2: Salt-Lake-City to Ann-Arbor<", ended.out)

    def test_the_tables_of_an_output_have_numbers(self) -> None:
        given = (EXAMPLES / "nsfnet.out").read_text()
        ended = tool("draw", "examples/nsfnet.toml", "-", "--table", "1", given=given)
        self.assertEqual((ended.status, ended.err), (0, ""))
        self.assertIn(">west-east: Palo-Alto to Princeton<", ended.out)
        self.assertNotIn("lakes-2", ended.out)

    def test_dot_and_the_network_alone(self) -> None:
        self.assertIn('"Seattle" -- "Palo-Alto" [label="1"', tool("draw", "examples/nsfnet.toml", "--dot").out)
        self.assertNotIn("lakes", tool("draw", "examples/nsfnet.toml", "--network").out)

    def test_what_can_not_be_drawn(self) -> None:
        cases = [
            (["examples/nsfnet.toml", "examples/two.out"], "draw: the table names the node c, which the plan doesn't have\n"),
            (["examples/two.toml", "examples/frames.out"], "draw: the output has no table\n"),
            (["examples/two.toml", "--table", "3"], "draw: there is no table 3: the output has 2\n"),
            (["-"], "draw: the standard input: it has not 1 to 64 nodes, each with another name\n"),
            (["-", "-"], "draw: the plan and the table can't both be the standard input\n"),
            (["examples/two.toml", "--call", "c9"], "draw: the table has no call 'c9'\n"),
            (["examples/two.toml", "--hit", "link", "9"], "draw: no link has the id 9\n"),
            (["examples/two.toml", "--hit", "srlg", "9"], "draw: no link has the SRLG 9\n"),
            (["examples/two.toml", "--hit", "node", "1"], "draw: a group is srlg and a number, or link and a number\n"),
            (["examples/two.toml", "examples/two.out", "--strip"], "draw: --strip runs the plan itself, so it takes no table\n"),
            (["examples/two.toml", "--strip"], "draw: its script cuts nothing, so there is no cut to show (--hit GROUP cuts one)\n"),
        ]
        for words, sentence in cases:
            ended = tool("draw", *words)
            self.assertEqual((ended.status, ended.out, ended.err), (2, "", sentence))

    def test_the_calls_that_a_group_hits(self) -> None:
        ended = tool("draw", "examples/contended.toml", "examples/contended.out", "--hit", "srlg", "8")
        self.assertEqual((ended.status, ended.err), (0, ""))
        self.assertIn(">c2: b to d<", ended.out)
        self.assertNotIn(">c1: a to d<", ended.out)

    def test_a_strip_shows_the_call_before_the_cut_after_it_and_back(self) -> None:
        for words in (["examples/restored.toml"], ["examples/apart.toml", "--hit", "link", "1"]):
            with self.subTest(words=words):
                ended = tool("draw", *words, "--strip")
                self.assertEqual((ended.status, ended.err), (0, ""))
                states = re.findall(r">c1: .*?</text>\n<text [^>]*>(.*?)<", ended.out)
                self.assertEqual(states, ["guarded", "turned", "guarded"])

    def test_a_refused_plan_is_not_drawn(self) -> None:
        ended = tool("draw", "-", given=plan_text(["settle 0"]))
        self.assertEqual(ended.status, 3)
        self.assertIn("refused plan script 1 range", ended.err)


if __name__ == "__main__":
    unittest.main()
