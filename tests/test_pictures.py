"""What `tools/draw` writes covers nothing: names and badges are counted that lie over nodes, links or each other."""

import math
import re
import unittest
from dataclasses import dataclass
from itertools import combinations
from xml.etree import ElementTree

from ason_tools import network_map, picture, plan, program, scene
from ason_tools.circuits import usage
from ason_tools.geometry import box_around
from ason_tools.groups import failed_links
from ason_tools.layout import layout
from ason_tools.fibre_loads import loads
from ason_tools.plan import Plan
from ason_tools.scene import Scene

from .networks import sixty
from .support import EXAMPLES, plan_text, tool

FIVE = [
    "setup c1 Palo-Alto Ithaca",
    "setup c2 San-Diego Pittsburgh",
    "setup c3 Seattle Princeton",
    "setup c4 Salt-Lake-City Ann-Arbor",
    "setup c5 Houston Boulder",
    "settle 1000",
]


@dataclass(frozen=True)
class Thing:
    """A name or a badge of a picture: its kind, its link or its node, and its box."""

    kind: str
    of: str
    box: tuple[float, float, float, float]


def scene_of(drawn: Plan) -> Scene:
    """The scene at the end of a run."""
    table = program.run(drawn.text()).table
    failed = failed_links(drawn)
    return Scene(drawn, usage(drawn, table, failed), failed, "x")


def nsfnet(script: list[str]) -> Plan:
    """NSFNET with this script."""
    network = plan.read((EXAMPLES / "nsfnet.toml").read_text())
    return Plan(network.nodes, network.links, script)


def number(element: ElementTree.Element, key: str) -> float:
    return float(element.get(key, "nan"))


def things(root: ElementTree.Element) -> list[Thing]:
    """The names, the links' numbers and the circuits' numbers."""
    found = []
    for it in root.iter():
        kind, of = it.get("class", ""), it.get("data-link") or it.get("data-node") or ""
        if kind == "name":
            left, base, high = number(it, "x"), number(it, "y"), number(it, "font-size")
            found.append(Thing(kind, of, (left, base - 0.72 * high, left + number(it, "textLength"), base + 0.21 * high)))
        elif kind == "number":
            left, top = number(it, "x"), number(it, "y")
            found.append(Thing(kind, of, (left, top, left + number(it, "width"), top + number(it, "height"))))
        elif kind == "tag":
            wide = 2 * number(it, "r")
            found.append(Thing(kind, of, box_around((number(it, "cx"), number(it, "cy")), wide, wide)))
    return found


def far(box: tuple[float, float, float, float], x: float, y: float) -> float:
    """How far the point is from the box."""
    return math.hypot(max(box[0] - x, 0, x - box[2]), max(box[1] - y, 0, y - box[3]))


def ways(root: ElementTree.Element) -> list[tuple[str, float, list[tuple[float, float]]]]:
    """Each link with half its width, and points of its way that are a step apart."""
    found = []
    for it in root.iter():
        if it.get("class") == "link":
            corners = [tuple(map(float, pair.split(","))) for pair in it.get("points", "").split()]
            points = []
            for (x1, y1), (x2, y2) in zip(corners, corners[1:]):
                steps = int(math.dist((x1, y1), (x2, y2)) / 2) + 1
                points += [(x1 + (x2 - x1) * step / steps, y1 + (y2 - y1) * step / steps) for step in range(steps + 1)]
            found.append((it.get("data-link", ""), number(it, "stroke-width") / 2, points))
    return found


def is_on(box: tuple[float, float, float, float], half: float, points: list[tuple[float, float]]) -> bool:
    """Whether the box lies over a link of this half width."""
    near = (pair for pair in points if box[0] - half < pair[0] < box[2] + half and box[1] - half < pair[1] < box[3] + half)
    return any(far(box, x, y) < half for x, y in near)


def overlaps(svg: str) -> list[str]:
    """What covers what: a badge may lie on its own link alone, and a name on nothing."""
    root = ElementTree.fromstring(svg)
    found, all_things = [], things(root)
    nodes = [(it.get("data-node"), number(it, "cx"), number(it, "cy"), number(it, "r")) for it in root.iter() if it.get("class") == "node"]
    lines = ways(root)
    for thing in all_things:
        found += [f"{thing} node {name}" for name, x, y, radius in nodes if far(thing.box, x, y) < radius]
        found += [
            f"{thing} link {link}"
            for link, half, points in lines
            if (thing.kind == "name" or link != thing.of) and is_on(thing.box, half, points)
        ]
        left, top, right, bottom = thing.box
        if left < 0 or top < 0 or right > number(root, "width") or bottom > number(root, "height"):
            found.append(f"{thing} edge")
    for one, other in combinations(all_things, 2):
        if all(one.box[axis] < other.box[axis + 2] and other.box[axis] < one.box[axis + 2] for axis in (0, 1)):
            found.append(f"{one} {other}")
    return found


class OverlapTest(unittest.TestCase):
    """Names and badges cover nothing."""

    def test_nsfnet_with_five_calls_and_with_a_cut(self) -> None:
        for script in (FIVE, [*FIVE, "fail link 8", "settle 1000"]):
            drawn = scene_of(nsfnet(script))
            svg = picture.draw(drawn, True)
            with self.subTest(script=script[-2:]):
                self.assertEqual(overlaps(svg), [])
                self.assertEqual(len([it for it in things(ElementTree.fromstring(svg)) if it.kind == "name"]), 14)

    def test_sixty_nodes_with_few_and_many_calls_and_with_a_cut(self) -> None:
        for count, cut in ((5, None), (5, 49), (20, 58), (200, None), (200, 58)):
            with self.subTest(count=count, cut=cut):
                drawn = scene_of(sixty(count, cut))
                svg = picture.draw(drawn, False)
                found = things(ElementTree.fromstring(svg))
                self.assertEqual(overlaps(svg), [])
                self.assertEqual(sum(it.kind == "name" for it in found), 60)
                self.assertEqual(sum(it.kind == "number" for it in found), len(drawn.plan.links))

    def test_the_pictures_of_the_pages(self) -> None:
        for name in ("nsfnet", "first-plan", "twenty"):
            with self.subTest(name=name):
                svg = (EXAMPLES.parent / f"docs/{name}.svg").read_text()
                self.assertEqual(overlaps(svg), [])
                self.assertEqual(sum(it.kind == "name" for it in things(ElementTree.fromstring(svg))), 14)

    def test_each_call_has_its_number_on_the_map(self) -> None:
        drawn = scene_of(sixty(20, None))
        svg = picture.draw(drawn, False)
        on_map = {text for text in re.findall(r'class="tag"[^>]*/>\n<text [^>]*>(\d+)<', svg)}
        self.assertEqual(on_map, {str(it.number) for it in drawn.circuits if it.spans})

    def test_a_name_is_nearest_to_its_own_node(self) -> None:
        root = ElementTree.fromstring(picture.draw(scene_of(sixty(5, None)), False))
        nodes = {it.get("data-node"): (number(it, "cx"), number(it, "cy")) for it in root.iter() if it.get("class") == "node"}
        for thing in things(root):
            if thing.kind == "name":
                self.assertEqual(min(nodes, key=lambda name: far(thing.box, *nodes[name])), thing.of)

    def test_what_is_covered_is_counted(self) -> None:
        svg = picture.draw(scene_of(nsfnet(FIVE)), False)
        root = ElementTree.fromstring(svg)
        names = [it for it in root.iter() if it.get("class") == "name"]
        node = next(it for it in root.iter() if it.get("class") == "node" and it.get("data-node") == "Lincoln")
        names[0].set("x", node.get("cx", ""))
        names[0].set("y", node.get("cy", ""))
        found = overlaps(ElementTree.tostring(root, encoding="unicode"))
        self.assertTrue(any("node Lincoln" in it for it in found))
        self.assertTrue(any("link 10" in it or "link 13" in it for it in found))


class LoadTest(unittest.TestCase):
    """The load of links."""

    def test_labels_are_used_reserved_or_free(self) -> None:
        drawn = plan.read((EXAMPLES / "shared.toml").read_text())
        told = loads(scene_of(drawn))
        # Each call holds a label of its working route, and both backups share one of link 5 (examples/shared.out).
        self.assertEqual({fibre: (it.used, it.reserved, it.others) for fibre, it in told.items() if it.taken},
            {(1, "a"): (1, 0, 0), (2, "b"): (1, 0, 0), (3, "a"): (0, 1, 0), (4, "b"): (0, 1, 0), (5, "c"): (0, 1, 0)})  # fmt: skip

    def test_what_other_calls_hold_is_told_apart(self) -> None:
        found = scene_of(plan.read((EXAMPLES / "shared.toml").read_text()))
        told = loads(Scene(found.plan, found.usage, found.failed, "x", frozenset({"c1"})))
        self.assertEqual([(told[2, "b"].used, told[2, "b"].others), (told[1, "a"].used, told[1, "a"].others)], [(0, 1), (1, 0)])

    def test_each_share_has_its_colour(self) -> None:
        colours = [scene.load_colour(share) for share in (0.0, 0.25, 0.26, 0.5, 0.75, 0.76, 0.99, 1.0)]
        self.assertEqual(colours, [scene.LOADS[place] for place in (0, 0, 1, 1, 2, 3, 3, 4)])

    def test_many_circuits_are_a_load_and_few_are_lanes(self) -> None:
        words = {"many": (21, []), "few": (20, [])}
        drawn = {name: scene_of(sixty(count)) for name, (count, _) in words.items()}
        self.assertTrue(drawn["many"].shows_load)
        self.assertFalse(drawn["few"].shows_load)
        self.assertIn("labels in use, reserved (pale) and free (grey)", picture.draw(drawn["many"], False))

    def test_calls_have_numbers_beside_a_load_where_the_grid_has_them(self) -> None:
        drawn = scene_of(sixty(21))
        numbers = [len(re.findall(">21</text>", picture.draw(drawn, with_labels))) for with_labels in (False, True)]
        # Link 21 has its number too.
        self.assertEqual(numbers[0], 1)
        self.assertGreater(numbers[1], 2)

    def test_the_load_may_be_asked_for(self) -> None:
        self.assertIn("labels in use", tool("draw", "examples/two.toml", "--load").out)
        self.assertNotIn("carries its call", tool("draw", "examples/two.toml", "--load").out)


class LegendTest(unittest.TestCase):
    """What the legend tells is there."""

    def test_signs_of_what_is_there_alone(self) -> None:
        text = picture.draw(scene_of(Plan(*_network(), ["setup c1 a b unprotected via 1", "settle 9"])), False)
        self.assertIn("carries its call", text)
        for absent in ("a backup in reserve", "no free label", "link that is down", "labels in use"):
            self.assertNotIn(absent, text)

    def test_a_call_has_its_direction(self) -> None:
        plain, both = (scene_of(Plan(*_network(), [f"setup c1 {ends} unprotected{word}", "settle 99"])) for ends, word in (("c d", ""), ("c d", " both")))
        arrows = [len(re.findall("<polygon", picture.draw(it, False))) for it in (plain, both)]
        # One is the key's.
        self.assertEqual(arrows, [2, 3])
        span = plain.spans_by_link()[3][0]
        self.assertEqual(span.sender, "c")

    def test_an_arrow_points_to_the_taking_end(self) -> None:
        for ends in (("c", "d"), ("d", "c")):
            root = ElementTree.fromstring(picture.draw(scene_of(Plan(*_network(), [f"setup c1 {ends[0]} {ends[1]} unprotected", "settle 99"])), False))
            nodes = {it.get("data-node"): (number(it, "cx"), number(it, "cy")) for it in root.iter() if it.get("class") == "node"}
            arrow = next(it for it in root.findall("{*}polygon") if it.get("fill") == scene.COLOURS[0])
            tip, *back = [tuple(map(float, pair.split(","))) for pair in arrow.get("points", "").split()]
            self.assertLess(math.dist(tip, nodes[ends[1]]), min(math.dist(it, nodes[ends[1]]) for it in back))
            self.assertLess(math.dist(tip, nodes[ends[1]]), math.dist(tip, nodes[ends[0]]))

    def test_a_picture_with_nothing_to_show_says_so(self) -> None:
        ended = tool("draw", "examples/nsfnet.toml", "--hit", "link", "1")
        self.assertEqual((ended.status, ended.err), (0, "draw: no call's working route has a link of link 1\n"))
        self.assertIn(">No call's working route has a link of link 1<", ended.out)
        ended = tool("draw", "examples/apart.toml", "--strip", "--hit", "link", "4")
        self.assertEqual((ended.status, ended.err), (0, "draw: no call's working route has a link of link 4\n"))
        ended = tool("draw", "-", given=plan_text())
        self.assertEqual((ended.status, ended.err), (0, "draw: the table has no call\n"))

    def test_a_dark_screen_has_its_colours(self) -> None:
        svg = picture.draw(scene_of(nsfnet(FIVE)), False)
        rules = dict(re.findall(r'^\[fill="(#\w{6})"\]\{fill:(#\w{6})\}$', svg, re.MULTILINE))
        self.assertEqual(rules[scene.PAPER], scene.DARK[scene.PAPER])
        self.assertLessEqual({it for it in re.findall(r'fill="(#\w{6})"', svg)}, rules.keys())


class DotTest(unittest.TestCase):
    """Places for `neato -n`."""

    def test_each_node_has_a_place_in_points(self) -> None:
        text = tool("draw", "examples/nsfnet.toml", "--dot").out
        places = {name: (float(x), float(y)) for name, x, y in re.findall(r'^    "(\S+)" \[pos="(\d+),(\d+)"\];$', text, re.MULTILINE)}
        self.assertEqual(len(places), 14)
        # 72 points are an inch, about as wide as a box with a name.
        self.assertGreater(min(math.dist(a, b) for a, b in combinations(places.values(), 2)), 72)
        self.assertGreater(places["Seattle"][1], places["San-Diego"][1])
        self.assertLess(places["Seattle"][0], places["Princeton"][0])


def _network() -> tuple[list, list]:
    network = plan.read(plan_text())
    return network.nodes, network.links


if __name__ == "__main__":
    unittest.main()
