"""`tools/why` over tables: where a call failed, what is free beside it, and why no backup can exist."""

import random
import unittest
from collections.abc import Iterator
from itertools import combinations, pairwise, product

from ason_tools import plan, program, tables
from ason_tools.circuits import Holder, Usage
from ason_tools.disjoint import Shared, least_backup, other_pair, shared_by_all
from ason_tools.groups import Group
from ason_tools.reasons import reasons
from ason_tools.room import Room
from ason_tools.script_forms import FORMS

from .support import plan_text, tool

PARALLEL = '[[link]]\nid = 5\nends = ["c", "d"]\nlabels = 2\n'
"""A second link from c to d."""

AGAIN = "a setup isn't tried again, nor by another way: release it and set it up anew"
FULL_AC = "at c: the fibre of link 4 from a has no free label among its 2: held by x and y"

# Two calls hold both labels of link 4, on its fibre from a.
FILLED = """\
call x a c bare a.1.1 - -
call y a c bare a.2.2 - -
leg a.1.1 a work live - 4/1
leg a.1.1 c work live 4/1 -
leg a.2.2 a work live - 4/2
leg a.2.2 c work live 4/2 -
"""


def told(text: str, rows: str, failed: set[int] | None = None) -> dict[str, list[str]]:
    """The sentences on each call of a table with these rows, by the calls' names."""
    network = plan.read(text)
    lines = sorted(rows.splitlines(), key=lambda line: line.split()[0])
    calls = sum(line.startswith("call ") for line in lines)
    table = tables.read("\n".join([f"calls {calls} legs {len(lines) - calls}", *lines]) + "\n").tables[0]
    return {it.call.name: list(it.sentences) for it in reasons(network, table, frozenset(failed or ()))}


class BlockedTest(unittest.TestCase):
    """Calls without a working LSP, over the links 1 (a to b), 2 (b to c), 3 (c to d) and 4 (a to c)."""

    def test_a_full_fibre_its_holders_and_a_free_way(self) -> None:
        text = plan_text(["setup z a d unprotected via 4,3"])
        self.assertEqual(told(text, FILLED + "call z a d blocked - - set\n"), {"z": [FULL_AC, "free is the way via 1,2,3", AGAIN]})

    def test_a_route_that_the_program_found_is_the_least(self) -> None:
        text = plan_text(["setup z a d unprotected"])
        self.assertEqual(told(text, FILLED + "call z a d blocked - - set\n")["z"][0], FULL_AC)

    def test_no_free_way(self) -> None:
        text = plan_text(["setup z a c unprotected via 4"]).replace('ends = ["a", "b"]\nlabels = 2', 'ends = ["a", "b"]\nlabels = 1')
        rows = FILLED + "call z a c blocked - - set\ncall w a b bare a.3.3 - -\nleg a.3.3 a work live - 1/1\nleg a.3.3 b work live 1/1 -\n"
        self.assertEqual(told(text, rows)["z"][1], "no way to c is free on each of its links")

    def test_a_label_that_is_free_by_now(self) -> None:
        text = plan_text(["setup z a c unprotected via 4"])
        found = told(text, "call z a c blocked - - set\n")["z"]
        self.assertEqual(found[0], "each link of its way via 4 has a label now: others had them when it was tried")

    def test_a_transparent_node_keeps_the_wavelength(self) -> None:
        text = plan_text(["setup z a c unprotected via 1,2"]).replace("convert = true", "convert = false")
        rows = "call x a b bare a.1.1 - -\nleg a.1.1 a work live - 1/1\nleg a.1.1 b work live 1/1 -\n"
        rows += "call y b c bare b.1.1 - -\nleg b.1.1 b work live - 2/2\nleg b.1.1 c work live 2/2 -\n"
        where = "b keeps an LSP's wavelength, and the fibre of link 2 from b has none free that is free on the links before"
        self.assertEqual(told(text, rows + "call z a c blocked - - set\n")["z"][:2], [f"at c: {where}", "free is the way via 4"])

    def test_a_setup_that_meets_a_cut_is_not_tried_by_another_way(self) -> None:
        text = plan_text(["setup z a d unprotected via 4,3", "fail link 4", "settle 9"])
        found = told(text, "call z a d blocked - - down\n", {4})["z"]
        cut = "the line 'fail link 4' comes behind its setup without a settle between them"
        self.assertEqual(found, ["link 4 (a to c) of its way is down", "free is the way via 1,2,3", cut, AGAIN])
        settled = plan_text(["fail link 4", "settle 9", "setup z a d unprotected via 4,3"])
        self.assertNotIn(cut, told(settled, "call z a d blocked - - down\n", {4})["z"])

    def test_the_program_blocks_such_a_setup_and_takes_the_way_that_is_named(self) -> None:
        script = ["fail link 4", "settle 100", "setup z a d unprotected", "settle 100", "release z", "settle 100"]
        blocked = program.run(plan_text(script[:3])).table.call("z")
        self.assertEqual((blocked.state, blocked.cause), ("blocked", "down"))
        network = plan.read(plan_text(script[:3]))
        found = reasons(network, program.run(network.text()).table, frozenset({4}))[0].sentences
        self.assertIn("free is the way via 1,2,3", found)
        anew = program.run(plan_text([*script[:2], "setup z a d unprotected via 1,2,3"])).table.call("z")
        self.assertEqual(anew.state, "bare")

    def test_no_links_lead_there(self) -> None:
        text = plan_text(["setup z a d unprotected"]).replace('[[link]]\nid = 3\nends = ["c", "d"]\nlabels = 2\n', "")
        self.assertEqual(told(text, "call z a d blocked - - noroute\n")["z"], ["no links lead from a to d: they lead to b and c alone"])

    def test_links_that_were_not_known_yet(self) -> None:
        found = told(plan_text(["setup z a d unprotected"]), "call z a d blocked - - noroute\n")["z"]
        self.assertEqual(found, ["its first node didn't know the links of a way when the setup came: settle before it"])


class BareTest(unittest.TestCase):
    """Calls that asked for a backup and have none."""

    def bare(self, links: str, route: str, rows: str) -> list[str]:
        text = plan_text(["setup z a d"]) + links
        head = "call z a d bare a.1.1 - nobackup\n"
        return told(text, head + rows)["z"]

    CROSSED = "leg a.1.1 a work live - 4/1\nleg a.1.1 c work live 4/1 3/1\nleg a.1.1 d work live 3/1 -\n"

    def test_each_way_goes_over_one_link(self) -> None:
        wanted = "each way from a to d goes over link 3 (c to d), and a backup shares no link with its working route"
        self.assertEqual(self.bare("", "4,3", self.CROSSED), [wanted])

    def test_a_site_behind_one_node(self) -> None:
        wanted = "each way from a to d goes through c, and a backup shares no inner node with its working route"
        self.assertEqual(self.bare(PARALLEL, "4,3", self.CROSSED), [wanted])
        run = program.run(plan_text(["setup z a d"]) + PARALLEL)
        self.assertEqual((run.table.call("z").state, run.table.call("z").cause), ("bare", "nobackup"))

    def test_each_way_has_one_risk(self) -> None:
        around = '[[link]]\nid = 5\nends = ["a", "d"]\nlabels = 2\nsrlg = [7]\n[[link]]\nid = 6\nends = ["b", "d"]\nlabels = 2\nsrlg = [7]\n'
        text = plan_text(["setup z a d"]).replace('ends = ["c", "d"]\nlabels = 2', 'ends = ["c", "d"]\nlabels = 2\nsrlg = [7]') + around
        rows = "call z a d bare a.1.1 - nobackup\nleg a.1.1 a work live - 5/1\nleg a.1.1 d work live 5/1 -\n"
        wanted = "each way from a to d has a link of SRLG 7, and a backup shares no risk with its working route"
        self.assertEqual(told(text, rows), {"z": [wanted]})

    def test_another_working_route_has_a_backup(self) -> None:
        # The least route from a to d takes both inner nodes, and each of them by itself is on a way of its own.
        text = plan_text(["setup z a d via 1,2,3"]).replace('ends = ["a", "c"]\nlabels = 2', 'ends = ["a", "c"]\nlabels = 2\nmetric = 9')
        text += '[[link]]\nid = 5\nends = ["b", "d"]\nlabels = 2\nmetric = 9\n'
        network = plan.read(text)
        self.assertIsNone(least_backup(network, "a", "d", (1, 2, 3)))
        self.assertEqual(shared_by_all(network, "a", "d", (1, 2, 3)), [])
        self.assertEqual(other_pair(network, "a", "d", (1, 2, 3)), ((4, 3), (1, 5)))
        states = [
            program.run(text.replace("via 1,2,3", words)).table.call("z").state for words in ("via 1,2,3", "via 4,3 backup 1,5")
        ]
        self.assertEqual(states, ["bare", "guarded"])

    def test_shared_things_are_links_before_nodes(self) -> None:
        network = plan.read(plan_text())
        self.assertEqual(shared_by_all(network, "a", "d", (4, 3)), [Shared(group=Group("link", 3))])

    def test_a_backup_that_found_no_label(self) -> None:
        # The backup of z over 1 and 2 may share no label with that of x, since link 4 is in both working routes.
        rows = """\
call x a c guarded a.1.1 a.1.2 -
call z a c bare a.2.3 - set
leg a.1.1 a work live - 4/1
leg a.1.1 c work live 4/1 -
leg a.1.2 a back held - 1/1
leg a.1.2 b back held 1/1 2/1
leg a.1.2 c back held 2/1 -
leg a.2.3 a work live - 4/2
leg a.2.3 c work live 4/2 -
"""
        text = plan_text(["setup x a c", "settle 9", "setup z a c"]).replace('["a", "b"]\nlabels = 2', '["a", "b"]\nlabels = 1')
        where = "at b: the fibre of link 1 from a has no label that it may share among its 1: held by x"
        wanted = [where, "no way to c is free on each of its links", "protect z asks for its backup again"]
        self.assertEqual(told(text, rows), {"z": wanted})
        call = program.run(text.replace('"setup z a c"', '"settle 9", "setup z a c"')).table.call("z")
        self.assertEqual((call.state, call.cause), ("bare", "set"))

    def test_a_call_without_a_backup_whose_link_is_down(self) -> None:
        rows = "call z a c bare a.1.1 - -\nleg a.1.1 a work live - 4/1\nleg a.1.1 c work live 4/1 -\n"
        text = plan_text(["setup z a c unprotected via 4"])
        self.assertEqual(told(text, rows, {4}), {"z": ["its working route: link 4 (a to c) is down", "it has no backup"]})
        self.assertEqual(told(text, rows), {})


class StuckTest(unittest.TestCase):
    """Calls that can't turn."""

    ROWS = """\
call x a c {x} a.1.1 a.1.2 -
call z a c stuck a.2.3 a.2.4 {cause}
leg a.1.1 a work live - 4/1
leg a.1.1 c work live 4/1 -
leg a.1.2 a back {phase} - 1/1
leg a.1.2 b back {phase} 1/1 2/1
leg a.1.2 c back {phase} 2/1 -
leg a.2.3 a work live - 5/1
leg a.2.3 c work live 5/1 -
leg a.2.4 a back held - 1/1
leg a.2.4 b back held 1/1 2/1
leg a.2.4 c back held 2/1 -
"""
    TEXT = plan_text() + '[[link]]\nid = 5\nends = ["a", "c"]\nlabels = 2\n'

    def test_a_label_in_use(self) -> None:
        rows = self.ROWS.format(x="turned", phase="live", cause="busy")
        self.assertEqual(
            told(self.TEXT, rows, {4, 5})["z"],
            [
                "its working route: link 5 (a to c) is down",
                "at b: the fibre of link 1 from a, label 1, is in use by x",
                "free on that fibre: label 2; the backup keeps the label that it shares",
                "once x has gone back, retry z turns it",
            ],
        )

    def test_a_label_that_is_free_again(self) -> None:
        rows = self.ROWS.format(x="guarded", phase="held", cause="busy")
        found = told(self.TEXT, rows, {5})["z"]
        self.assertEqual(found[1], "its backup via 1,2 is free now: retry z turns it")

    def test_a_turned_call_whose_backup_is_cut(self) -> None:
        rows = self.ROWS.format(x="turned", phase="live", cause="busy")
        found = told(self.TEXT, rows, {4, 2})["x"]
        self.assertEqual(found, ["its working route: link 4 (a to c) is down", "its backup: link 2 (b to c) is down"])

    def test_a_call_that_is_turning(self) -> None:
        rows = self.ROWS.format(x="turning", phase="armed", cause="busy")
        found = told(self.TEXT, rows, {4})["x"]
        self.assertEqual(found[1], "its backup wasn't connected from end to end yet when the table was made")

    def test_a_backup_that_is_down_too(self) -> None:
        rows = self.ROWS.format(x="guarded", phase="held", cause="backdown")
        found = told(self.TEXT, rows, {5, 2})["z"]
        self.assertEqual(found, ["its working route: link 5 (a to c) is down", "its backup: link 2 (b to c) is down"])


def walks(network: plan.Plan, nodes: tuple[str, ...], target: str) -> Iterator[tuple[str, ...]]:
    """All ways from the last of these nodes to the target that come to no node twice, by their nodes."""
    if nodes[-1] == target:
        yield nodes
        return
    ends = [link.other(nodes[-1]) for link in network.links if nodes[-1] in link.ends]
    for node in ends:
        if node not in nodes:
            yield from walks(network, (*nodes, node), target)


class RoomTest(unittest.TestCase):
    """The least free way, against all ways on small networks of both kinds of nodes."""

    def test_the_least_free_way_is_as_short_as_any(self) -> None:
        chance = random.Random(20261128)
        for _ in range(150):
            network, room = self.network(chance)
            found = room.least("n0", "n4", network)
            free = [nodes for nodes in walks(network, ("n0",), "n4") if self.has_labels(room, nodes)]
            self.assertEqual(len(found) if found else None, min((len(nodes) - 1 for nodes in free), default=None))
            self.assertTrue(found is None or room.narrow("n0", found) is None)

    def network(self, chance: random.Random) -> tuple[plan.Plan, Room]:
        """Five nodes, a link between some two of them, and labels that somebody holds."""
        names = [f"n{number}" for number in range(5)]
        nodes = [plan.Node(name, number, chance.random() < 0.4) for number, name in enumerate(names, 1)]
        pairs = [pair for pair in combinations(names, 2) if chance.random() < 0.7]
        links = [plan.Link(number, pair, 2) for number, pair in enumerate(pairs, 1)]
        holder = Holder(None, tables.Lsp("n0", 9, 9), True)
        held = {
            (link.id, end): {label: [holder] for label in (1, 2) if chance.random() < 0.5} for link in links for end in link.ends
        }
        network = plan.Plan(nodes, links)
        return network, Room(network, Usage([], held))

    def has_labels(self, room: Room, nodes: tuple[str, ...]) -> bool:
        """Whether some choice of labels runs along these nodes, changing at those that convert alone."""
        links = {frozenset(link.ends): link for link in room.plan.links}
        converting = {node.name for node in room.plan.nodes if node.convert}
        fibres = [room.usable[links[frozenset(step)].id, step[0]] for step in pairwise(nodes)]
        return any(
            all(node in converting or a == b for node, (a, b) in zip(nodes[1:-1], pairwise(labels)))
            for labels in product(*fibres)
        )


class ToolTest(unittest.TestCase):
    """The tool itself."""

    def test_a_table_that_is_given(self) -> None:
        given = "calls 1 legs 0\ncall z a d blocked - - noroute\n"
        ended = tool("why", "examples/idle.toml", "-", given=given)
        self.assertEqual((ended.status, ended.out), (2, ""))
        self.assertIn("the table names the node", ended.err)

    def test_tables_have_places(self) -> None:
        first = tool("why", "examples/nsfnet.toml", "examples/nsfnet.out", "--table", "1").out
        self.assertIn("has no free label among its 2: held by west-east and south\n    free is the way via 7,9,12,20,18\n", first)
        ended = tool("why", "examples/nsfnet.toml", "examples/nsfnet.out", "--table", "3")
        self.assertEqual((ended.status, ended.err), (2, "why: examples/nsfnet.toml: there is no table 3: the output has 2\n"))

    def test_the_forms_of_a_line_and_the_nearest(self) -> None:
        cases = {
            "shout": "show",
            "fail lnk 3": "fail link N",
            "wiat 5": "wait N",
            "revert": "revert NAME",
            "setup c1 a b backup 3 via 4": "setup NAME FROM TO via L,.. backup L,..",
            "setup c1 a b unprotected over 1": "setup NAME FROM TO unprotected via L,..",
        }
        for line, form in cases.items():
            with self.subTest(line=line):
                ended = tool("why", "-", given=plan_text([line]))
                self.assertEqual(ended.status, 1)
                self.assertIn(f"of which the nearest is {form!r}", ended.out)
                self.assertEqual(ended.out.splitlines()[-len(FORMS) :], [f"    {it}" for it in FORMS])
        zero = tool("why", "-", given=plan_text(["settle 010"])).out
        self.assertIn("a number has no sign and no leading zero, as 010 has", zero)

    def test_each_form_is_one_of_the_program(self) -> None:
        routes = {f"setup NAME FROM TO {both}via L,.. backup L,..": f"setup z a c {both}via 4 backup 1,2" for both in ("", "both ")}
        words = {"NAME": "z", "FROM": "a", "TO": "c", "L,..": "4", "N": "7", "R": "9", "A": "a", "B": "b", "K": "5", "HEX": "00"}
        network = plan_text().replace('ends = ["a", "c"]', 'srlg = [7]\nends = ["a", "c"]').replace("id = 4\nsrlg", "id = 7\nsrlg")
        for form in FORMS:
            line = routes.get(form) or " ".join(words.get(word, word) for word in form.split())
            line = line.replace("4", "7")
            before = [] if line.startswith("setup") else ["setup z a b unprotected"]
            script = plan_text([*before, line]).partition("[[node]]")[0]
            refused = program.run(script + network.partition("]\n")[2]).refused
            self.assertIsNone(refused, line)


if __name__ == "__main__":
    unittest.main()
