"""`tools/study-cuts`: what each cut does to calls, in each form, and what can't be studied."""

import contextlib
import csv
import io
import json
import os
import stat
import subprocess
import sys
import tempfile
import unittest
from pathlib import Path
from xml.etree import ElementTree

from ason_tools import cuts, plan, studies
from ason_tools.cuts import Cuts, Outcome
from ason_tools.groups import Group
from ason_tools.studies import Way

from .support import EXAMPLES, TOOLS, plan_text, tool

HEAD = ["group", "hit", "turned", "stuck", "bare", "cut", "off"]

# Nothing is known of this program but that it prints these calls, tells a survey, and after a cut waits for another one.
MEETING = """\
#!/bin/sh
[ "$1" = run ] || {{ echo "survey calm yes"; exit 0; }}
case $(cat) in
    *fail*) touch "{room}/$$"; tries=0
        until [ "$(ls "{room}" | wc -l)" -ge 2 ]; do
            tries=$((tries + 1)); [ "$tries" -lt 300 ] || exit 7
            sleep 0.1
        done ;;
esac
cat <<'END'
calls 2 legs 4
call c1 a b bare a.1.1 - -
call c2 b c bare b.1.1 - -
leg a.1.1 a work live - 1/1
leg a.1.1 b work live 1/1 -
leg b.1.1 b work live - 2/1
leg b.1.1 c work live 2/1 -
END
"""


def cut(network: plan.Plan, with_pairs: bool = False) -> tuple[Cuts, list[Outcome]]:
    """The cuts of each group, or of each two, and what became of them."""
    asked = Cuts(cuts.standing(network), cuts.pair_cuts(network) if with_pairs else cuts.single_cuts(network))
    return asked, asked.outcomes(studies.made(asked.study(), Way(2)).values)


def studied(name: str, with_pairs: bool = False) -> dict[str, Outcome]:
    """The outcomes of the example's cuts, by name."""
    return {it.name: it for it in cut(plan.read((EXAMPLES / f"{name}.toml").read_text()), with_pairs)[1]}


def all_of(terminal: int) -> bytes:
    """All that was written to the terminal whose other end is closed. It comes in parts; behind the last is an error."""
    parts = [b""]
    with contextlib.suppress(OSError):
        while part := os.read(terminal, 4096):
            parts.append(part)
    return b"".join(parts)


class OutcomeTest(unittest.TestCase):
    """What becomes of calls, where one can say it by hand.

    The call c1 goes over link 1 and its backup over the links 3 and 5, the call c2 over link 2 and its backup over 4 and 5.
    """

    def test_each_group_by_itself_turns_the_calls_that_it_hits(self) -> None:
        found = studied("apart")
        self.assertEqual(list(found), ["srlg 7", "link 1", "link 2", "link 3", "link 4", "link 5"])
        self.assertEqual([it.turned for it in found.values()], [("c1", "c2"), ("c1",), ("c2",), (), (), ()])
        self.assertEqual([it.hit for it in found.values()], [it.turned for it in found.values()])
        self.assertEqual([it.cut_off for it in found.values()], [()] * 6)

    def test_pairs_that_cut_a_working_route_and_its_backup_cut_the_call_off(self) -> None:
        lost = {name: it.cut_off for name, it in studied("apart", with_pairs=True).items()}
        both = {"srlg 7 + link 3": ("c1",), "srlg 7 + link 4": ("c2",), "srlg 7 + link 5": ("c1", "c2")}
        both |= {"link 1 + link 3": ("c1",), "link 1 + link 5": ("c1",), "link 2 + link 4": ("c2",), "link 2 + link 5": ("c2",)}
        self.assertEqual({name: names for name, names in lost.items() if names}, both)
        # A link of the duct is no pair with it.
        self.assertNotIn("srlg 7 + link 1", lost)

    def test_of_two_calls_that_share_a_label_one_is_stuck(self) -> None:
        both = studied("shared", with_pairs=True)
        self.assertEqual([name for name, it in both.items() if it.contends], ["link 1 + link 2"])
        found = both["link 1 + link 2"]
        self.assertEqual([it.text() for it in found.contends], ["5/1 at d: c1, c2"])
        self.assertEqual((len(found.turned), len(found.stuck), found.cut_off), (1, 1, found.stuck))

    def test_a_call_without_a_backup_is_cut_off(self) -> None:
        _, found = cut(plan.read(plan_text(["setup c1 a c unprotected via 4"])))
        self.assertEqual([(it.hit, it.bare, it.cut_off) for it in found], [((), (), ())] * 3 + [(("c1",),) * 3])

    def test_a_turned_call_is_hit_on_its_backup(self) -> None:
        asked, found = cut(plan.read((EXAMPLES / "turned.toml").read_text()))
        # Link 3 has failed, and the backup goes over the links 1 and 2.
        over = {1, 2}
        self.assertEqual(asked.start.carried, {"c1": over})
        self.assertEqual({it.links[0] for it in found if len(it.links) == 1 and "c1" in it.hit}, over)

    def test_a_cut_is_run_once_for_each_set_of_links(self) -> None:
        asked, _ = cut(plan.read((EXAMPLES / "restored.toml").read_text()))
        # The SRLGs 7 and 8 are the links 1 and 2, and no other link carries a call.
        self.assertEqual([order.cut for order in asked.study().orders], [(Group("srlg", 7),), (Group("srlg", 8),)])

    def test_what_is_not_run_yet_is_not_told(self) -> None:
        network = plan.read((EXAMPLES / "apart.toml").read_text())
        asked = Cuts(cuts.standing(network), cuts.single_cuts(network))
        # The runs are those of the duct and of its two links; the links 3 to 5 carry nothing, so they need none.
        self.assertEqual([it.name for it in asked.outcomes({1: {"calls": {"c1": ["turned", True]}, "rounds": 4}})], ["link 1", "link 3", "link 4", "link 5"])

    def test_an_outcome_has_the_name_of_its_groups(self) -> None:
        self.assertEqual(Outcome((Group("srlg", 7), Group("link", 2)), (1, 2), (), (), (), (), ()).name, "srlg 7 + link 2")


class ToolTest(unittest.TestCase):
    """The tool itself."""

    def test_the_table_ends_with_the_worst_groups(self) -> None:
        ended = tool("study-cuts", "-", given=plan_text(["setup c1 a c unprotected via 4", "setup c2 a b unprotected via 1"]))
        self.assertEqual((ended.status, ended.err), (0, ""))
        lines = ended.out.splitlines()
        rows = [lines[0].split(), *(line.split() for line in lines[1:3])]
        self.assertEqual(rows, [HEAD, ["link", "1", *"10011"], ["link", "4", *"10011"]])
        # A call without a backup counts as bare and as cut off, and the lines below the rows say that it can.
        self.assertEqual([line.split(":")[0] for line in lines[3:6]], ["hit", "turned", "cut off"])
        self.assertIn("one of the bare", lines[5])
        self.assertEqual(lines[6], "4 groups: 2 hit a call, 2 cut a call off")
        self.assertEqual(lines[7:], ["link 1 cuts off 1 of 2 calls: c2", "link 4 cuts off 1 of 2 calls: c1"])

    def test_csv_json_and_svg_say_the_same(self) -> None:
        rows = list(csv.DictReader(io.StringIO(tool("study-cuts", "examples/apart.toml", "--csv").out)))
        self.assertEqual([(row["group"], row["links"], row["hit"]) for row in rows[:2]], [("srlg 7", "1 2", "2"), ("link 1", "1", "1")])
        found = json.loads(tool("study-cuts", "examples/apart.toml", "--json").out)
        self.assertEqual(found[0], {"groups": ["srlg 7"], "links": [1, 2], "hit": ["c1", "c2"], "turned": ["c1", "c2"], "stuck": [], "bare": [], "cut_off": [], "contends": [], "rounds": {"taken": 4, "one_worker": 4, "most": 6}})
        root = ElementTree.fromstring(tool("study-cuts", "examples/apart.toml", "--svg").out)
        texts = [text.text for text in root.findall("{*}text")]
        self.assertLess(texts.index("srlg 7"), texts.index("link 1"))
        self.assertIn("of 6 groups 3 hit a call", texts)

    def test_a_plan_without_calls(self) -> None:
        self.assertEqual(tool("study-cuts", "-", given=plan_text()).out, "4 groups: 0 hit a call, 0 cut a call off\n")

    def test_runs_go_side_by_side(self) -> None:
        with tempfile.TemporaryDirectory() as room:
            path = Path(room) / "program"
            meeting = Path(room) / "meeting"
            meeting.mkdir()
            path.write_text(MEETING.format(room=meeting))
            path.chmod(path.stat().st_mode | stat.S_IXUSR)
            command = [sys.executable, str(TOOLS / "study-cuts"), "-", "--jobs", "2"]
            ended = subprocess.run(
                command, input=plan_text().encode(), capture_output=True, env=os.environ | {"ASON": str(path)}, check=False
            )
        self.assertEqual((ended.returncode, ended.stderr), (0, b""))
        self.assertIn(b"4 groups: 2 hit a call, 2 cut a call off\n", ended.stdout)

    def test_a_terminal_sees_how_far_it_is(self) -> None:
        reader, writer = os.openpty()
        command = [sys.executable, str(TOOLS / "study-cuts"), str(EXAMPLES / "apart.toml")]
        ended = subprocess.run(command, stdout=subprocess.DEVNULL, stderr=writer, check=False)
        os.close(writer)
        seen = all_of(reader)
        os.close(reader)
        self.assertEqual(ended.returncode, 0)
        self.assertRegex(seen, rb"\rstudy-cuts: 1 of 3 runs, \d+:\d\d to go\rstudy-cuts: 2 of 3 runs, \d+:\d\d to go\r")

    def test_what_can_not_be_studied(self) -> None:
        cases = [
            (["--jobs", "0"], plan_text(), "--jobs is at least 1"),
            ([], plan_text(["settle 0"]), "the standard input: ason says 'refused plan script 1 range' of the plan (tools/why shows where)"),
            ([], "x", "the standard input: it is no TOML: expected '=' after a key in a key/value pair (at end of document)"),
        ]
        for words, text, sentence in cases:
            ended = tool("study-cuts", "-", *words, given=text)
            self.assertEqual((ended.status, ended.out, ended.err), (2, "", f"study-cuts: {sentence}\n"))


if __name__ == "__main__":
    unittest.main()
