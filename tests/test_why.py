"""`tools/why` over faulty plans: the program's entry and kind, and the line that is shown."""

import tempfile
import unittest
from pathlib import Path

from ason_tools import program
from ason_tools.faults import explain

from .support import plan_text, tool

NODE = '[[node]]\nname = "a"\nid = 1\nconvert = true\n'
NODES = NODE + '[[node]]\nname = "b"\nid = 2\nconvert = true\n'
LINK = '[[link]]\nid = 1\nends = ["a", "b"]\nlabels = 2\n'


def with_node(second: str) -> str:
    """A plan whose second node is this."""
    return NODE + "[[node]]\n" + second


def with_link(second: str) -> str:
    """A plan whose second link is this."""
    return NODES + LINK + "[[link]]\n" + second


def rows(head: str, count: int) -> str:
    """So many inline tables of a key."""
    return f"{head} = [\n" + "".join(f"    {{}}, # {number}\n" for number in range(1, count + 1)) + "]\n"


def setups(count: int) -> list[str]:
    return [f"setup c{number} a b unprotected via 1" for number in range(1, count + 1)]


# The plan, the program's entry and kind, and the line of the plan that is shown, or None where there is none.
FAULTS: list[tuple[str, str, str | None]] = [
    ("x = 1 1\n", "toml syntax", "x = 1 1"),
    ('script = ["setup\n', "toml syntax", 'script = ["setup'),
    ("wait = 1\nwait = 2\n", "toml syntax", "wait = 2"),
    ("wait = [", "toml syntax", "wait = ["),
    (NODE + "[extra]\nx = 1\n", "top key", "[extra]"),
    ("Wait = 3\n" + NODE, "top key", "Wait = 3"),
    ("wait = 3\n", "top missing", None),
    ("", "top missing", None),
    ('wait = "3"\n' + NODE, "top kind", 'wait = "3"'),
    ("wait = true\n" + NODE, "top kind", "wait = true"),
    ('script = "show"\n' + NODE, "top kind", 'script = "show"'),
    ('script = [\n    "show",\n    7,\n]\n' + NODE, "top kind", "7,"),
    ("node = 3\n", "top kind", "node = 3"),
    ("node = [\n    4,\n]\n", "top kind", "4,"),
    (NODE + "[link]\nid = 1\n", "top kind", "[link]"),
    ("node = []\n", "top count", "node = []"),
    (rows("node", 65), "top count", "{}, # 65"),
    (rows("link", 257) + NODE, "top count", "{}, # 257"),
    ("script = [\n" + '    "show",\n' * 10_000 + '    "show", # one more\n]\n' + NODE, "top count", '"show", # one more'),
    ("wait = 10001\n" + NODE, "top range", "wait = 10001"),
    ("wait = -1\n" + NODE, "top range", "wait = -1"),
    (with_node('name = "b"\nid = 2\nspeed = 9\n'), "node 2 key", "speed = 9"),
    (with_node('name = "b"\n'), "node 2 missing", "[[node]]"),
    (with_node('name = "b"\nid = "2"\n'), "node 2 kind", 'id = "2"'),
    (with_node('name = "b"\nid = 2\nconvert = 1\n'), "node 2 kind", "convert = 1"),
    (with_node('name = "2b"\nid = 2\n'), "node 2 name", 'name = "2b"'),
    (with_node('name = ""\nid = 2\n'), "node 2 name", 'name = ""'),
    (with_node('name = "abcdefghijklmnopq"\nid = 2\n'), "node 2 name", 'name = "abcdefghijklmnopq"'),
    (with_node('name = "b"\nid = 0\n'), "node 2 range", "id = 0"),
    (with_node('name = "b"\nid = 4294967296\n'), "node 2 range", "id = 4294967296"),
    (with_node('name = "b"\nid = 1\n'), "node 2 order", "id = 1"),
    (with_node('id = 2\nname = "a"\n'), "node 2 twice", 'name = "a"'),
    (with_link('id = 2\nends = ["a", "b"]\nlabels = 1\ncolour = 3\n'), "link 2 key", "colour = 3"),
    (with_link('id = 2\nends = ["a", "b"]\n'), "link 2 missing", "[[link]]"),
    (with_link('id = 2\nends = "a"\nlabels = 1\n'), "link 2 kind", 'ends = "a"'),
    (with_link('id = 2\nends = ["a", 5]\nlabels = 1\n'), "link 2 kind", 'ends = ["a", 5]'),
    (with_link('id = 2\nends = ["a", "b"]\nlabels = 1\nsrlg = [1,\n    "x"]\n'), "link 2 kind", '"x"]'),
    (with_link('id = 2\nends = ["a"]\nlabels = 1\n'), "link 2 count", 'ends = ["a"]'),
    (with_link(f'id = 2\nends = ["a", "b"]\nlabels = 1\nsrlg = {list(range(17))}\n'), "link 2 count", f"srlg = {list(range(17))}"),
    (with_link('id = 2\nends = ["a", "b"]\nlabels = 81\n'), "link 2 range", "labels = 81"),
    (with_link('id = 2\nends = ["a", "b"]\nlabels = 1\nmetric = 0\n'), "link 2 range", "metric = 0"),
    (with_link('id = 2\nends = ["a", "b"]\nlabels = 1\nsrlg = [-1]\n'), "link 2 range", "srlg = [-1]"),
    (with_link('id = 1\nends = ["a", "b"]\nlabels = 1\n'), "link 2 order", "id = 1"),
    (with_link('id = 2\nends = ["a", "c"]\nlabels = 1\n'), "link 2 ends", 'ends = ["a", "c"]'),
    (with_link('id = 2\nends = ["b", "b"]\nlabels = 1\n'), "link 2 ends", 'ends = ["b", "b"]'),
    (with_link('id = 2\nends = ["a", "b"]\nlabels = 1\nsrlg = [7, 8, 7]\n'), "link 2 twice", "srlg = [7, 8, 7]"),
    (plan_text(["show", "shout"]), "script 2 words", '"shout",'),
    (plan_text([""]), "script 1 words", '"",'),
    (plan_text(["setup c1 a b unprotected via 01"]), "script 1 words", '"setup c1 a b unprotected via 01",'),
    (plan_text(["settle 0"]), "script 1 range", '"settle 0",'),
    (plan_text(["show", "settle 1001"]), "script 2 range", '"settle 1001",'),
    (plan_text(["setup c1 a b unprotected via 4294967296"]), "script 1 range", '"setup c1 a b unprotected via 4294967296",'),
    (plan_text(["setup 1c a b unprotected via 1"]), "script 1 name", '"setup 1c a b unprotected via 1",'),
    (plan_text(["setup c1 a x unprotected via 1"]), "script 1 node", '"setup c1 a x unprotected via 1",'),
    (plan_text(["setup c1 a a unprotected via 1"]), "script 1 same", '"setup c1 a a unprotected via 1",'),
    (plan_text(setups(1) * 2), "script 2 call", '"setup c1 a b unprotected via 1",'),
    (plan_text(["release c1"]), "script 1 call", '"release c1",'),
    (plan_text(setups(4097)), "script 4097 count", '"setup c4097 a b unprotected via 1",'),
    (plan_text(["setup c1 a b unprotected via 9"]), "script 1 route", '"setup c1 a b unprotected via 9",'),
    (plan_text(["setup c1 a d unprotected via 1,3"]), "script 1 route", '"setup c1 a d unprotected via 1,3",'),
    (plan_text(["setup c1 a d unprotected via 1,2"]), "script 1 route", '"setup c1 a d unprotected via 1,2",'),
    (plan_text(["setup c1 b d unprotected via 1,4,2,2,3"]), "script 1 route", '"setup c1 b d unprotected via 1,4,2,2,3",'),
    (plan_text(["setup c1 a c via 4 backup 1"]), "script 1 route", '"setup c1 a c via 4 backup 1",'),
    (plan_text(["setup c1 a c via 4 backup 4"]), "script 1 backup", '"setup c1 a c via 4 backup 4",'),
    (plan_text(["protect c1"]), "script 1 call", '"protect c1",'),
    (plan_text(["retry c1"]), "script 1 call", '"retry c1",'),
    (plan_text(["revert c1"]), "script 1 call", '"revert c1",'),
    (plan_text(["show", "wait 0"]), "script 2 range", '"wait 0",'),
    (plan_text(["wait 10001"]), "script 1 range", '"wait 10001",'),
    (plan_text(["hold a b 0"]), "script 1 range", '"hold a b 0",'),
    (plan_text(["lose a x 1"]), "script 1 node", '"lose a x 1",'),
    (plan_text(["repeat a d 1"]), "script 1 channel", '"repeat a d 1",'),
    (plan_text(["noise a b 0"]), "script 1 hex", '"noise a b 0",'),
    (plan_text(["show", "noise a b 590200000000000005"]), "script 2 spells", '"noise a b 590200000000000005",'),
    ("wait = 10001\n" + plan_text(), "top range", "wait = 10001"),
    (plan_text(["fail srlg 4294967296"]), "script 1 range", '"fail srlg 4294967296",'),
    (plan_text(["repair link 99"]), "script 1 group", '"repair link 99",'),
]

# The plan, and words of the sentence where it tells more than the kind.
DETAILS: list[tuple[str, str]] = [
    (with_link('id = 2\nends = ["a", "c"]\nlabels = 1\n'), "no node of the plan has this name"),
    (with_link('id = 2\nends = ["b", "b"]\nlabels = 1\n'), "both ends of link 2 are 'b'"),
    (with_node('name = "b"\n'), "node 2 has no id"),
    (plan_text(["setup c1 a x unprotected via 1"]), "no node of the plan has the name 'x'"),
    (plan_text(["setup c1 a b unprotected via 9"]), "the plan has no link 9"),
    (plan_text(["setup c1 a d unprotected via 1,3"]), "link 3 joins c and d, and the route has come to b"),
    (plan_text(["setup c1 a d unprotected via 1,2"]), "the route ends at c, and the call at d"),
    (plan_text(["setup c1 b d unprotected via 1,4,2,2,3"]), "the route comes to b twice"),
    (plan_text(["setup via a c via 4 backup 1"]), "the route ends at b, and the call at c"),
    (plan_text(["setup c1 a c via 4 backup 4"]), "both routes go over link 4"),
    (plan_text(["settle 1001"]), "the R of settle is 1 to 1,000"),
    (plan_text(["wait 10001"]), "the N of wait is 1 to 10,000"),
    ("wait = -1\n" + plan_text(), "wait isn't 0 to 10,000"),
    (plan_text(["fail link 9"]), "no link has the id 9"),
    (plan_text(["repair srlg 0"]), "no link has the SRLG 0"),
    (plan_text(["lose a b 65536"]), "the K of lose is 1 to 65,535"),
    (plan_text(["hold x y 1"]), "no node of the plan has the name 'x'"),
    (plan_text(["noise a 7 -"]), "no node of the plan has the name '7'"),
    (plan_text(["repeat a d 1"]), "no link joins 'a' and 'd'"),
    (plan_text(["noise a b 0"]), "an even number of hexadecimal digits"),
    ("wait = 1\nwait = 2\n", "cannot overwrite a value"),
]


class WhyTest(unittest.TestCase):
    """The tool on one plan after the other."""

    def setUp(self) -> None:
        room = tempfile.TemporaryDirectory()
        self.addCleanup(room.cleanup)
        self.path = Path(room.name) / "a plan.toml"

    def why(self, plan: str | bytes) -> tuple[int, list[str]]:
        """The status and the lines of what the tool prints."""
        self.path.write_bytes(plan if isinstance(plan, bytes) else plan.encode())
        ended = tool("why", str(self.path))
        self.assertEqual(ended.err, "")
        return ended.status, ended.out.splitlines()

    def test_each_fault_is_found_where_it_is(self) -> None:
        for plan, refusal, line in FAULTS:
            with self.subTest(refusal=refusal, line=line):
                refused = program.run(plan).refused
                self.assertEqual(refused.text(), f"refused plan {refusal}\n")
                place = explain(plan.encode(), refused).place
                self.assertEqual(place and plan.splitlines()[place[0] - 1].strip(), line)

    def test_the_tool_prints_file_line_column_text_and_sentence(self) -> None:
        status, told = self.why(plan_text(["show", "settle 1001"]))
        self.assertEqual(status, 1)
        self.assertEqual(
            told,
            [
                f"{self.path}:3:5: refused plan script 2 range",
                '    "settle 1001",',
                "script line 2: the R of settle is 1 to 1,000",
            ],
        )

    def test_a_fault_without_a_place(self) -> None:
        status, told = self.why("")
        self.assertEqual((status, told[0], len(told)), (1, f"{self.path}: refused plan top missing", 2))

    def test_sentences_tell_what_is_known(self) -> None:
        for plan, words in DETAILS:
            with self.subTest(words=words):
                self.assertIn(words, explain(plan.encode(), program.run(plan).refused).sentence)

    def test_bytes_that_are_no_utf8_have_a_place(self) -> None:
        status, told = self.why(NODE.encode() + b'# \xff\n')
        self.assertEqual(status, 1)
        self.assertEqual(told[0], f"{self.path}:5:3: refused plan toml syntax")

    def test_a_mark_before_the_text_moves_nothing(self) -> None:
        status, told = self.why(b"\xef\xbb\xbfWait = 1\n" + NODE.encode())
        self.assertEqual((status, told[0]), (1, f"{self.path}:1:1: refused plan top key"))

    def test_inline_tables_have_places_too(self) -> None:
        plan = 'node = [{name = "a", id = 1, convert = true},\n    {name = "b", "id" = 1, convert = true}]\n'
        status, told = self.why(plan)
        self.assertEqual((status, told[0]), (1, f"{self.path}:2:18: refused plan node 2 order"))

    def test_strings_of_all_forms_are_passed(self) -> None:
        plan = "script = ['show', \"\"\"\nshow\"\"\", '''show''', \"s\\u0068ow\",\n    'shout']\n" + NODE
        status, told = self.why(plan)
        self.assertEqual((status, told[:2]), (1, [f"{self.path}:3:5: refused plan script 5 words", "    'shout']"]))

    def test_a_plan_without_a_fault(self) -> None:
        self.assertEqual(self.why(plan_text(["show"])), (0, [f"{self.path}: the plan has no fault"]))

    def test_an_input_that_is_too_long(self) -> None:
        status, told = self.why(b"#" * (4 * 1024 * 1024 + 1))
        self.assertEqual((status, told[0]), (1, f"{self.path}: refused input too long"))


if __name__ == "__main__":
    unittest.main()
