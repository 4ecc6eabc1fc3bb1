"""The texts of `ason` as values and as JSON, and back."""

import json
import unittest

import ason
from ason_tools import tables
from ason_tools.errors import ToolError
from ason_tools.tables import Call, Hold, Leg, Lsp, Message, NoMessage, ObjectLine, Refused, Stopped, Unsettled

from .support import EXAMPLES, plan_text, tool

# All that the formats have: backups, backward labels, a leg without a label, causes of each form, and the other lines.
RICH = """\
calls 3 legs 4
call east a c turned a.1.1 a.1.2 backdown
call west c a blocked - - 24/9
call north b a asking b.1.1 - -
leg a.1.1 a work live - 3/1 back - 3/1
leg a.1.1 b work closing 3/1 5/- back 3/2 -
leg a.1.2 a back armed - 7/80
leg b.1.1 b work asked - 3/-
unsettled desk 1 hop 20 flood 0
stopped at limit a-b_c
"""

MESSAGES = """\
not hex
Ack id - acks 5,4294967295 lsp - egress -
 24/1 12 read
 24/1 12 read
not a message
Path id 7 acks - lsp 1.2.3 egress 9
 1/7 16 read
 5/1 8 carried
 200/1 8 ignored
"""

NO_OUTPUT = [
    ("calls 1 legs 0\n", "the table of line 1 has fewer lines than it says"),
    ("calls 0 legs 0", "its last line has no end, so it was cut off"),
    ("calls 0 legs 0\n\n", "line 2 isn't what ason prints"),
    ("calls 01 legs 0\n", "line 1 isn't what ason prints"),
    ("calls 99999999999999999999 legs 0\n", "line 1 isn't what ason prints"),
    ("calls 1 legs 0\ncall c1 a b bar a.1.1 - -\n", "line 2 isn't what ason prints"),
    ("calls 0 legs 1\nleg - a work live - -\n", "line 2 isn't what ason prints"),
    ("usage: ason run\n", "line 1 isn't what ason prints"),
    ("refused plan link one\n", "line 1 isn't what ason prints"),
    ("Ack id - acks 5 lsp - egress -\n 24/1 12 lost\n", "line 2 isn't what ason prints"),
    ("Hello id - acks 5 lsp - egress -\n", "line 1 isn't what ason prints"),
]


class ReadTest(unittest.TestCase):
    """Text to values."""

    def test_a_table_with_all_that_there_is(self) -> None:
        output = tables.read(RICH)
        table = output.tables[0]
        self.assertEqual(output.parts[1:], [Unsettled(1, 20, 0), Stopped("a-b_c")])
        first, second = Lsp("a", 1, 1), Lsp("a", 1, 2)
        self.assertEqual(table.calls[0], Call("east", "a", "c", "turned", first, second, "backdown"))
        self.assertEqual(table.calls[1], Call("west", "c", "a", "blocked", None, None, "24/9"))
        self.assertEqual(table.legs[0], Leg(first, "a", "work", "live", None, Hold(3, 1), True, None, Hold(3, 1)))
        self.assertEqual(table.legs[1].outgoing, Hold(5, None))
        self.assertEqual([leg.node for leg in table.legs_of(first)], ["a", "b"])
        self.assertEqual(output.text(), RICH)

    def test_messages(self) -> None:
        output = tables.read(MESSAGES)
        self.assertEqual([type(part) for part in output.parts], [NoMessage, Message, NoMessage, Message])
        path = output.parts[3]
        self.assertEqual((path.type, path.id, path.acks, path.lsp, path.egress), ("Path", 7, (), Lsp("1", 2, 3), 9))
        self.assertEqual(path.objects[2], ObjectLine(200, 1, 8, "ignored"))
        self.assertEqual(output.parts[1].acks, (5, 4294967295))
        self.assertEqual(output.text(), MESSAGES)

    def test_refusals(self) -> None:
        for text, refused in (("link 2 ends", Refused("link 2", "ends")), ("toml syntax", Refused("toml", "syntax"))):
            self.assertEqual(tables.read(f"refused plan {text}\n").parts, [refused])
        self.assertEqual(tables.read("refused input too long\n").parts, [Refused(None, None)])

    def test_what_is_no_output(self) -> None:
        for text, sentence in NO_OUTPUT:
            with self.subTest(text=text), self.assertRaisesRegex(ToolError, sentence):
                tables.read(text)


class JsonTest(unittest.TestCase):
    """`tools/table-json`."""

    def parts(self, text: str) -> list[dict]:
        ended = tool("table-json", given=text)
        self.assertEqual((ended.status, ended.err), (0, ""))
        return json.loads(ended.out)

    def test_json_has_all_of_the_text(self) -> None:
        parts = self.parts(RICH + MESSAGES)
        kinds = ["table", "unsettled", "stopped", "no message", "message", "no message", "message"]
        self.assertEqual([part["part"] for part in parts], kinds)
        self.assertEqual(
            parts[0]["calls"][0],
            {
                "name": "east",
                "source": "a",
                "target": "c",
                "state": "turned",
                "work": {"ingress": "a", "tunnel": 1, "number": 1},
                "backup": {"ingress": "a", "tunnel": 1, "number": 2},
                "cause": "backdown",
            },
        )
        self.assertEqual(parts[0]["legs"][1]["outgoing"], {"link": 5, "label": None})
        self.assertEqual(parts[1], {"part": "unsettled", "desk": 1, "hop": 20, "flood": 0})
        self.assertEqual(parts[4]["acks"], [5, 4294967295])

    def test_a_file_and_one_line(self) -> None:
        ended = tool("table-json", "examples/idle.out", "--compact")
        self.assertEqual((ended.status, ended.out), (0, '[{"part":"table","calls":[],"legs":[]}]\n'))

    def test_what_is_no_output_ends_with_a_sentence(self) -> None:
        ended = tool("table-json", given="calls 2\n")
        self.assertEqual((ended.status, ended.out, ended.err), (2, "", "table-json: the standard input: line 1 isn't what ason prints\n"))
        self.assertEqual(tool("table-json").err, "table-json: the standard input: it is empty\n")


class RunTest(unittest.TestCase):
    """The module `ason`."""

    def test_a_run_has_its_tables(self) -> None:
        run = ason.run((EXAMPLES / "two.toml").read_text())
        self.assertEqual((run.status, len(run.tables)), (ason.DONE, 2))
        self.assertEqual([(call.name, call.state, call.cause) for call in run.tables[0].calls], [("c1", "bare", None), ("c2", "blocked", "set")])
        self.assertIsNone(run.table.call("c1"))
        self.assertEqual((run.unsettled, run.stopped, run.refused), ([], None, None))

    def test_a_settle_without_quiet(self) -> None:
        run = ason.run(plan_text(["setup c1 a d unprotected via 1,2,3", "settle 1", "show"]))
        self.assertEqual((run.status, len(run.unsettled), len(run.tables)), (ason.DONE, 1, 2))

    def test_a_refusal(self) -> None:
        run = ason.run("")
        self.assertEqual((run.status, run.refused), (ason.PLAN_REFUSED, Refused("top", "missing")))
        with self.assertRaises(ToolError):
            run.table

    def test_messages(self) -> None:
        run = ason.decode((EXAMPLES / "frames.hex").read_text())
        self.assertEqual([message.type for message in run.output.parts], ["Ack", "PathTear"])

    def test_every_output_of_the_examples_comes_back(self) -> None:
        for path in sorted(EXAMPLES.glob("*.out")):
            with self.subTest(path=path.name):
                text = path.read_text()
                self.assertEqual(tables.read(text).text(), text)
                self.assertEqual(tool("table-json", str(path)).status, 0)


if __name__ == "__main__":
    unittest.main()
