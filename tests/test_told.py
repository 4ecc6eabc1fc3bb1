"""What `tools/table-json` makes of surveys, routes, pairs, loads and reasons; `tools/table-diff`; and the sums of `tools/why`."""

import json
import tempfile
import unittest
from collections.abc import Iterator
from contextlib import contextmanager
from pathlib import Path

from .support import EXAMPLES, ason_told, plan_text, tool

SHARED = (EXAMPLES / "shared.toml").read_text()

BEFORE = """\
calls 2 legs 2
call east a b guarded a.1.1 a.1.2 -
call west b a blocked - - set
leg a.1.1 a work live - 3/1
leg a.1.2 a back held - 4/-
"""

AFTER = """\
calls 2 legs 2
call east a b turned a.1.1 a.1.2 -
call north a b bare a.2.3 - -
leg a.1.2 a back live - 4/2
leg a.2.3 a work live - 3/1 back 3/2 -
"""

BETWEEN = """\
call east: state guarded -> turned
- call west b a blocked - - set
+ call north a b bare a.2.3 - -
- leg a.1.1 a work live - 3/1
leg a.1.2 at a: phase held -> live
leg a.1.2 at a: out 4/- -> 4/2
+ leg a.2.3 a work live - 3/1 back 3/2 -
3 calls and 3 legs differ
"""


class JsonTest(unittest.TestCase):
    """Answers as JSON."""

    def part(self, text: str) -> dict:
        ended = tool("table-json", given=text)
        self.assertEqual((ended.status, ended.err), (0, ""))
        (part,) = json.loads(ended.out)
        return part

    def told(self, *words: str) -> dict:
        return self.part(ason_told(*words, given=SHARED).out)

    def test_a_survey(self) -> None:
        part = self.told("survey")
        self.assertEqual((part["part"], part["calm"]), ("survey", True))
        self.assertEqual(part["hits"][1], {"group": {"kind": "link", "number": 2}, "guarded": ["c2"], "bare": []})
        groups = {"first": {"kind": "link", "number": 1}, "second": {"kind": "link", "number": 2}}
        self.assertEqual(part["contends"], [groups | {"link": 5, "label": 1, "node": "d", "one": "c1", "two": "c2"}])

    def test_routes_and_pairs(self) -> None:
        # In examples/shared.toml link 1 leads from a to d, and so do the links 3 and 5 over c.
        pair = {"primary": {"cost": 1, "links": [1]}, "backup": {"cost": 2, "links": [3, 5]}}
        self.assertEqual(self.told("route", "a", "d"), {"part": "route", "potentials": {"a": 0, "b": 2, "c": 1, "d": 1}} | pair)
        self.assertEqual(self.told("best", "a", "d"), {"part": "best", "total": 3, "certificate": True, "too_large": False} | pair)
        for word in ("route", "best"):
            self.assertEqual(self.told(word, "a", "x"), {"part": "no routes", "no_node": "x"})
            self.assertEqual(self.told(word, "a", "a"), {"part": "no routes", "no_node": None})

    def test_where_there_is_no_pair(self) -> None:
        none = {"part": "best", "total": None, "primary": None, "backup": None}
        self.assertEqual(self.part("no pair\ncertificate yes\n"), none | {"certificate": True, "too_large": False})
        self.assertEqual(self.part("too large\n"), none | {"certificate": False, "too_large": True})
        alone = ason_told("route", "a", "d", given=plan_text().replace('"c", "d"', '"a", "c"')).out
        self.assertEqual(self.part(alone)["potentials"]["d"], None)

    def test_a_load(self) -> None:
        part = self.part(ason_told("load", "1", "8", "16").out)
        self.assertEqual(list(part["phases"]), ["built", "failed", "repaired", "reverted"])
        self.assertEqual([sum(counts.values()) for counts in part["phases"].values()], [16] * 4)

    def test_reasons(self) -> None:
        given = plan_text(["setup c1 a b unprotected", "settle 9", "setup c2 a b unprotected", "settle 9", "setup c3 a b unprotected"])
        part = self.part(tool("why", "-", given=given).out)
        self.assertEqual((part["part"], part["plan"], len(part["calls"])), ("why", "the standard input", 1))
        call = part["calls"][0]
        self.assertEqual([call[key] for key in ("name", "source", "target", "state", "cause")], ["c3", "a", "b", "blocked", "set"])
        self.assertEqual(call["sentences"][1], "free is the way via 4,2")
        self.assertEqual(self.part(tool("why", "-", given=plan_text()).out)["calls"], [])

    def test_a_fault(self) -> None:
        part = self.part(tool("why", "-", given=plan_text(["shout"])).out)
        self.assertEqual((part["part"], part["refused"]), ("fault", {"entry": "script 1", "kind": "words"}))
        self.assertEqual((part["line"], part["column"], part["text"]), (2, 5, '"shout",'))
        self.assertIn("of which the nearest is 'show'", part["sentences"][0])
        part = self.part(tool("why", "-", given="script = []\n").out)
        self.assertEqual((part["line"], part["text"], part["sentences"]), (None, None, ["the plan has no node: it needs 1 to 64 tables [[node]]"]))

    def test_what_is_no_answer(self) -> None:
        cases = {
            "survey calm yes\nhello\n": "a line of the survey has another form",
            "primary 1 1\nhello\n": "line 2 isn't what ason route prints",
            "total 3\n": "it isn't what ason best prints",
            "built asking 0\n": "it isn't what ason load prints",
            "x: the plan has no fault\nhello\n": "the line 'hello' isn't what tools/why prints",
            "x: the plan has no fault\n    hello\n": "line 2 isn't what tools/why prints",
            "x: the plan has no fault\n1 of 1 calls: blocked\nhello\n": "a line isn't what tools/why --sum prints",
            "no node a b\n": "line 1 isn't what ason route prints",
        }
        for text, sentence in cases.items():
            ended = tool("table-json", given=text)
            self.assertEqual((ended.status, ended.out, ended.err), (2, "", f"table-json: the standard input: {sentence}\n"))


class DiffTest(unittest.TestCase):
    """Two tables."""

    def test_what_has_no_table(self) -> None:
        cases = [
            (("-", "-"), "", 2, "both tables can't be of the standard input"),
            (("examples/idle.out", "-"), "", 2, "the standard input: the output has no table"),
            (("examples/idle.out", "-"), "stopped at limit a\n", 6, "the standard input: ason printed no table: stopped at limit a"),
        ]
        for words, given, status, sentence in cases:
            ended = tool("table-diff", *words, given=given)
            self.assertEqual((ended.status, ended.out, ended.err), (status, "", f"table-diff: {sentence}\n"))

    def test_a_diff_by_hand(self) -> None:
        with self.files(BEFORE, AFTER) as (before, after):
            ended = tool("table-diff", before, after)
            self.assertEqual((ended.status, ended.out, ended.err), (1, BETWEEN, ""))
            found = json.loads(tool("table-diff", before, after, "--json").out)
        self.assertEqual(found[0], {"kind": "call", "name": "east", "field": "state", "first": "guarded", "second": "turned"})
        self.assertEqual(found[1]["second"], None)

    def test_tables_have_places(self) -> None:
        with self.files(BEFORE + AFTER, AFTER) as (both, after):
            self.assertEqual((tool("table-diff", both, after).status, tool("table-diff", both, both, "--table", "1").out), (0, BETWEEN))
            self.assertEqual(tool("table-diff", both, after).out, "0 calls and 0 legs differ: the tables are the same\n")
            ended = tool("table-diff", both, after, "--other-table", "2")
            self.assertEqual((ended.status, ended.err), (2, f"table-diff: {after}: there is no table 2: the output has 1\n"))

    @contextmanager
    def files(self, *texts: str) -> Iterator[list[str]]:
        """The paths of files with these texts."""
        with tempfile.TemporaryDirectory() as room:
            paths = [Path(room) / str(number) for number in range(len(texts))]
            for path, text in zip(paths, texts):
                path.write_text(text)
            yield [str(path) for path in paths]


class SumTest(unittest.TestCase):
    """`tools/why --sum`."""

    def test_fibres_and_causes(self) -> None:
        # Link 1 has two labels each way. c3 and c4 find none from a, c7 none from b; c8 is protected, and nothing is beside link 3.
        ends = ["a b", "a b", "a b", "a b", "b a", "b a", "b a"]
        script = [line for number, pair in enumerate(ends, 1) for line in (f"setup c{number} {pair} unprotected via 1", "settle 99")]
        ended = tool("why", "-", "--sum", given=plan_text([*script, "setup c8 c d via 3"]))
        (part,) = json.loads(tool("table-json", given=ended.out).out)
        self.assertEqual((part["part"], part["calls"], list(part["counts"].values())), ("sum", 8, [3, 1]))
        self.assertEqual(part["refusals"][0], {"link": 1, "source": "a", "target": "b", "calls": 2})
        self.assertEqual(
            ended.out.splitlines()[1:],
            [
                "3 of 8 calls: blocked, cause set",
                "1 of 8 calls: without the backup that was asked for, cause nobackup",
                "link 1 from a to b refuses 2 blocked calls",
                "link 1 from b to a refuses 1 blocked call",
            ],
        )

    def test_a_link_that_is_down_refuses(self) -> None:
        script = ["fail link 2", "settle 99", "setup c1 a c unprotected via 1,2", "settle 99"]
        ended = tool("why", "-", "--sum", given=plan_text(script))
        self.assertEqual(ended.out.splitlines()[1:], ["1 of 1 calls: blocked, cause down", "link 2 from b to c refuses 1 blocked call"])

    def test_what_is_cut_off_is_told_beside_the_state(self) -> None:
        script = ["setup c1 a c unprotected via 4", "settle 99", "fail link 4", "settle 99"]
        ended = tool("why", "-", "--sum", given=plan_text(script))
        self.assertEqual(ended.out.splitlines()[1:], ["1 of 1 calls: cut off, whatever their state"])

    def test_names_that_are_not_there(self) -> None:
        cities = plan_text().replace('"a"', '"Aachen"').replace('"b"', '"Bonn"')
        cases = [
            (cities.replace("script = [\n", 'script = [\n    "setup c1 Aachn Bonn",\n'), "no node of the plan has the name 'Aachn' (did you mean 'Aachen'?)"),
            (plan_text(["setup c1 a dd"]), "no node of the plan has the name 'dd' (did you mean 'd'?)"),
            (plan_text(["setup east a b", "setup west b a", "release eas"]), "no setup before has the name 'eas' (did you mean 'east'?)"),
            (plan_text(["setup east a b", "release eas", "setup eas a b"]), "no setup before has the name 'eas' (did you mean 'east'?)"),
            (cities.replace('["Aachen", "Bonn"]', '["Aachen", "bon"]'), "link 1 ends at 'bon', and no node of the plan has this name (did you mean 'Bonn'?)"),
            (plan_text().replace("labels = 2", "label = 2", 1), "link 1 has the key 'label', and the keys are id, ends, labels, metric, srlg (did you mean 'labels'?)"),
        ]
        for text, sentence in cases:
            with self.subTest(sentence=sentence):
                ended = tool("why", "-", given=text)
                self.assertEqual((ended.status, ended.err), (1, ""))
                self.assertIn(sentence + "\n", ended.out)


if __name__ == "__main__":
    unittest.main()
