"""`tools/study-load`: what is counted, and what can't be studied."""

import json
import unittest
from xml.etree import ElementTree

from .support import tool

# One link, so that each direction takes as many calls as there are labels.
PAIR = '[[node]]\nname = "a"\nid = 1\n[[node]]\nname = "b"\nid = 2\n[[link]]\nid = 1\nends = ["a", "b"]\nlabels = 80\n'


class StudyTest(unittest.TestCase):
    """The tool on a network of one link."""

    def study(self, *words: str, plan: str = PAIR) -> list[list[str]]:
        ended = tool("study-load", "-", *words, given=plan)
        self.assertEqual((ended.status, ended.err), (0, ""))
        return [line.split() for line in ended.out.splitlines()]

    def test_calls_beyond_the_labels_are_blocked(self) -> None:
        head, *rows = self.study("--labels", "2", "--most", "40", "--step", "2", "--trials", "4")
        self.assertEqual(head, ["calls", "blocked", "least", "most", "share"])
        self.assertEqual([int(row[0]) for row in rows], list(range(2, 41, 2)))
        for load, _, least, most, _ in rows:
            # Between two and four calls stand, once there are enough.
            self.assertLessEqual(max(0, int(load) - 4), int(least))
            self.assertLessEqual(int(most), max(0, int(load) - 2))
        self.assertEqual(rows[-1], ["40", "36.0", "36", "36", "90.0%"])

    def test_protected_calls_hold_wavelengths_for_their_backups(self) -> None:
        twice = PAIR + '[[link]]\nid = 2\nends = ["a", "b"]\nlabels = 80\n'
        words = ("--protected", "--labels", "80", "--most", "6", "--step", "3", "--trials", "2")
        # All calls are over link 1, so their backups over link 2 can share nothing.
        head, *rows = self.study(*words, plan=twice)
        self.assertEqual(head, ["calls", "blocked", "bare", "working", "shared", "apart", "saved"])
        self.assertEqual(rows, [["3", "0.0", "0.0", "3.0", "3.0", "3.0", "0.0%"], ["6", "0.0", "0.0", "6.0", "6.0", "6.0", "0.0%"]])
        # Without a second link there is no backup.
        self.assertEqual(self.study(*words, plan=PAIR)[1], ["3", "0.0", "3.0", "3.0", "0.0", "0.0", "0.0%"])

    def test_backups_share_wavelengths(self) -> None:
        # On a ring of three a call has one link, and its backup the two others.
        ring = PAIR + '[[link]]\nid = 2\nends = ["a", "c"]\nlabels = 80\n[[link]]\nid = 3\nends = ["b", "c"]\nlabels = 80\n'
        ring = ring.replace("[[link]]", '[[node]]\nname = "c"\nid = 3\n[[link]]', 1)
        _, row = self.study("--protected", "--labels", "80", "--most", "20", "--step", "20", "--trials", "1", plan=ring)
        self.assertEqual((row[3], row[5]), ("20.0", "40.0"))
        self.assertLess(float(row[4]), 40.0)
        # A wavelength is shared by at most one call of each of the two links that its own link can stand in for.
        self.assertGreaterEqual(float(row[4]), 20.0)

    def test_the_picture_has_a_point_for_each_load(self) -> None:
        ended = tool("study-load", "-", "--most", "12", "--step", "3", "--trials", "1", "--svg", given=PAIR)
        self.assertEqual(ended.status, 0)
        self.assertEqual(len(ElementTree.fromstring(ended.out).findall("{*}circle")), 4)

    def test_the_picture_of_protected_calls_has_two_lines(self) -> None:
        words = ("--most", "4", "--step", "2", "--trials", "1", "--protected", "--svg")
        ended = tool("study-load", "-", *words, given=PAIR)
        self.assertEqual(ended.status, 0)
        root = ElementTree.fromstring(ended.out)
        self.assertEqual(len(root.findall("{*}circle")), 4)
        texts = [text.text for text in root.findall("{*}text")]
        self.assertIn("each backup its own", texts)

    def test_csv_and_json_have_each_trial(self) -> None:
        words = ("--labels", "1", "--most", "40", "--step", "20", "--trials", "2")
        head, *rows = [line[0].split(",") for line in self.study(*words, "--csv")]
        self.assertEqual(head, ["trial", "calls", "blocked", "bare", "working", "shared", "apart"])
        # One call stands in each direction, without a backup, and holds a wavelength.
        found = [["1", "20"], ["1", "40"], ["2", "20"], ["2", "40"]]
        self.assertEqual(rows, [[trial, calls, str(int(calls) - 2), "2", "2", "0", "0"] for trial, calls in found])
        told = json.loads(tool("study-load", "-", *words, "--json", given=PAIR).out)
        self.assertEqual([list(map(str, row.values())) for row in told], rows)

    def test_what_can_not_be_studied(self) -> None:
        apart = PAIR[: PAIR.index("[[link]]")]
        lonely = apart[: apart.rindex("[[node]]")]
        limits = "--step is at least 1, --most at least the step and at most 4,096, --trials at least 1"
        cases = [
            (["--labels", "0"], PAIR, "--labels is 1 to 80"),
            (["--step", "0"], PAIR, limits),
            (["--most", "5"], PAIR, limits),
            (["--trials", "0"], PAIR, limits),
            ([], lonely, "the standard input: its network has one node, so there are no calls"),
            ([], "x", "the standard input: it is no TOML: expected '=' after a key in a key/value pair (at end of document)"),
        ]
        for words, plan, sentence in cases:
            ended = tool("study-load", "-", *words, given=plan)
            self.assertEqual((ended.status, ended.out, ended.err), (2, "", f"study-load: {sentence}\n"))
        self.assertRegex(tool("study-load", "-", given=apart).err, r"\Astudy-load: no route leads from [ab] to [ab]\n\Z")


if __name__ == "__main__":
    unittest.main()
