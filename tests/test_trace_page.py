"""`tools/trace-page`: the page in headless Chromium shows at each line the legs that `check` tells of that prefix."""

import json
import os
import re
import subprocess
import tempfile
import unittest
from html import unescape
from pathlib import Path
from unittest.mock import patch

from ason_tools import frames
from ason_tools.scene import COLOURS, LOADS

from .networks import sixty
from .support import EXAMPLES, ason_told, plan_text, tool

CHROMIUM = ("chromium", "--headless", "--no-sandbox", "--disable-gpu", "--disable-dev-shm-usage", "--window-size=1600,1200", "--dump-dom")

# Steps to each place and notes what the page shows there.
VISIT = """
const found = [];
for (const place of PLACES) {
  go(place);
  const down = document.querySelectorAll("#map .down").length;
  found.push([document.getElementById("legs").textContent, state.at, down]);
}
"""

# Presses keys alone, and notes after each where the page is and what has the focus.
PRESS = """
const found = [];
for (const key of KEYS_PRESSED) {
  const shift = key.startsWith("Shift ");
  const target = document.activeElement || document.body;
  target.dispatchEvent(new KeyboardEvent("keydown", { key: key.replace("Shift ", ""), shiftKey: shift, bubbles: true, cancelable: true }));
  const focus = document.activeElement;
  found.push([key, state.at, focus.id || focus.dataset.call || focus.dataset.message || "", document.getElementById("history-head").textContent]);
}
found.push(document.getElementById("message").textContent);
"""

TELL = """
const told = document.createElement("pre");
told.id = "found";
told.textContent = JSON.stringify(found);
document.body.append(told);
"""


def trace_of(plan: str) -> str:
    """The trace of a run of this plan."""
    ended = ason_told("run", "--trace", given=plan)
    assert ended.status == 0, ended.status
    return ended.out


def page_of(trace: str) -> str:
    """The page of the trace."""
    ended = tool("trace-page", "-", given=trace)
    assert (ended.status, ended.err) == (0, ""), ended.err
    return ended.out


def in_browser(page: str, script: str) -> tuple[list, str]:
    """What the script has found in the page, and the page as it stands then."""
    with tempfile.TemporaryDirectory() as folder:
        path = Path(folder) / "run.html"
        path.write_text(page.replace("</body>", f"<script>{{{script}{TELL}}}</script></body>"))
        words = [*CHROMIUM, f"--user-data-dir={folder}/profile", f"file://{path}"]
        dom = subprocess.run(words, capture_output=True, timeout=120, check=True).stdout.decode()
    return json.loads(unescape(re.search('<pre id="found">(.*?)</pre>', dom, re.DOTALL)[1])), dom


def events_of(trace: str) -> tuple[str, list[str]]:
    """The plan with the line before it, and the lines of the events."""
    head, _, rest = trace.partition("\nevents ")
    return head.partition("\n")[2], rest.partition("\ntable\n")[0].split("\n")[1:]


def legs_at(trace: str, count: int) -> str:
    """The lines of the legs in `check`'s table of the first so many events; a trace of version 1 needs no table."""
    plan, events = events_of(trace)
    text = f"ason-trace 1\n{plan}\nevents {count}\n" + "".join(line + "\n" for line in events[:count]) + "table\nend\n"
    ended = ason_told("check", given=text)
    assert ended.out.startswith(f"migrated 0 left out\nrun of {count} events\n"), ended.out[:80]
    return "\n".join(line for line in ended.out.splitlines() if line.startswith("leg "))


def ten(trace: str) -> list[int]:
    """Ten lines of the trace, of which eight lie behind its first order, where the legs come and go."""
    _, events = events_of(trace)
    first = next(place for place, line in enumerate(events, 1) if " - post " in line)
    return [0, first // 2, *(first + (len(events) - first) * part // 7 for part in range(8))]


class LegsTest(unittest.TestCase):
    """The legs at ten places, which are visited forwards and then backwards."""

    def compared(self, trace: str) -> None:
        places = ten(trace)
        wanted = [legs_at(trace, place) for place in places]
        self.assertGreater(len(set(wanted)), 4)
        found, _ = in_browser(page_of(trace), VISIT.replace("PLACES", json.dumps([*places, *places[::-1]])))
        self.assertEqual([text for text, _, _ in found], [*wanted, *wanted[::-1]])
        self.assertEqual([at for _, at, _ in found], [*places, *places[::-1]])

    def test_the_restored_call_of_the_example(self) -> None:
        self.compared(trace_of((EXAMPLES / "restored.toml").read_text()))

    def test_a_call_that_goes_back_by_itself(self) -> None:
        script = ["setup c1 a c", "settle 99", "fail link 4", "settle 99", "repair link 4", "wait 6", "release c1", "settle 99"]
        self.compared(trace_of("wait = 3\n" + plan_text(script)))

    def test_sixty_nodes_with_a_cut_and_lost_frames(self) -> None:
        plan = sixty(5)
        cut = plan.links[next(place for place, link in enumerate(plan.links) if set(link.ends) == {"Magdeburg", "Aachen"})].id
        plan.script += [f"fail link {cut}", "lose Duisburg Magdeburg 1", "settle 1000", "release c2", "settle 1000"]
        self.compared(trace_of(plan.text()))

    def test_a_call_that_is_refused_on_its_way(self) -> None:
        setups = [f"setup c{number} a d unprotected via 1,2,3" for number in (1, 2, 3)]
        self.compared(trace_of(plan_text([*setups, "settle 99", "release c1", "settle 99"])))


class PageTest(unittest.TestCase):
    """What else the page shows."""

    @classmethod
    def setUpClass(cls) -> None:
        cls.trace = trace_of((EXAMPLES / "restored.toml").read_text())
        cls.page = page_of(cls.trace)

    def posted(self, word: str) -> int:
        """The line at which this is posted."""
        return next(place for place, line in enumerate(events_of(self.trace)[1], 1) if f" - post {word}" in line)

    def test_a_link_is_down_from_its_failure_to_its_repair(self) -> None:
        fail, repair = self.posted("fail"), self.posted("repair")
        script = VISIT.replace("PLACES", str([fail - 1, fail, repair - 1, repair]))
        self.assertEqual([down for _, _, down in in_browser(self.page, script)[0]], [0, 1, 1, 0])

    def test_a_timeline_has_the_course_of_its_call(self) -> None:
        _, dom = in_browser(self.page, "const found = [];")
        marks = re.findall('data-mark="c1 ([^"]*)"', dom)
        # As examples/restored.toml tells it: the call stands with a backup, is hit, turns, and goes back.
        self.assertEqual(marks, ["asked", "asking", "pairing", "guarded", "hit", "turning", "turned", "back, guarded"])

    def test_keys_alone_suffice(self) -> None:
        keys = ["Home", "ArrowRight", "ArrowRight", "Shift ArrowRight", "Shift ArrowLeft", "ArrowLeft", "End", "c", "Enter", "n", "Enter", "l", "Enter", "m", "Enter"]
        found, dom = in_browser(self.page, PRESS.replace("KEYS_PRESSED", json.dumps(keys)))
        *pressed, message = found
        count, setup = len(events_of(self.trace)[1]), self.posted("setup c1")
        at = [place for _, place, _, _ in pressed]
        self.assertEqual(at[:2], [0, setup])
        self.assertEqual((at[3], at[4], at[5], at[6]), (at[2] + 1, at[2], setup, count))
        self.assertEqual(pressed[7][2], "c1")
        self.assertEqual([pressed[place][3] for place in (8, 10, 12)], ["History of call c1", "History of node a", "History of link 1"])
        self.assertEqual(str(at[14]), pressed[13][2])
        self.assertIn("lsp a.1.1 egress 4\n 23/1 12 read\n", message.replace("lsp 1.1.1", "lsp a.1.1"))

    def test_the_page_needs_no_network(self) -> None:
        text = self.page.replace("http://www.w3.org/2000/svg", "")
        self.assertEqual(re.findall(r"https?://|<link|<script src|<img|@import|url\(", text), [])

    def test_what_has_no_page(self) -> None:
        both = trace_of(plan_text(["setup c1 a c unprotected both", "settle 99"]))
        cases = [
            (both, "it has two-way calls, and `ason check` tells the tables of prefixes of one-way calls alone"),
            ("hello", "it doesn't begin as a trace, with a line `ason-trace 2` and its plan"),
            (self.trace.replace("guarded", "turned"), "it is no trace of a run: its table isn't the one to which its events lead"),
        ]
        for text, sentence in cases:
            with self.subTest(sentence=sentence):
                ended = tool("trace-page", given=text)
                self.assertEqual((ended.status, ended.out, ended.err), (2, "", f"trace-page: the standard input: {sentence}\n"))


class LoadTest(unittest.TestCase):
    """The map above 20 calls."""

    def test_many_calls_are_a_load_and_the_picked_one_a_lane(self) -> None:
        script = [f"setup c{number} a c unprotected via 4" for number in range(1, 22)] + ["settle 99"]
        page = page_of(trace_of(plan_text(script).replace("labels = 2", "labels = 80")))
        look = """
        const lines = [...document.querySelectorAll("#map-legs polyline")];
        const found = lines.map((line) => [line.getAttribute("stroke"), Number(line.getAttribute("stroke-width"))]);
        """
        found, _ = in_browser(page, look)
        # 21 of 80 labels are more than a quarter, and so wide a part of a fibre of 8 points; then the lane of c1 on its bed.
        self.assertEqual(found, [[LOADS[1], 2.1], ["var(--paper)", 9], [COLOURS[0], 4]])


class LargeTest(unittest.TestCase):
    """A trace of almost 4 MB."""

    def test_a_trace_of_4_mb_opens_within_3_seconds(self) -> None:
        plan = sixty(2)
        plan.script.append("wait 1300")
        trace = trace_of(plan.text())
        self.assertTrue(3_800_000 < len(trace) <= 4_194_304, len(trace))
        _, dom = in_browser(page_of(trace), "const found = [];")
        self.assertLess(int(re.search('data-ready="([0-9]+)"', dom)[1]), 3000)


class FramesProgramTest(unittest.TestCase):
    """Where trace_frames is looked for."""

    def test_it_stands_beside_ason(self) -> None:
        with tempfile.TemporaryDirectory() as folder:
            beside, ason = Path(folder) / "trace_frames", Path(folder) / "ason"
            beside.touch()
            with patch.dict(os.environ, {"ASON": str(ason)}):
                os.environ.pop("TRACE_FRAMES", None)
                self.assertEqual(frames.program_path(), beside)
            with patch.dict(os.environ, {"ASON": "ason", "TRACE_FRAMES": str(beside)}):
                self.assertEqual(frames.program_path(), beside)


if __name__ == "__main__":
    unittest.main()
