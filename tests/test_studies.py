"""The runs of a study: in parts, on a cluster's executor, stopped, and with workers that fail."""

import contextlib
import io
import json
import os
import re
import signal
import subprocess
import sys
import tempfile
import time
import unittest
from pathlib import Path
from unittest import mock

from ason_tools import studies
from ason_tools.errors import ToolError
from ason_tools.studies import Part, Study, Way

from .support import EXAMPLES, TOOLS, take_interrupts, tool

# A stand-in for the package: its executor notes the address, and makes the runs in a thread.
DISTRIBUTED = """\
from concurrent.futures import ThreadPoolExecutor
class Client:
    def __init__(self, address, timeout):
        if "nobody" in address:
            raise OSError("timed out")
        print("client of", address, flush=True)
    def __enter__(self):
        return self
    def __exit__(self, *_):
        pass
    def get_executor(self, retries):
        return ThreadPoolExecutor(2)
"""

# It prints a call on each link; a run with a cut takes long after the first.
SLOW = """\
#!/bin/sh
[ "$1" = run ] || {{ echo "survey calm yes"; exit 0; }}
case $(cat) in
    *fail*) mkdir "{room}/first" 2>/dev/null || {{ sleep 0.7; touch "{room}/late$$"; }} ;;
esac
cat <<'END'
{table}END
"""


def square(given: int, order: int) -> int:
    """A run that needs no program."""
    return given + order * order


def failing(_: int, order: int) -> int:
    """A run that can't be made."""
    raise ToolError(f"run {order} has no end")


def killed(_: int, order: int) -> int:
    """A run that takes its process with it."""
    os.kill(os.getpid(), signal.SIGKILL)
    return order


class RunsTest(unittest.TestCase):
    """What the runs come to."""

    def test_each_run_has_its_place(self) -> None:
        study = Study("squares", square, 100, list(range(7)))
        for jobs in (1, 3):
            found = studies.made(study, Way(jobs))
            self.assertEqual((found.values, found.is_stopped), ({place: 100 + place * place for place in range(7)}, False))

    def test_the_parts_are_all_runs_once(self) -> None:
        study = Study("squares", square, 0, list(range(10)))
        parts = [studies.made(study, Way(2, part=Part(number, 4))).values for number in range(1, 5)]
        self.assertEqual([sorted(part) for part in parts], [[0, 4, 8], [1, 5, 9], [2, 6], [3, 7]])

    def test_more_parts_than_runs_leave_some_empty(self) -> None:
        self.assertEqual(studies.made(Study("squares", square, 0, [1]), Way(1, part=Part(2, 3))).values, {})

    def test_a_run_that_fails_ends_the_study(self) -> None:
        with self.assertRaisesRegex(ToolError, r"\Arun \d has no end\Z"):
            studies.made(Study("failing", failing, 0, [1, 2, 3]), Way(2))
        with self.assertRaisesRegex(ToolError, "a process that made runs was killed"):
            studies.made(Study("killed", killed, 0, [1, 2, 3]), Way(2))

    def test_the_mark_tells_studies_apart(self) -> None:
        marks = {Study(name, square, given, orders).mark for name, given, orders in (("a", 1, [1]), ("b", 1, [1]), ("a", 2, [1]), ("a", 1, [2]))}
        self.assertEqual(len(marks), 4)


class ProgressTest(unittest.TestCase):
    """How far a study is."""

    def test_where_nobody_looks_on_a_line_comes_each_minute(self) -> None:
        err = io.StringIO()
        # It begins at 0, and is told at 20, 60 and 80 seconds.
        with contextlib.redirect_stderr(err), mock.patch("time.monotonic", side_effect=[0.0, 20.0, 60.0, 80.0]):
            progress = studies.Progress("squares", 10)
            for done in (1, 3, 4):
                progress.tell(done)
            progress.end()
        # Three runs took a minute, so seven take 140 seconds.
        self.assertEqual(err.getvalue(), "squares: 3 of 10 runs, 2:20 to go\n")


class PartsTest(unittest.TestCase):
    """`--part` and `--gather` of the tools."""

    STUDIES = {
        "study-cuts": ("examples/apart.toml", "--pairs"),
        "study-load": ("examples/nsfnet.toml", "--labels", "2", "--most", "20", "--step", "10", "--trials", "5"),
        "study-erlang": ("examples/nsfnet.toml", "--arrivals", "40", "--least", "5", "--most", "20", "--step", "5", "--seeds", "3"),
    }

    def test_gathered_parts_give_what_one_run_gives(self) -> None:
        for name, words in self.STUDIES.items():
            forms = ([], ["--csv"], ["--json"]) if name == "study-cuts" else (["--json"],)
            with tempfile.TemporaryDirectory() as room:
                paths = [Path(room) / f"{number}.part" for number in (1, 2, 3)]
                for number, path in enumerate(paths, 1):
                    path.write_text(tool(name, *words, "--part", f"{number}/3", "--jobs", "2").out)
                files = [str(path) for path in reversed(paths)]
                for form in forms:
                    with self.subTest(name=name, form=form):
                        gathered = tool(name, *words, *form, "--gather", *files)
                        self.assertEqual((gathered.status, gathered.err), (0, ""))
                        self.assertEqual(gathered.out, tool(name, *words, *form, "--jobs", "1").out)

    def test_a_part_that_lacks_is_made(self) -> None:
        words = self.STUDIES["study-cuts"]
        with tempfile.TemporaryDirectory() as room:
            path = Path(room) / "1.part"
            path.write_text(tool("study-cuts", *words, "--part", "1/2").out)
            ended = tool("study-cuts", *words, "--gather", str(path))
        self.assertEqual((ended.status, ended.err), (0, "study-cuts: the parts lack 6 of 12 runs, which are made now\n"))
        self.assertEqual(ended.out, tool("study-cuts", *words).out)

    def test_what_is_no_part(self) -> None:
        words = self.STUDIES["study-load"]
        part = json.loads(tool("study-load", *words, "--part", "1/5").out)
        cases = {
            "it isn't what --part wrote": ["", "[]", "{}", json.dumps(part | {"values": 3})],
            "it is a part of 'study-cuts', and not of study-load": [json.dumps(part | {"study": "study-cuts"})],
            "it is a part of another study: the plan or the words were others": [json.dumps(part | {"mark": "0"})],
        }
        with tempfile.TemporaryDirectory() as room:
            path = Path(room) / "part"
            for sentence, text in ((sentence, text) for sentence, texts in cases.items() for text in texts):
                path.write_text(text)
                ended = tool("study-load", *words, "--gather", str(path))
                self.assertEqual((ended.status, ended.out, ended.err), (2, "", f"study-load: {path}: {sentence}\n"))

    def test_words_that_say_no_way(self) -> None:
        for part in ("0/3", "4/3", "x", "1/", "-1/3"):
            ended = tool("study-cuts", "examples/apart.toml", f"--part={part}")
            self.assertEqual((ended.status, ended.err), (2, "study-cuts: --part is K/N, two whole numbers, with K from 1 to N\n"))
        ended = tool("study-erlang", "examples/nsfnet.toml", "--jobs", "0")
        self.assertEqual((ended.status, ended.err), (2, "study-erlang: --jobs is at least 1\n"))


class ClusterTest(unittest.TestCase):
    """`--dask`, with a stand-in for the package."""

    def ended(self, package: str, address: str) -> subprocess.CompletedProcess[str]:
        with tempfile.TemporaryDirectory() as room:
            (Path(room) / "distributed.py").write_text(package)
            command = [sys.executable, str(TOOLS / "study-cuts"), str(EXAMPLES / "apart.toml"), "--dask", address]
            surroundings = os.environ | {"PYTHONPATH": room}
            return subprocess.run(command, capture_output=True, text=True, env=surroundings, check=False)

    def test_the_runs_go_to_the_executor_of_the_address(self) -> None:
        ended = self.ended(DISTRIBUTED, "tcp://here:8786")
        alone = tool("study-cuts", "examples/apart.toml").out
        self.assertEqual((ended.returncode, ended.stderr, ended.stdout), (0, "", "client of tcp://here:8786\n" + alone))

    def test_a_scheduler_that_is_not_there(self) -> None:
        ended = self.ended(DISTRIBUTED, "tcp://nobody:1")
        self.assertEqual((ended.returncode, ended.stderr), (2, "study-cuts: no dask scheduler answers at 'tcp://nobody:1'\n"))

    def test_a_python_without_the_package(self) -> None:
        ended = self.ended("raise ImportError", "tcp://here:1")
        self.assertEqual(ended.returncode, 2)
        self.assertIn("--dask needs Python's package distributed", ended.stderr)


class StopTest(unittest.TestCase):
    """A study that is ended before it is done."""

    NUMBERS = range(1, 9)

    def setUp(self) -> None:
        room = tempfile.TemporaryDirectory()
        self.addCleanup(room.cleanup)
        self.room = Path(room.name)

    def begun(self) -> subprocess.Popen[str]:
        """A study of which a run is done, and another one under way."""
        calls = "".join(f"call c{it} a n{it} bare a.{it}.{it} - -\n" for it in self.NUMBERS)
        legs = "".join(f"leg a.{it}.{it} a work live - {it}/1\nleg a.{it}.{it} n{it} work live {it}/1 -\n" for it in self.NUMBERS)
        nodes = "".join(f'[[node]]\nname = "n{it}"\nid = {it}\n' for it in self.NUMBERS) + '[[node]]\nname = "a"\nid = 99\n'
        links = "".join(f'[[link]]\nid = {it}\nends = ["a", "n{it}"]\nlabels = 1\n' for it in self.NUMBERS)
        program, network = self.room / "program", self.room / "plan.toml"
        program.write_text(SLOW.format(room=self.room, table=f"calls 8 legs 16\n{calls}{legs}"))
        program.chmod(0o755)
        network.write_text(nodes + links)
        command = [sys.executable, str(TOOLS / "study-cuts"), str(network), "--jobs", "1"]
        how = {"stdout": subprocess.PIPE, "stderr": subprocess.PIPE, "text": True, "start_new_session": True, "preexec_fn": take_interrupts}
        process = subprocess.Popen(command, env=os.environ | {"ASON": str(program)}, **how)
        while not (self.room / "first").exists():
            time.sleep(0.02)
        time.sleep(0.3)
        return process

    def late(self) -> int:
        """How many runs behind the first have ended."""
        return len([path for path in os.listdir(self.room) if path.startswith("late")])

    def test_ctrl_c_leaves_what_is_done(self) -> None:
        with self.begun() as process:
            os.killpg(process.pid, signal.SIGINT)
            out, err = process.communicate(timeout=60)
        # The run that was under way when the signal came has ended, and is told too; not all were begun.
        self.assertEqual(process.returncode, studies.STOPPED)
        self.assertTrue(1 <= self.late() < 7, self.late())
        self.assertEqual(err, f"study-cuts: stopped: {self.late() + 1} of 8 runs were done, and are told\n")
        self.assertEqual(len(re.findall(r"^link \d +1 ", out, re.MULTILINE)), self.late() + 1)

    def test_the_workers_of_a_killed_study_end(self) -> None:
        with self.begun() as process:
            process.kill()
            # The worker has the other end of the output: it closes when that ends.
            process.communicate(timeout=30)
        self.assertLess(self.late(), 7)


if __name__ == "__main__":
    unittest.main()
