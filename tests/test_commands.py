"""Every tool ends with one sentence and a status other than 0 where it can't do its work, and never with a traceback."""

import os
import stat
import subprocess
import sys
import tempfile
import unittest
from pathlib import Path

from .support import EXAMPLES, TOOLS, Ended, plan_text, tool

READERS = ("study-cuts", "plan-from", "why", "draw", "table-json")
PLANNERS = ("study-erlang", "plan-grow")
OTHERS = (*PLANNERS, "study-load", "table-diff")
BAD_FILES: dict[str, bytes] = {
    "no utf-8": b"\xff\xfe\xfd\xfc",
    "zeros": bytes(1000),
    "brackets": b"[" * 100_000,
    "deep array": b"a = " + b"[" * 100_000,
    "digits": b"id = " + b"9" * 10_000,
    "entities": b'<!DOCTYPE a [<!ENTITY b "cccccccc"><!ENTITY d "&b;&b;&b;&b;">]><graphml>&d;</graphml>',
    "a file of the system": b'<!DOCTYPE a [<!ENTITY b SYSTEM "file:///etc/passwd">]><graphml>&b;</graphml>',
    "cut off": b'<graphml><graph><node id="0"',
    "a long line": b"x" * 1_000_000,
}


class FailureTest(unittest.TestCase):
    """The ways to fail."""

    def setUp(self) -> None:
        room = tempfile.TemporaryDirectory()
        self.addCleanup(room.cleanup)
        self.room = Path(room.name)

    def is_one_sentence(self, ended: Ended, name: str) -> None:
        self.assertNotEqual(ended.status, 0)
        self.assertRegex(ended.err, rf"\A{name}: [^\n]*\n\Z")
        self.assertEqual(ended.out, "")

    def test_bad_files(self) -> None:
        for label, data in BAD_FILES.items():
            path = self.room / label
            path.write_bytes(data)
            for name in READERS:
                with self.subTest(label=label, name=name):
                    ended = tool(name, str(path))
                    if name == "why":
                        self.assertEqual((ended.status, ended.err), (1, ""))
                        self.assertIn("refused plan toml syntax", ended.out)
                    else:
                        self.is_one_sentence(ended, name)

    def test_files_that_are_none(self) -> None:
        for name in (*READERS, *PLANNERS):
            for path in (str(self.room / "missing"), str(self.room), "/dev/zero", "a\nb"):
                with self.subTest(name=name, path=path):
                    self.is_one_sentence(tool(name, path), name)

    def test_wrong_words(self) -> None:
        for name in (*READERS, *OTHERS):
            self.is_one_sentence(tool(name, "--no-such-word"), name)

    def test_help_has_an_example(self) -> None:
        for name in (*READERS, *OTHERS):
            ended = tool(name, "--help")
            self.assertEqual((ended.status, ended.err), (0, ""))
            self.assertIn("example:", ended.out)

    def test_an_output_that_is_closed(self) -> None:
        words = {"plan-from": "nsfnet.graphml", "why": "nsfnet.toml", "draw": "nsfnet.toml", "table-json": "nsfnet.out"}
        for name, file in words.items():
            with self.subTest(name=name):
                reader, writer = os.pipe()
                os.close(reader)
                command = [sys.executable, str(TOOLS / name), str(EXAMPLES / file)]
                ended = subprocess.run(command, stdout=writer, stderr=subprocess.PIPE, check=False)
                os.close(writer)
                self.assertNotEqual(ended.returncode, 0)
                self.assertIn(f"{name}: the output can't be written: Broken pipe", ended.stderr.decode().splitlines())

    def test_no_output_at_all(self) -> None:
        for name in READERS:
            file = {"plan-from": "nsfnet.graphml", "table-json": "nsfnet.out"}.get(name, "nsfnet.toml")
            words = ["sh", "-c", f'"{sys.executable}" "{TOOLS / name}" "{EXAMPLES / file}" >&-']
            ended = subprocess.run(words, capture_output=True, check=False)
            self.assertNotEqual(ended.returncode, 0)
            self.assertNotIn("Traceback", ended.stderr.decode())

    def test_a_program_that_fails(self) -> None:
        plan = self.room / "plan.toml"
        plan.write_text(plan_text(["show"]))
        for script, words in (("exit 9", "its status is 9"), ("kill -9 $$", "its status is -9"), ("echo hello", "isn't what ason prints")):
            program = self.room / "program"
            program.write_text(f"#!/bin/sh\n{script}\n")
            program.chmod(program.stat().st_mode | stat.S_IXUSR)
            for name in ("why", "draw"):
                with self.subTest(script=script, name=name):
                    ended = self.with_program(name, str(plan), str(program))
                    self.is_one_sentence(ended, name)
                    self.assertIn(words, ended.err)
        self.is_one_sentence(self.with_program("why", str(plan), str(self.room / "no such")), "why")

    def with_program(self, name: str, plan: str, program: str) -> Ended:
        command = [sys.executable, str(TOOLS / name), plan]
        ended = subprocess.run(command, capture_output=True, env=os.environ | {"ASON": program}, check=False)
        return Ended(ended.returncode, ended.stdout.decode(), ended.stderr.decode())

    def test_tools_run_from_any_folder(self) -> None:
        ended = tool("plan-from", str(EXAMPLES / "nsfnet.graphml"), folder=self.room)
        self.assertEqual(ended.status, 0)
        link = self.room / "why"
        link.symlink_to(TOOLS / "why")
        ran = subprocess.run([str(link), str(EXAMPLES / "two.toml")], capture_output=True, cwd=self.room, check=False)
        self.assertEqual((ran.returncode, ran.stderr), (0, b""))


if __name__ == "__main__":
    unittest.main()
