"""Which program the tools run: that of ASON, or the one that the script `ason` has built; no tool starts a build."""

import os
import shutil
import subprocess
import sys
import tempfile
import unittest
from pathlib import Path

from .support import EXAMPLES, TOOLS, TOP, Ended

PRINTS_A_TABLE = "#!/bin/sh\ncat >/dev/null\necho calls 0 legs 0\n"


class ProgramTest(unittest.TestCase):
    """A checkout of the tools and the script alone."""

    def setUp(self) -> None:
        room = tempfile.TemporaryDirectory()
        self.addCleanup(room.cleanup)
        self.room = Path(room.name)
        shutil.copytree(TOOLS, self.room / "tools", ignore=shutil.ignore_patterns("__pycache__"))
        shutil.copy(TOP / "ason", self.room / "ason")
        (self.room / "crates.txt").write_text("ason:\n")
        (self.room / "crates/ason/src").mkdir(parents=True)
        (self.room / "crates/ason/src/main.rt").write_text("fn main() {}\n")

    def why(self, **environment: str) -> Ended:
        """Runs `tools/why` of that checkout, with an `rt` before all others that only notes that it was called."""
        folder = self.room / "bin"
        folder.mkdir(exist_ok=True)
        self.made(folder / "rt", f"#!/bin/sh\necho called >>'{self.room}/called'\nexit 1\n")
        kept = {name: value for name, value in os.environ.items() if name != "ASON"}
        kept["PATH"] = f"{folder}:{kept['PATH']}"
        words = [sys.executable, str(self.room / "tools/why"), str(EXAMPLES / "idle.toml")]
        ended = subprocess.run(words, capture_output=True, env=kept | environment, check=False)
        return Ended(ended.returncode, ended.stdout.decode(), ended.stderr.decode())

    def made(self, path: Path, text: str) -> None:
        path.parent.mkdir(exist_ok=True)
        path.write_text(text)
        path.chmod(0o755)

    def test_without_a_program_a_sentence_says_so_and_nothing_is_built(self) -> None:
        ended = self.why()
        self.assertEqual((ended.status, ended.out), (2, ""))
        self.assertRegex(ended.err, r"\Awhy: ason isn't built of these sources: [^\n]*/ason run builds it, or ASON names [^\n]*\n\Z")
        self.assertFalse((self.room / "called").exists())
        self.assertFalse((self.room / "out").exists())

    def test_a_program_of_other_sources_is_not_run(self) -> None:
        self.made(self.room / "out/ason", PRINTS_A_TABLE)
        (self.room / "out/built").write_text("sources 1 1\ntimes 1 1\nkit none\n")
        self.assertIn("ason isn't built of these sources", self.why().err)

    def test_what_the_script_has_built_is_run(self) -> None:
        self.made(self.room / "ason", "#!/bin/sh\nexit 0\n")
        self.made(self.room / "out/ason", PRINTS_A_TABLE)
        ended = self.why()
        self.assertEqual((ended.status, ended.err), (0, ""))

    def test_ason_names_a_program(self) -> None:
        self.made(self.room / "other", PRINTS_A_TABLE)
        ended = self.why(ASON=str(self.room / "other"))
        self.assertEqual((ended.status, ended.err), (0, ""))

    def test_where_ason_names_the_script_nothing_is_built_either(self) -> None:
        ended = self.why(ASON=str(self.room / "ason"))
        self.assertEqual((ended.status, ended.out), (2, ""))
        self.assertIn("its status is 9", ended.err)
        self.assertFalse((self.room / "called").exists())


if __name__ == "__main__":
    unittest.main()
