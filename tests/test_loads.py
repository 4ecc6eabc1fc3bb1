"""`load`: what is told of a generated plan's calls, and words that ask for none."""

import re
import subprocess
import tempfile
import unittest

from ason_tools.program import DONE, USAGE, WRITE_FAULT, program_path

from .support import ason_told
from .test_answers import USAGE_LINE, at_most_five_bytes

PHASES = ["built", "failed", "repaired", "reverted"]
STATES = ["asking", "bare", "pairing", "guarded", "turning", "turned", "stuck", "blocked"]

# Words behind `load` that have no meaning.
NO_LOADS = (
    [],
    ["1", "8"],
    ["1", "8", "16", "1"],
    ["18446744073709551616", "8", "16"],
    ["-1", "8", "16"],
    ["01", "8", "16"],
    ["1", "2", "16"],
    ["1", "9", "16"],
    ["1", "66", "16"],
    ["1", "8", "0"],
    ["1", "8", "4097"],
    ["1", "8", "+1"],
    ["a", "8", "16"],
)


def counts(line: str) -> dict[str, int]:
    """How many calls are in each state by a line."""
    return {state: int(number) for state, number in re.findall(r" (\w+) (\d+)", line)}


class LoadTest(unittest.TestCase):
    """Generated plans that are run."""

    def lines(self, *words: str) -> list[str]:
        ended = ason_told("load", *words)
        self.assertEqual(ended.status, DONE)
        return ended.out.splitlines()

    def test_calls_turn_and_go_back(self) -> None:
        lines = self.lines("1", "8", "16")
        self.assertEqual([line.split(" ")[0] for line in lines], PHASES)
        built, failed, repaired, reverted = map(counts, lines)
        for told in (built, failed, repaired, reverted):
            self.assertEqual(list(told), STATES)
            self.assertEqual(sum(told.values()), 16)
        self.assertEqual(failed["stuck"], 0)
        self.assertGreater(failed["turned"], 0)
        self.assertEqual(built, reverted)

    def test_a_load_is_the_same_each_time(self) -> None:
        self.assertEqual(self.lines("1", "8", "16"), self.lines("1", "8", "16"))
        self.assertNotEqual(self.lines("1", "8", "16"), self.lines("2", "8", "16"))

    def test_the_greatest_numbers(self) -> None:
        for words in (("0", "4", "1"), ("18446744073709551615", "64", "100")):
            with self.subTest(words=words):
                for line in self.lines(*words):
                    self.assertEqual(sum(counts(line).values()), int(words[2]))

    def test_nothing_is_read(self) -> None:
        """The input is left for the next command."""
        with tempfile.TemporaryFile() as given:
            given.write(b"left")
            given.seek(0)
            subprocess.run([program_path(), "load", "1", "4", "1"], stdin=given, stdout=subprocess.DEVNULL, check=True)
            self.assertEqual(given.tell(), 0)

    def test_an_output_that_fails(self) -> None:
        with tempfile.TemporaryFile() as file:
            command = [program_path(), "load", "1", "4", "1"]
            ended = subprocess.run(command, stdout=file, preexec_fn=at_most_five_bytes, check=False)
            file.seek(0)
            self.assertEqual((ended.returncode, file.read()), (WRITE_FAULT, b"built"))

    def test_other_words_have_no_meaning(self) -> None:
        for words in NO_LOADS:
            with self.subTest(words=words):
                ended = ason_told("load", *words)
                self.assertEqual((ended.status, ended.out), (USAGE, USAGE_LINE))


if __name__ == "__main__":
    unittest.main()
