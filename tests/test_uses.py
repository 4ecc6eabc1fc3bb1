"""Each function, definition and lemma has a use, in the programs, the laws or what shows them to readers."""

import re
import unittest

from ason_tools.functions import Calls
from ason_tools.uses import Declared, Module, Sources

from .support import TOP
from .test_index import PAGES, crates, head

TESTS = ("codec_tests", "node_tests", "world_tests")
"""Crates of tests. What they alone call has no use."""

WITHOUT_A_CALLER = {
    "a step as a whole, which controllers make in parts": ["hop_reliable::Hop::receive", "flood::Flood::receive"],
    "one turn, where fleets ask for a round's": ["station::Station::turn"],
    "a list of what the program goes over entry by entry": ["fleet::Fleet::merged"],
    "a message as bytes of its own, where the program writes behind others": [
        "rsvp_messages::encode", "flood::encode_flood", "te_tlv::write_row",
        *(f"wire_buf::push_{number}" for number in ("u8", "u16", "u24", "u32")),
    ],
    "an object that is read, and that others write": ["rsvp_objects::write_error_ipv4"],
    "which messages can be written, for whoever calls `encode`": ["rsvp_messages::is_writable"],
    "a search over rows that weren't prepared": ["route_least::least"],
    "a question about a value, beside those that the program asks": [
        "ason_base::Topology::joins", "ason_base::RiskSet::disjoint", "wire_buf::Cursor::u24", "fleet::Fleet::has",
    ],
}
"""Public calls of which the program has no need, by what they are for."""

FOR_READERS = {"ason_base/proofs/Bridges.antt": "links and their rows join and walk alike"}
"""Files of public lemmas that no other rests on."""


class FunctionsTest(unittest.TestCase):
    """The functions of the crates, by their names: a method that is called may be that of any type."""

    @classmethod
    def setUpClass(cls) -> None:
        cls.calls = Calls(TOP, TESTS)
        cls.kept = [function for function in cls.calls.functions if function.title in sum(WITHOUT_A_CALLER.values(), [])]

    def test_each_function_is_needed(self) -> None:
        reached = self.calls.reached(self.kept)
        self.assertEqual([function.title for function in self.calls.functions if function not in reached], [])

    def test_each_exception_is_one(self) -> None:
        reached = self.calls.reached()
        self.assertEqual([function.title for function in self.kept if function in reached], [])
        self.assertCountEqual({function.title for function in self.kept}, sum(WITHOUT_A_CALLER.values(), []))


class DeclarationsTest(unittest.TestCase):
    """The definitions and lemmas."""

    @classmethod
    def setUpClass(cls) -> None:
        cls.sources = Sources(TOP)
        texts = [*((TOP / page).read_text() for page in PAGES), *map(head, crates())]
        cls.told = {word for text in texts for code in re.findall(r"`([^`\n]+)`", text) for word in code.split()}

    def is_worked_out(self, module: Module) -> bool:
        """Whether the file shows what comes of examples, so that nothing need rest on it."""
        return module.path.parts[0] == "mesh_examples" or module.path.stem.endswith("Example") or not module.public

    def is_answer(self, it: Declared) -> bool:
        """Whether it proves what a function's clauses ask."""
        goals = re.findall(r"^use Rattle\.\S+\.(?:Goals|Given) as (\S+)$", it.module.text, re.MULTILINE)
        head = " ".join(it.module.lines[it.first : it.first + 2])
        return any(f" {goal}." in head for goal in goals)

    def test_each_is_named(self) -> None:
        unused = []
        for module in self.sources.modules:
            if self.is_worked_out(module) or str(module.path) in FOR_READERS:
                continue
            declared = [it for it in module.declared if it.name not in self.told and not self.is_answer(it)]
            unused += [it.title for it in declared if not self.sources.is_named(it)]
        self.assertEqual(unused, [])


if __name__ == "__main__":
    unittest.main()
