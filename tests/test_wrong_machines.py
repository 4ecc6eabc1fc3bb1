"""Whether the wrong machines, which are tried by hand, can be made of the definitions as they stand."""

import importlib.machinery
import importlib.util
import re
import shutil
import sys
import tempfile
import unittest
from pathlib import Path

from .support import TOP

FOLDER = TOP / "tests/wrong-machines"


def script() -> object:
    """The script that tries them."""
    loader = importlib.machinery.SourceFileLoader("wrong_machines", str(FOLDER / "run"))
    module = importlib.util.module_from_spec(importlib.util.spec_from_loader("wrong_machines", loader))
    sys.modules["wrong_machines"] = module
    loader.exec_module(module)
    return module


class EditsTest(unittest.TestCase):
    """Each edit."""

    def setUp(self) -> None:
        self.edits = script().all_edits()

    def test_each_is_made_of_the_sources_as_they_stand(self) -> None:
        for edit in self.edits:
            with self.subTest(edit=edit.name), tempfile.TemporaryDirectory() as room:
                for file in {part[0] for part in edit.parts}:
                    (Path(room) / file).parent.mkdir(parents=True, exist_ok=True)
                    shutil.copy(TOP / "crates" / file, Path(room) / file)
                edit.make(Path(room))
                self.assertIn(edit.top, ("mesh_laws", "round_laws"))

    def test_each_is_an_edit_of_a_definition_and_has_a_sentence_for_a_name(self) -> None:
        for edit in self.edits:
            with self.subTest(edit=edit.name):
                self.assertRegex(edit.name, r"^[a-z]+(_[a-z]+){2,}$")
                self.assertIn("/specs/", edit.parts[0][0])

    def test_each_names_a_law_and_lemmas_that_are_there(self) -> None:
        sources = [TOP / "crates" / crate / "src" for crate in ("mesh_laws", "round_laws")]
        texts = [path.read_text() for source in sources for path in source.glob("*.rt")]
        clauses = {clause for text in texts for clause in re.findall(r"ensures (\w+) \{", text)}
        for edit in self.edits:
            with self.subTest(edit=edit.name):
                self.assertTrue(set(re.findall(r"\w+", edit.law.split(":")[0])) & clauses, edit.law)
                self.assertTrue(edit.by)
                for lemma in edit.by:
                    file, name = lemma.split()
                    found = re.search(rf"^ *(pub )?{re.escape(name)} : ", (TOP / "crates" / file).read_text(), re.MULTILINE)
                    self.assertIsNotNone(found, lemma)

    def test_what_was_tried_last_is_all_of_them(self) -> None:
        told = re.findall(r"^(\w+): refused by ", (FOLDER / "last-output.txt").read_text(), re.MULTILINE)
        self.assertCountEqual(told, [edit.name for edit in self.edits])


if __name__ == "__main__":
    unittest.main()
