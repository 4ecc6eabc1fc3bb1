"""What is proved is proved once: no two lemmas of the crates state the same."""

import unittest
from collections import defaultdict

from ason_tools.statements import Declaration, read_crates

from .support import TOP


def facts() -> list[Declaration]:
    """The lemmas that stand in the crates' proofs, whose types any file could write."""
    tree = read_crates(TOP / "crates")
    proofs = [module for name, module in tree.items() if name.split(".")[2] == "proofs"]
    found = [it for module in proofs for it in module.declarations]
    return [it for it in found if it.is_closed and it.is_fact and not it.is_abbreviation]


class StatementsTest(unittest.TestCase):
    """The lemmas by what they state, with names resolved and bound variables numbered."""

    def test_no_two_lemmas_state_the_same(self) -> None:
        places = defaultdict(list)
        for fact in facts():
            places[fact.statement].append(f"{fact.module.name}.{fact.name}")
        self.assertGreater(len(places), 5_000)
        for statement, names in places.items():
            with self.subTest(statement=statement):
                self.assertEqual(names, names[:1])


if __name__ == "__main__":
    unittest.main()
