"""The word that is looked for where a plan is wrong, and what is said where there is none."""

from __future__ import annotations

import types
import unittest
from typing import Any, cast

from planners_desk.case import casefile
from planners_desk.case.model import Values
from planners_desk.hints.possible import Possible
from planners_desk.program import vocabulary
from planners_desk.sitting import missing

FIVE = "things: a b c d e\nvalues: x y z\nask: a-b, b-c, c-d, d-e\nwords: same\n"


class WrongPlans(unittest.TestCase):
    """A plan that the rules allow, and that the person says is wrong."""

    def looked(self, values: Values) -> tuple[missing.Search, str]:
        """What a search finds for these cells of it, and what is said of that."""
        words = vocabulary.build(casefile.parse(FIVE, "x.case"))
        session = types.SimpleNamespace(
            case=words.case, vocabulary=words, possible=Possible(words, "scopes")
        )
        found = missing.lacking(cast(Any, session), values)
        return found, " ".join(missing.told(cast(Any, session), found))

    def test_nobody_says_which_cells(self) -> None:
        """The whole plan is refused: a word about a group that is asked about is looked for."""
        found, said = self.looked({0: 0, 1: 1, 2: 0, 3: 1, 4: 0})
        self.assertEqual(found.things, ())
        self.assertNotIn("doesn't put", said)

    def test_cells_that_are_not_asked_about_together(self) -> None:
        """A word about just these, and a line that asks about them."""
        found, said = self.looked({0: 0, 2: 0})
        self.assertEqual(found.things, (0, 2))
        self.assertIn("`ask` doesn't put a and c together", said)
        self.assertIn("`ask: a - c`", said)

    def test_cells_that_are_asked_about_together(self) -> None:
        """A word alone."""
        found, said = self.looked({0: 0, 1: 0})
        self.assertEqual(found.things, ())
        self.assertIn("words", said)
        self.assertNotIn("doesn't put", said)

    def test_more_cells_than_any_word_speaks_of(self) -> None:
        """All five are told apart from four, about which a word may be."""
        self.assertEqual(self.looked({0: 0, 1: 0, 2: 0, 3: 0})[0].things, (0, 1, 2, 3))
        self.assertEqual(self.looked({0: 0, 1: 0, 2: 0, 3: 0, 4: 0})[0].things, ())


if __name__ == "__main__":
    unittest.main()
