"""Counts of a side of a grid, in words: `2 seats apart`, and `1 seat apart`."""

from __future__ import annotations

import unittest

from planners_desk.case import casefile, catalogue, groups
from planners_desk.case.catalogue import Setting
from planners_desk.case.model import Case, Fault, Part
from planners_desk.sitting import missing

GRID = (
    "things: day Mon .. Wed x shift early late\nvalues: table left right x seat 1 2 3 4\n"
    "ask: each\nwords: same\n"
)


def setting(case: Case) -> Setting:
    """What a word may name."""
    return Setting(case.things, case.values, case.value_parts)


class Counted(unittest.TestCase):
    """One has no s at its end, and more have one."""

    def setUp(self) -> None:
        self.case = casefile.parse(GRID, "x.case")

    def test_sides(self) -> None:
        """A name that has an s already gets no other."""
        for name, one, two in (("day", "1 day", "2 days"), ("days", "1 days", "2 days")):
            part = Part(name, ("a", "b"))
            self.assertEqual((part.counted(1), part.counted(2)), (one, two))

    def test_sentences(self) -> None:
        """However a case spells a word, its sentence is the same; the word stays as it is."""
        for text, said in (
            ("at least 2 seat apart", "a and b are at least 2 seats apart"),
            ("at least 2 seats apart", "a and b are at least 2 seats apart"),
            ("at most 1 seat apart", "a and b are at most 1 seat apart"),
            ("at most 1 seats apart", "a and b are at most 1 seat apart"),
        ):
            word = catalogue.word(setting(self.case), text)
            self.assertEqual((word.text, word.said_of(("a", "b"))), (text, said))
            self.assertEqual(word.shown, said.removeprefix("a and b "))

    def test_hints(self) -> None:
        """What is proposed in place of a word or a phrase that isn't one."""
        for make, text, hint in (
            (catalogue.word, "at least 3 apart", "`at least 3 tables apart`"),
            (catalogue.word, "at most 1 apart", "`at most 1 table apart`"),
            (catalogue.word, "at leest 2 seats apart", "the nearest is `at least 2 seats apart`"),
        ):
            with self.assertRaises(Fault) as raised:
                make(setting(self.case), text)
            self.assertIn(hint, str(raised.exception))
        for text in ("three days in row", "0"):
            with self.assertRaises(Fault) as raised:
                groups.meant(self.case.things, self.case.thing_parts, text)
            self.assertIn("`3 days in a row`", str(raised.exception))

    def test_words_that_are_missing(self) -> None:
        """Those of the catalogue that are tried are spelled as the form offers them."""
        tried = [*missing._filled(self.case, "at least K PART apart", ["Ann"])]
        self.assertEqual(
            tried,
            [
                "at least 1 table apart",
                "at least 1 seat apart",
                "at least 2 seats apart",
                "at least 3 seats apart",
            ],
        )
        self.assertEqual(
            [*missing._filled(self.case, "different PART", ["Ann"])],
            ["different table", "different seat"],
        )


if __name__ == "__main__":
    unittest.main()
