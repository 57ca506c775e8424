"""What a sheet lists is data, and letters are given to it in one module alone."""

from __future__ import annotations

import ast
import dataclasses
import random
import unittest

from planners_desk.case import casefile
from planners_desk.case.picture import CHOSEN, Picture
from planners_desk.faces import letters
from planners_desk.faces.face import Sheet
from planners_desk.faces.letters import LETTERS, MORE, Letters
from planners_desk.faces.plain import picture_lines
from planners_desk.sitting.answers import Given, listed
from planners_desk.sitting.items import Item, Kind, Pointed, Some, Target

from .test_rooms import modules

ROSTER = (
    "things: day Mon Tue x shift early late\nvalues: Ann Ben\nask: same day\nwords: different\n"
)
KEYS = (("o", "on"), ("q", "stop"))
GIVER = ("faces", "letters")  # the one module that gives letters


class Typed:
    """A face on which keys are pressed one after the other."""

    stays = True

    def __init__(self, *keys: str) -> None:
        self.keys = list(keys)
        self.sheets: list[Sheet] = []

    def put(self, sheet: Sheet) -> str:
        """The next key, which has to be one of the sheet's."""
        self.sheets.append(sheet)
        key = self.keys.pop(0)
        assert key in dict(sheet.keys), f"{key} isn't one of {sheet.keys}"
        return key

    def wait(self, text: str) -> None:
        """Nobody waits."""

    def close(self) -> None:
        """There is nothing to put back."""


def some(count: int, inset: bool = False, cut: bool = False) -> Some:
    """So many answers to choose from, by their places from 100 on."""
    given = (Given(k, k % 2 == 0, f"thing {k}", "", 100 + k) for k in range(count))
    return listed(given, inset, cut)


def gives_letters(source: str) -> bool:
    """Whether a module has the letters, or puts something like one in front of a line."""
    for node in ast.walk(ast.parse(source)):
        if isinstance(node, ast.Constant) and LETTERS[:6] in str(node.value):
            return True
        if isinstance(node, ast.JoinedStr) and len(node.values) > 1:
            front, behind = node.values[:2]
            said = str(behind.value) if isinstance(behind, ast.Constant) else ""
            if isinstance(front, ast.FormattedValue) and said.startswith(("  ", ") ")):
                return True
    return False


class InOneModule(unittest.TestCase):
    """By the sources: only one module knows a letter of an item."""

    def test_no_other_module_gives_one(self) -> None:
        """None has the letters, or puts one in front of an item."""
        found = {name for name, source in modules().items() if gives_letters(source)}
        self.assertEqual(found, {GIVER})

    def test_what_is_listed_has_none(self) -> None:
        """The types of the sitting room and of pictures have no place for one."""
        for kind in (Item, Some, Pointed, Target, Given, Picture):
            for field in dataclasses.fields(kind):
                self.assertNotRegex(field.name, "letter|key", kind.__name__)

    def test_below_the_faces_nobody_asks_for_one(self) -> None:
        """No room but that of the faces imports the module."""
        for name, source in modules().items():
            if name[0] == "faces":
                continue
            for node in ast.walk(ast.parse(source)):
                if isinstance(node, ast.ImportFrom):
                    named = {f"{node.module}.{one.name}" for one in node.names} | {str(node.module)}
                    self.assertFalse({"faces.letters"} & named, f"{name} imports it")


class Lists(unittest.TestCase):
    """Items in lines with their letters."""

    def test_each_letter_leads_back(self) -> None:
        """Each item has a letter of its own, which stands in front of it and chooses it."""
        drawn = random.Random(7)
        for count in (1, 2, 17, 18, 40):
            listing = some(count)
            for place in drawn.sample(range(count), min(count, 5)):
                turns, at = divmod(place, len(LETTERS))
                face = Typed(*[MORE[0]] * turns, LETTERS[at])
                target = Letters(listing.targets, KEYS).put(face, "Head", [listing])
                self.assertEqual(target, Target(Kind.ANSWER, 100 + place))
                shown = face.sheets[-1].blocks
                self.assertEqual(shown[place], f"{LETTERS[at]}  {listing.items[place].text}")
                self.assertEqual(
                    [line[:3] for line in map(str, shown)],
                    [
                        f"{LETTERS[k - turns * 17]}  " if 0 <= k - turns * 17 < 17 else "   "
                        for k in range(count)
                    ],
                )

    def test_after_the_last_come_the_first(self) -> None:
        """The key for others goes round."""
        face = Typed(MORE[0], MORE[0], "a")
        chosen = Letters(some(20).targets, KEYS).put(face, "Head", [some(20)])
        self.assertEqual(chosen, Target(Kind.ANSWER, 100))

    def test_keys(self) -> None:
        """Letters stand behind the first of the other keys, and a letter that is one of these is
        nobody's."""
        face = Typed("q")
        Letters(some(2).targets, (("a", "first"), ("q", "stop"))).put(face, "Head", [some(2)])
        back = "go back to it"
        self.assertEqual(
            face.sheets[0].keys, (("a", "first"), ("c", back), ("d", back), ("q", "stop"))
        )

    def test_the_same_answer_twice(self) -> None:
        """It has one letter."""
        face = Typed("c")
        listing = some(2)
        twice = [listing, listed([Given(1, False, "thing 1", "", 101)], inset=True)]
        chosen = Letters(listing.targets, KEYS).put(face, "Head", twice)
        self.assertEqual(chosen, Target(Kind.ANSWER, 101))
        self.assertEqual(
            face.sheets[0].blocks,
            ("a  0. yes: thing 0", "c  1. no: thing 1", "  c  1. no: thing 1"),
        )

    def test_what_can_not_be_chosen(self) -> None:
        """It stands without a letter, and no key leads to it."""
        given = Given(3, False, "thing 3", "said beforehand: it differs", None)
        face = Typed("q")
        listing = listed([given])
        self.assertEqual(Letters(listing.targets, KEYS).put(face, "Head", [listing]), "q")
        self.assertEqual(face.sheets[0].keys, KEYS)
        self.assertEqual(
            face.sheets[0].blocks, ("   3. no: thing 3 (said beforehand: it differs)",)
        )

    def test_a_list_that_is_cut(self) -> None:
        """Those that have no letter now are counted."""
        face = Typed(MORE[0], "q")
        listing = some(20, cut=True)
        Letters(listing.targets, KEYS).put(face, "Head", [listing])
        first, second = (sheet.blocks for sheet in face.sheets)
        self.assertEqual((len(first), first[-1]), (18, "and 3 others"))
        self.assertEqual(len(second), 4)
        self.assertEqual((second[0], second[-1]), ("a  17. no: thing 17", "and 17 others"))


class Cells(unittest.TestCase):
    """Cells of a plan with their letters."""

    def test_letters_stand_in_the_cells(self) -> None:
        """In a table in front of the value, in lines in front of the thing; what is chosen is
        marked."""
        case = casefile.parse(ROSTER, "x.case")
        plan = Pointed(case, {0: 0, 1: 1, 2: 0, 3: 1}, frozenset({2}))
        face = Typed("d")
        chosen = Letters(plan.targets, KEYS).put(face, "Head", [plan], ("How",))
        self.assertEqual(chosen, Target(Kind.CELL, 2))
        (picture,) = face.sheets[0].blocks
        assert isinstance(picture, Picture)
        self.assertEqual(picture.marks, {2: CHOSEN})
        drawn = [picture.label(thing) for thing in range(4)]
        self.assertEqual(drawn, ["a) Ann", "c) Ben", "d) Ann!", "e) Ben"])
        self.assertEqual(
            picture_lines(picture),
            [
                "a  Mon early: Ann",
                "c  Mon late: Ben",
                "d  Tue early: Ann (chosen)",
                "e  Tue late: Ben",
            ],
        )
        self.assertEqual(letters.in_front(plan.picture, 0), "")


if __name__ == "__main__":
    unittest.main()
