"""A question as data, which each face shows in its own way."""

from __future__ import annotations

import unittest
from typing import Any, cast
from unittest import mock

from planners_desk.case import casefile
from planners_desk.case.model import Question, Values
from planners_desk.case.picture import CHANGED, LEFT_OUT
from planners_desk.faces import questions
from planners_desk.sitting.answers import Few
from planners_desk.sitting.asking import Asked, Asking

ROSTER = (
    "title: Week\nthings: day Mon Tue x shift early late\nvalues: Ann Ben\nask: same day\n"
    "words: different\n"
)


def asked(values: Values, before: Values | None, taught: Few = Few((), False)) -> Asked:
    """A question about these values behind another one."""
    session, sitting = mock.Mock(), mock.Mock()
    session.case = casefile.parse(ROSTER, "x.case")
    sitting.question = Question(7, values)
    asking = Asking(cast(Any, session), cast(Any, sitting))
    asking.before = None if before is None else Question(6, before)
    asking.notes, asking.taught = ["One.", "Two."], taught
    return asking.asked()


class Questions(unittest.TestCase):
    """What is asked, what has changed, and what has come of the answers before."""

    def test_the_first(self) -> None:
        """Nothing is compared."""
        one = asked({0: 0, 1: 1}, None)
        self.assertEqual((one.number, one.title, one.is_part), (7, "Week", False))
        self.assertEqual((one.picture.values, one.picture.marks), ({0: 0, 1: 1}, {}))
        self.assertEqual((one.changed, one.left_out), (False, 0))
        self.assertEqual((one.notes, one.taught), (("One.", "Two."), Few((), False)))
        self.assertEqual(questions.legend(one), "")

    def test_what_has_changed(self) -> None:
        """Other values are marked, and what is left out is counted."""
        one = asked({0: 0, 1: 1}, {0: 0, 1: 0, 2: 0, 3: 0}, Few(("it differs",), True))
        self.assertEqual(one.picture.marks, {1: CHANGED, 2: LEFT_OUT, 3: LEFT_OUT})
        self.assertEqual((one.changed, one.left_out, one.is_part), (True, 2, False))
        self.assertEqual(one.taught, Few(("it differs",), True))
        self.assertEqual(
            questions.legend(one),
            "* has changed since the last question; 2 of the last question are left out",
        )

    def test_a_part(self) -> None:
        """Nothing has changed where values are left out alone."""
        one = asked({0: 0, 1: 0}, {0: 0, 1: 0, 2: 0})
        self.assertEqual((one.is_part, one.changed, one.left_out), (True, False, 1))
        self.assertEqual(questions.legend(one), "1 of the last question is left out")


if __name__ == "__main__":
    unittest.main()
