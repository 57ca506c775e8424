"""The page to print, and what the end says of plans, as far as they need no program."""

from __future__ import annotations

import types
import unittest

from planners_desk.case import casefile
from planners_desk.case.model import Rule
from planners_desk.case.picture import CHANGED, CLASH, KEPT, Cell, Picture
from planners_desk.report import page
from planners_desk.sitting import judging
from planners_desk.sitting.judging import Plan

SEATS = "things: Ada Bo Cy\nvalues: table left right x seat 1 2\nask: all\nwords: different\n"


class Cells(unittest.TestCase):
    """What stands at one place of a plan."""

    def test_only_what_clashes_is_marked(self) -> None:
        """One name of several is marked by itself, and a place whose names all clash as a whole."""
        for cells, made in (
            ((Cell("Ada!", CLASH),), '<td class="clash">Ada!</td>'),
            ((Cell("Ada", ""),), "<td>Ada</td>"),
            ((Cell("Ada!", CLASH), Cell("Bo!", CLASH)), '<td class="clash">Ada!<br>Bo!</td>'),
            (
                (Cell("Ada", ""), Cell("Bo!", CLASH), Cell("Cy!", CLASH)),
                '<td>Ada<br><span class="clash">Bo!</span><br><span class="clash">Cy!</span></td>',
            ),
            ((Cell("Ada+", KEPT), Cell("Bo*", CHANGED)), "<td>Ada+<br>Bo*</td>"),
            ((Cell("", "empty"),), "<td></td>"),
        ):
            self.assertEqual(page.grid_cell(cells), made)

    def test_in_a_plan(self) -> None:
        """A grid of values with three at one place, two of which clash."""
        case = casefile.parse(SEATS, "x.case")
        picture = Picture(case, {0: 0, 1: 0, 2: 0}, {0: CLASH, 2: CLASH})
        self.assertIn(
            '<td><span class="clash">Ada!</span><br>Bo<br><span class="clash">Cy!</span></td>',
            page.table(picture),
        )


class Answers(unittest.TestCase):
    """All answers, which paper has too."""

    def test_a_browser_that_folds_them_on_paper_says_what_to_do(self) -> None:
        """They are folded away, and what to do stands right behind, where a style can hide it."""
        made = page.answers(types.SimpleNamespace(answers=[], case=None))  # type: ignore[arg-type]
        self.assertIn('</details><p class="unfold">Open this before you print', made)


class Said(unittest.TestCase):
    """What the person said of a plan, where the words can't say it."""

    def setUp(self) -> None:
        self.case = casefile.parse(SEATS, "x.case")
        self.session = types.SimpleNamespace(case=self.case)
        self.values = {0: 0, 1: 0, 2: 3}

    def title(self, plan: Plan, cells: tuple[int, ...] = ()) -> str:
        """What is told of it at the end."""
        return judging.title_of(self.session, plan, cells)  # type: ignore[arg-type]

    def test_of_a_refused_plan(self) -> None:
        """A sentence, not the bare rule, which would say the opposite of what the person said."""
        rule = Rule(self.case.words[0], (0, 1), "Ada and Bo differ")
        marks = {0: CLASH, 1: CLASH}
        self.assertEqual(
            self.title(Plan(self.values, False, rule.text, marks, rule)),
            "It isn't always so that Ada and Bo differ: a plan with Ada left 1 and Bo left 1 is "
            "right.",
        )

    def test_of_an_allowed_plan(self) -> None:
        """The cells that are wrong together, or the plan where nobody knows which."""
        plan = Plan(self.values, True, "Plan 2", {}, None)
        self.assertEqual(
            self.title(plan, (1, 2)), "Bo left 1 and Cy right 2 (allowed, and wrong)"
        )
        self.assertEqual(self.title(plan), "Plan 2 (allowed, and wrong)")


if __name__ == "__main__":
    unittest.main()
