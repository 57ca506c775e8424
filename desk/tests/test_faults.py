"""Faults name no command: the terminal adds it behind the text."""

from __future__ import annotations

import os
import re
import unittest

import planners_desk
from planners_desk.case import casefile
from planners_desk.case.model import Fault, Way
from planners_desk.faces import ways

PACKAGE = os.path.dirname(os.path.realpath(planners_desk.__file__))
NEUTRAL = ("case", "program", "hints", "sitting", "report")  # whose texts other faces show as well
COMMAND = re.compile(r"`desk [a-z]+")


def fault_of(text: str) -> Fault:
    """The fault of a case that has one."""
    try:
        casefile.parse(text, "it.case")
    except Fault as fault:
        return fault
    raise AssertionError(f"no fault in {text!r}")


class Faults(unittest.TestCase):
    """What is behind a text."""

    def test_a_word_that_is_none(self) -> None:
        """The catalogue is looked at, where no form is near."""
        fault = fault_of(
            "things: maths sport\nvalues: 8 9\nask: all\nwords: different\nknown: nobody works on "
            "Sunday\n"
        )
        self.assertEqual(fault.ways, (Way.WORDS,))
        self.assertNotIn("desk", str(fault))
        self.assertTrue(
            ways.lines(fault)[0].endswith("; `desk words` lists all"), ways.lines(fault)
        )

    def test_each_text_has_its_own(self) -> None:
        """Faults that are told together keep what is behind each."""
        fault = fault_of("title: x\n")
        self.assertEqual(fault.ways, (None, None, Way.WORDS, None))
        said = ways.lines(fault)
        self.assertEqual([line.endswith("lists all") for line in said], [False, False, True, False])

    def test_a_command_names_the_case(self) -> None:
        """As a shell takes it."""
        fault = Fault("changed", ways=[Way.CARRY], path="my case.case")
        self.assertEqual(ways.lines(fault), ["changed: `desk carry 'my case.case'`"])

    def test_no_text_names_a_command(self) -> None:
        """In the rooms that other faces show as well, but for the docstrings."""
        for room in NEUTRAL:
            folder = os.path.join(PACKAGE, room)
            for name in sorted(os.listdir(folder)):
                if not name.endswith(".py"):
                    continue
                with open(os.path.join(folder, name), encoding="utf-8") as file:
                    source = re.sub(r'""".*?"""', "", file.read(), flags=re.DOTALL)
                self.assertNotRegex(re.sub(r"#.*", "", source), COMMAND, f"{room}/{name}")


if __name__ == "__main__":
    unittest.main()
