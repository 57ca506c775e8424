"""What a text, a program or a reader may do to desk: many lines, an output without an end, a reader
that goes away."""

from __future__ import annotations

import os
import subprocess
import sys
import tempfile
import unittest
from unittest import mock

from planners_desk.case import casefile, letters

DESK = os.path.join(os.path.dirname(os.path.dirname(os.path.realpath(__file__))), "desk")
THINGS = "things: " + " ".join(f"t{place}" for place in range(casefile.MOST_THINGS)) + "\n"
CASE = THINGS + "values: a b c\nask: t0-t1\nwords: different\n"
MOST_KB = 400_000  # of the memory of a desk that reads what a program prints

# What calls a program in place of acquire, says the fault, and how much memory that took.
CALLS = """
import resource, sys
from planners_desk.case.model import Fault
from planners_desk.program.talk import Program, Run
from planners_desk.hints import solver
program = Program(sys.argv[1])
does = {"call": lambda: program.call(["show"]), "rest": lambda: Run(program, ["run"]).rest(),
        "cnf": lambda: print(solver.clauses_of(program, None, "x.journal"))}
try:
    does[sys.argv[2]]()
except Fault as fault:
    print(fault)
print(resource.getrusage(resource.RUSAGE_SELF).ru_maxrss)
"""


class ManyLines(unittest.TestCase):
    """A text may have as many lines as it has bytes for."""

    def compared(self, more: str) -> int:
        """How often a name is looked at while a case with these lines is read."""
        with mock.patch.object(letters, "bare", wraps=letters.bare) as looked:
            self.assertEqual(len(casefile.parse(CASE + more, "x.case").things), 128)
        return looked.call_count

    def test_lines_that_add_nothing_cost_nothing(self) -> None:
        """However many there are, no name is compared anew for them."""
        once = self.compared("")
        self.assertGreaterEqual(once, casefile.MOST_THINGS)
        for line in ("things:\n", "values:\n"):
            self.assertEqual(self.compared(line * 2000), once, line)

    def test_names_that_stand_twice(self) -> None:
        """Also where lines that add nothing stand between them."""
        for line, told in (
            ("things: u\n", "the program takes 128"),
            ("values: d\nvalues:\nvalues: a\n", "the value `a` stands twice"),
        ):
            with self.assertRaisesRegex(casefile.Fault, told):
                casefile.parse(CASE + line, "x.case")
        with self.assertRaisesRegex(casefile.Fault, "x.case:3: the thing `a` stands twice"):
            casefile.parse("things: a b\nthings:\nthings: a\n" + CASE.replace(THINGS, ""), "x.case")


class WithoutAnEnd(unittest.TestCase):
    """A program in place of acquire that prints and prints."""

    def said(self, does: str) -> str:
        """What desk says of it, within its memory."""
        with tempfile.TemporaryDirectory() as folder:
            path = os.path.join(folder, "other")
            with open(path, "w", encoding="utf-8") as file:
                file.write("#!/bin/sh\nexec yes\n")
            os.chmod(path, 0o755)
            ran = subprocess.run(
                [sys.executable, "-c", CALLS, path, does],
                capture_output=True,
                text=True,
                check=True,
                env={**os.environ, "PYTHONPATH": os.pathsep.join(filter(None, sys.path))},
            )
        *lines, memory = ran.stdout.splitlines()
        self.assertLess(int(memory), MOST_KB)
        return "\n".join(lines)

    def test_it_is_refused(self) -> None:
        """By name, for a call and for the end of a run."""
        for does in ("call", "rest"):
            self.assertIn("acquire printed more and more without an end", self.said(does))

    def test_no_plans_are_looked_for(self) -> None:
        """Clauses that are more than any solver is asked about are none."""
        self.assertEqual(self.said("cnf"), "None")


class ReaderThatIsGone(unittest.TestCase):
    """Nobody reads what desk prints any more."""

    def ended(self, *words: str) -> tuple[int, str]:
        """The status of a call whose reader has gone before it prints, and what it says of that."""
        read, write = os.pipe()
        os.close(read)
        # with a buffer, as desk has it where nobody says otherwise
        env = {name: value for name, value in os.environ.items() if name != "PYTHONUNBUFFERED"}
        try:
            ran = subprocess.run(
                [sys.executable, DESK, *words],
                stdin=subprocess.DEVNULL,
                stdout=write,
                stderr=subprocess.PIPE,
                text=True,
                check=False,
                env=env,
            )
        finally:
            os.close(write)
        return ran.returncode, ran.stderr

    def test_it_ends_in_silence(self) -> None:
        """With the status that says that not all was printed."""
        self.assertEqual(self.ended("words"), (1, ""))
        with tempfile.TemporaryDirectory() as folder:
            self.assertEqual(self.ended("cases", os.path.join(folder, "cases")), (1, ""))

    def test_a_help_that_nobody_reads(self) -> None:
        """What is left to print at the end is dropped."""
        for word in ("--help", "--version"):
            self.assertEqual(self.ended(word), (0, ""), word)


if __name__ == "__main__":
    unittest.main()
