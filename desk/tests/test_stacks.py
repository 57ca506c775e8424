"""The program is started with small stacks, and a solver with those that desk itself has."""

from __future__ import annotations

import os
import resource
import tempfile
import unittest

from planners_desk.program.talk import Program, Run  # (first: it finds the client)
from acquire.process import called

SAYS_ITS_STACK = "#!/bin/sh\nulimit -S -s\n"


class Stacks(unittest.TestCase):
    """A script in the program's place says how large its stack may be, in KB."""

    def setUp(self) -> None:
        """Makes the script."""
        folder = tempfile.TemporaryDirectory()
        self.addCleanup(folder.cleanup)
        self.path = os.path.join(folder.name, "program")
        with open(self.path, "w", encoding="ascii") as file:
            file.write(SAYS_ITS_STACK)
        os.chmod(self.path, 0o755)

    def test_the_program_has_one_megabyte_and_a_solver_what_desk_has(self) -> None:
        """Called, and asked line by line."""
        own = resource.getrlimit(resource.RLIMIT_STACK)[0]
        run = Run(Program(self.path), [])
        asked = run.line()
        run.close()
        self.assertEqual((Program(self.path).call([]).text, asked), ("1024\n", "1024"))
        self.assertEqual(
            called([self.path])[1].decode(),
            "unlimited\n" if own == resource.RLIM_INFINITY else f"{own // 1024}\n",
        )


if __name__ == "__main__":
    unittest.main()
