"""SAT solvers of the system: a file of clauses goes in, what the solver prints comes out."""

from __future__ import annotations

import os
import shutil
import subprocess
import tempfile
from collections.abc import Sequence

from .faults import ProgramMissing

KNOWN = ("cadical", "kissat", "clasp", "minisat")
_HAS_MODEL, _HAS_NONE = 10, 20


def command(named: str | Sequence[str] | None) -> list[str]:
    """The words of the solver that is named, or of the first known one on PATH."""
    if named is None:
        named = next((name for name in KNOWN if shutil.which(name)), "")
        if not named:
            raise ProgramMissing(f"no SAT solver is installed: {', '.join(KNOWN)} serve")
    words = [named] if isinstance(named, str) else list(named)
    if not shutil.which(words[0]):
        raise ProgramMissing(f"{words[0]}: there is no such program")
    return words


def model_text(clauses: str, solver: str | Sequence[str] | None) -> bytes | None:
    """What a solver says of a model of these clauses; None where it says that there is none."""
    words = command(solver)
    with tempfile.TemporaryDirectory() as folder:
        given, written = os.path.join(folder, "clauses"), os.path.join(folder, "model")
        with open(given, "w", encoding="ascii") as file:
            file.write(clauses)
        # minisat writes its model into a file.
        is_minisat = os.path.basename(words[0]).startswith("minisat")
        ran = subprocess.run([*words, given, *([written] if is_minisat else [])], capture_output=True, check=False)
        if ran.returncode == _HAS_NONE:
            return None
        if ran.returncode not in (_HAS_MODEL, 30):  # (clasp's status is 30 where it has looked through all)
            raise ProgramMissing(f"{words[0]} ended with status {ran.returncode}: {ran.stderr.decode(errors='replace').strip()[:200]}")
        if not is_minisat:
            return ran.stdout
        with open(written, "rb") as found:
            return found.read()
