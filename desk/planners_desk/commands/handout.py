"""The cases to begin with, which come with desk: where they lie, and copies of them to try and to
change."""

from __future__ import annotations

import os
import shlex

from ..case import files
from ..case.model import Fault
from ..program import repository

CASES = os.path.join(repository.DESK, "cases")


def main(folder: str) -> int:
    """Copies them into a folder, which is made where it isn't there, and says what to do with them.
    Nothing is replaced: where a file of such a name is there, none is copied."""
    copies = {
        os.path.join(folder, name): _content(name)
        for name in sorted(os.listdir(CASES))
        if name.endswith(".case")
    }
    if there := [path for path in copies if os.path.lexists(path)]:
        raise Fault(
            *(
                f"{path} is there already, so nothing is copied: take another folder"
                for path in there
            )
        )
    with files.told(folder):
        os.makedirs(folder, exist_ok=True)
    files.write_all(copies)
    print(*copies, sep="\n")
    print(f"begin with: desk check {shlex.quote(next(iter(copies)))}")
    return 0


def _content(name: str) -> bytes:
    """What a file of the cases holds."""
    with files.opened(os.path.join(CASES, name)) as file:
        return file.read()
