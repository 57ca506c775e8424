"""The cases of a folder, by the names of their files."""

from __future__ import annotations

import os

from werkzeug.exceptions import NotFound

from ..case.model import Fault

ENDING = ".case"


class Folder:
    """A folder, and the cases in it."""

    def __init__(self, path: str) -> None:
        """Takes the path of a folder, or of a case in one; a fault where neither is there."""
        self.first = ""  # the case that was named
        if os.path.isdir(path):
            self.path = os.path.realpath(path)
        elif os.path.isfile(path):
            self.path, self.first = os.path.realpath(
                os.path.dirname(path) or "."
            ), os.path.basename(path)
        else:
            raise Fault(f"{path}: there is no such case and no such folder")

    def names(self) -> list[str]:
        """The names of its cases, in their order."""
        found = {
            entry.name
            for entry in os.scandir(self.path)
            if entry.name.endswith(ENDING) and entry.is_file()
        }
        return sorted(found | ({self.first} if self.first else set()))

    def path_of(self, name: str) -> str:
        """The path of a case; an error with a page where there is none of this name."""
        if name not in self.names():
            raise NotFound(f"There is no case {name} in the folder {self.path}.")
        return os.path.join(self.path, name)
