"""Sheets as plain lines, for screen readers, pipes and terminals that can't move the cursor: a key
is a line."""

from __future__ import annotations

import sys
from typing import TextIO

from ..case.picture import CHANGED, CHOSEN, CLASH, KEPT, Picture
from .face import Sheet, keys_text
from .letters import in_front

SAID = {
    CHANGED: " (changed)",
    CLASH: " (this breaks it)",
    KEPT: " (this keeps it)",
    CHOSEN: " (chosen)",
}
WORDS = {"yes": "y", "no": "n", "back": "b", "quit": "q", "stop": "q", "help": "?"}


def picture_lines(picture: Picture) -> list[str]:
    """A line for each thing that has a value; what has changed is said in words."""
    case = picture.case
    return [
        f"{in_front(picture, thing)}{case.things[thing].name}: "
        f"{case.label(picture.values[thing])}{SAID.get(picture.marks.get(thing, ''), '')}"
        for thing in sorted(picture.values)
    ]


class Lines:
    """The face of plain lines."""

    stays = True

    def __init__(self, given: TextIO | None = None, out: TextIO | None = None) -> None:
        self.given, self.out = given or sys.stdin, out or sys.stdout

    def put(self, sheet: Sheet) -> str:
        """Prints the sheet, and reads lines until one is a key of it, or the word for one."""
        self._print(sheet.head)
        for block in sheet.blocks:
            for line in picture_lines(block) if isinstance(block, Picture) else [block]:
                self._print(line)
        for line in (*sheet.under, *sheet.foot):
            self._print(line)
        keys = dict(sheet.keys)
        if "" in keys:
            return ""
        prompt = ", ".join(keys_text(sheet.keys))
        while True:
            self._print(f"{prompt}:")
            line = self.given.readline()
            if not line:
                return "q"
            word = line.strip().lower()
            key = WORDS.get(word, word)
            if key in keys:
                return key
            self._print(
                f"not one of the keys: {word!r}" if word else "type one of the keys, and then Enter"
            )

    def wait(self, text: str) -> None:
        """Says so in a line, where somebody waits."""
        if self.out.isatty():
            self._print(text)

    def close(self) -> None:
        """There is nothing to put back."""

    def _print(self, line: str) -> None:
        self.out.write(line + "\n")
        self.out.flush()
