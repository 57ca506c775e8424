"""Letters for the items of a sheet: no other module gives one to an item or knows whose one is.

Where there are more items than letters, a key moves the letters on to the next items.
"""

from __future__ import annotations

from collections.abc import Iterable, Iterator, Mapping
from dataclasses import dataclass, field

from ..case.picture import Picture
from ..sitting.items import Item, Kind, Pointed, Some, Target
from .face import Block, Face, Sheet

LETTERS = "acdefghijklptuvxz"  # that mean nothing else
MORE = ("m", "letters for others")
DOES = {
    Kind.ANSWER: "go back to it",
    Kind.SENTENCE: "what is behind it",
    Kind.CELL: "this cell",
}

Keys = tuple[tuple[str, str], ...]
Listed = Block | Some | Pointed  # what a sheet has before its items have letters


@dataclass(frozen=True)
class Lettered(Picture):
    """A plan some cells of which have letters."""

    letters: Mapping[int, str] = field(default_factory=dict)

    def called(self, thing: int, text: str) -> str:
        """What stands for a thing, with its letter in front."""
        letter = f"{self.letters[thing]}) " if thing in self.letters else ""
        return letter + super().called(thing, text)


def in_front(picture: Picture, thing: int) -> str:
    """The letter of a thing in front of a line about it; nothing where it has none."""
    letters = picture.letters if isinstance(picture, Lettered) else {}
    return f"{letters[thing]}  " if thing in letters else ""


class Letters:
    """The letters of some items, in front of the other keys of their sheet."""

    def __init__(self, targets: Iterable[Target], keys: Keys) -> None:
        """Takes what the items lead to, in the order of their letters, and the other keys."""
        self._targets = list(dict.fromkeys(targets))
        self._others = keys
        self._letters = [letter for letter in LETTERS if letter not in dict(keys)]
        self._first = 0

    def put(
        self, face: Face, head: str, blocks: Iterable[Listed], under: tuple[str, ...] = ()
    ) -> str | Target:
        """Shows a sheet until one of its items is chosen, or one of the other keys is pressed."""
        blocks = tuple(blocks)
        while True:
            shown = tuple(line for block in blocks for line in self._shown(block))
            key = face.put(Sheet(head, shown, under=under, keys=self._keys))
            if key != MORE[0] or MORE not in self._keys:
                return self._now.get(key, key)
            self._turn()

    @property
    def _now(self) -> dict[str, Target]:
        """What has a letter now."""
        return dict(zip(self._letters, self._targets[self._first :]))

    @property
    def _keys(self) -> Keys:
        """All keys of a sheet."""
        if not self._targets:
            return self._others
        letters = tuple((letter, DOES[target.kind]) for letter, target in self._now.items())
        more = (MORE,) if len(self._targets) > len(self._letters) else ()
        return self._others[:1] + letters + more + self._others[1:]

    def _turn(self) -> None:
        """On to the items behind those that have letters, and from the last ones to the first."""
        self._first += len(self._letters)
        if self._first >= len(self._targets):
            self._first = 0

    def _shown(self, block: Listed) -> Iterator[Block]:
        """A part of a sheet with the letters that its items have now."""
        letter_of = {target: letter for letter, target in self._now.items()}
        if isinstance(block, Some):
            yield from _lines(block, letter_of)
        elif isinstance(block, Pointed):
            cells = {
                target.place: letter_of[target] for target in block.targets if target in letter_of
            }
            picture = block.picture
            yield Lettered(picture.case, picture.values, picture.marks, cells)
        else:
            yield block


def _lines(some: Some, letter_of: Mapping[Target, str]) -> Iterator[str]:
    """Items in a line each."""
    left = 0
    for item in some.items:
        letter = letter_of.get(item.target, "") if item.target is not None else ""
        if letter or not some.cut:
            yield _line(item, letter, some.inset)
        else:
            left += 1
    if left:
        yield f"and {left} others"


def _line(item: Item, letter: str, inset: bool) -> str:
    """One of them; a blank stands where it has no letter."""
    return f"{'  ' if inset else ''}{letter or ' '}  {item.text}"
