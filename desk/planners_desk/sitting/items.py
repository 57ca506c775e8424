"""What a sheet lists, as data: items with what each leads to, and cells to be pointed at. By which
key or button one is chosen is up to the face that shows them."""

from __future__ import annotations

import enum
from dataclasses import dataclass

from ..case.model import Case, Values
from ..case.picture import CHOSEN, Picture


class Kind(enum.Enum):
    """What an item leads to."""

    ANSWER = "answer"  # one to go back to
    SENTENCE = "sentence"  # the answers behind it
    CELL = "cell"  # of a plan


@dataclass(frozen=True)
class Target:
    """One such, by its place among all answers, sentences or things."""

    kind: Kind
    place: int


@dataclass(frozen=True)
class Item:
    """A line of a list, and what it leads to; None where it can't be chosen."""

    text: str
    target: Target | None


@dataclass(frozen=True)
class Some:
    """Items below each other."""

    items: tuple[Item, ...]
    inset: bool = False  # whether they belong to the line above them
    cut: bool = False  # whether those that can't be chosen at the moment are counted, not shown

    @property
    def targets(self) -> tuple[Target, ...]:
        """What they lead to, each once."""
        return tuple(dict.fromkeys(item.target for item in self.items if item.target is not None))


@dataclass(frozen=True)
class Pointed:
    """A plan whose cells can be pointed at, and those that are chosen so far."""

    case: Case
    values: Values
    chosen: frozenset[int] = frozenset()

    @property
    def picture(self) -> Picture:
        """How it looks, with the chosen cells marked."""
        return Picture(self.case, self.values, {thing: CHOSEN for thing in self.chosen})

    @property
    def targets(self) -> tuple[Target, ...]:
        """Its cells, in order."""
        return tuple(Target(Kind.CELL, thing) for thing in sorted(self.values))
