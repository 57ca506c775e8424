"""A plan, or a part of one, as it is to be looked at: its cells in the case's grid, and how they
are marked.

Marks are signs as well as colours, since a terminal may have none. How it is drawn on a terminal
is in `drawing.py`, on a page in `page.py`.
"""

from __future__ import annotations

import itertools
from collections.abc import Mapping
from dataclasses import dataclass, field

from .model import Case, Values

CHANGED = "changed"  # since the last question
CLASH = "clash"  # one of the cells that break a rule
LEFT_OUT = "left out"  # filled in at the last question, and empty now
KEPT = "kept"  # one of the cells that a rule is about, and that keep it
CHOSEN = "chosen"  # pointed at by the person

SUFFIX = {CHANGED: "*", CLASH: "!", KEPT: "+", CHOSEN: "!"}
ASKED = "asked"  # in a part of a plan, what has a value
EMPTY = "empty"


@dataclass(frozen=True)
class Picture:
    """Values of some things, and how some of them are marked."""

    case: Case
    values: Values
    marks: Mapping[int, str] = field(default_factory=dict)

    @property
    def part(self) -> bool:
        """Whether some thing has no value."""
        return len(self.values) < len(self.case.things)

    def label(self, thing: int) -> str:
        """The value of a thing, with the sign of its mark."""
        return self.called(thing, self.case.label(self.values[thing]))

    def called(self, thing: int, text: str) -> str:
        """What stands for a thing, with the sign of its mark behind."""
        return text + SUFFIX.get(self.marks.get(thing, ""), "")

    def kind(self, thing: int) -> str:
        """How the value of a thing is drawn. In a full plan only what has a mark is drawn otherwise
        than the rest."""
        mark = self.marks.get(thing, "")
        return mark if mark in SUFFIX else ASKED if self.part else ""


@dataclass(frozen=True)
class Cell:
    """A line of text at a place of a table, and how it is drawn."""

    text: str
    kind: str


Cells = tuple[Cell, ...]  # the lines at one place


@dataclass(frozen=True)
class Grid:
    """A table of cells."""

    heads: tuple[str, ...]
    rows: tuple[tuple[str, tuple[Cells, ...]], ...]

    def turned(self) -> Grid:
        """Rows for columns."""
        columns = zip(*(cells for _, cells in self.rows))
        return Grid(tuple(head for head, _ in self.rows), tuple(zip(self.heads, columns)))


def shape(case: Case) -> str:
    """`things` where the things are a grid, `values` where the values are one, and else `list`."""
    if len(case.thing_parts) > 1:
        return "things"
    return "values" if len(case.value_parts) > 1 else "list"


def grid_of(picture: Picture, empty: str, gone: str) -> Grid | None:
    """The picture as a table: the first part of the case's grid across, the others down."""
    case = picture.case
    kind = shape(case)
    if kind == "list":
        return None
    parts = case.thing_parts if kind == "things" else case.value_parts
    fill = thing_cells(picture, empty, gone) if kind == "things" else value_cells(picture, empty)
    rows = []
    for down in itertools.product(*(range(len(part.members)) for part in parts[1:])):
        name = " ".join(part.members[at] for part, at in zip(parts[1:], down))
        rows.append((name, tuple(fill[(across, *down)] for across in range(len(parts[0].members)))))
    return Grid(parts[0].members, tuple(rows))


def thing_cells(picture: Picture, empty: str, gone: str) -> dict[tuple[int, ...], Cells]:
    """What stands at each place of a grid of things: the thing's value."""
    cells: dict[tuple[int, ...], Cells] = {}
    for thing in picture.case.things:
        if thing.place in picture.values:
            cell = Cell(picture.label(thing.place), picture.kind(thing.place))
        else:
            cell = Cell(gone if picture.marks.get(thing.place) == LEFT_OUT else empty, EMPTY)
        cells[thing.at] = (cell,)
    return cells


def value_cells(picture: Picture, empty: str) -> dict[tuple[int, ...], Cells]:
    """What stands at each place of a grid of values: the things that have this value."""
    case = picture.case
    cells: dict[tuple[int, ...], Cells] = {}
    for value in range(len(case.values)):
        mine = [thing for thing in case.things if picture.values.get(thing.place) == value]
        named = tuple(
            Cell(picture.called(thing.place, thing.name), picture.kind(thing.place))
            for thing in mine
        )
        cells[case.value_at(value)] = named or (Cell(empty, EMPTY),)
    return cells


def sentence(picture: Picture) -> str:
    """A plan, or a part of one, as one line: `Mon early Ann, Mon late Ben`."""
    return ", ".join(
        f"{picture.case.things[thing].name} {picture.label(thing)}"
        for thing in sorted(picture.values)
    )
