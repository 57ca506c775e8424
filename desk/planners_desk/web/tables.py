"""A plan, or a part of one, as the table that a page shows: the person's own calendar, or a list by
what the values are."""

from __future__ import annotations

import itertools
from collections.abc import Iterator, Mapping
from dataclasses import dataclass

from ..case.model import Case, Values
from ..case.picture import ASKED, CHANGED, CHOSEN, CLASH, KEPT, LEFT_OUT, shape

# what is said of a mark to those who don't see it
MARKS = {
    CHANGED: "changed",
    CLASH: "breaks the rule",
    KEPT: "keeps the rule",
    CHOSEN: "chosen",
    LEFT_OUT: "left out now",
}


@dataclass(frozen=True)
class Entry:
    """What stands on a line of a cell."""

    text: str
    kind: str  # its mark, `asked` where it is part of a question, else ""
    thing: int

    @property
    def mark(self) -> str:
        """Its mark in words."""
        return MARKS.get(self.kind, "")


@dataclass(frozen=True)
class Cell:
    """A place of a table."""

    entries: tuple[Entry, ...]

    @property
    def kind(self) -> str:
        """How the whole cell is drawn, where one thing alone stands in it."""
        return self.entries[0].kind if len(self.entries) == 1 else ""


@dataclass(frozen=True)
class Row:
    """A row with its head."""

    head: str
    cells: tuple[Cell, ...]


@dataclass(frozen=True)
class Table:
    """A table with heads at the top and at the left."""

    corner: str  # what the heads at the left and at the top are
    heads: tuple[str, ...]
    rows: tuple[Row, ...]


def table_of(case: Case, values: Values, marks: Mapping[int, str] | None = None) -> Table:
    """The values of some things, some of them marked, in the case's own grid."""
    made = _Made(case, values, marks or {})
    kind = shape(case)
    if kind == "list":
        return made.by_value() if by_value(case) else made.by_thing()
    parts = case.thing_parts if kind == "things" else case.value_parts
    cells = made.things() if kind == "things" else made.values()
    rows = []
    for down in itertools.product(*(range(len(part.members)) for part in parts[1:])):
        head = " ".join(part.members[at] for part, at in zip(parts[1:], down))
        rows.append(
            Row(head, tuple(cells[(across, *down)] for across in range(len(parts[0].members))))
        )
    corner = f"{' '.join(part.name for part in parts[1:])} \\ {parts[0].name}"
    return Table(corner, parts[0].members, tuple(rows))


def by_value(case: Case) -> bool:
    """Whether a list is read by its values, as by shelf or by week: where most things may take each
    of them."""
    free = sum(len(thing.allowed) == len(case.values) for thing in case.things)
    return 2 * free > len(case.things)


def sentence_of(case: Case, values: Values) -> str:
    """A plan, or a part of one, in a line: `Mon early Ann, Mon late Ben`."""
    return ", ".join(
        f"{case.things[thing].name} {case.label(values[thing])}" for thing in sorted(values)
    )


class _Made:
    """What stands in the cells."""

    def __init__(self, case: Case, values: Values, marks: Mapping[int, str]) -> None:
        self.case, self._values, self._marks = case, values, marks
        self._part = len(values) < len(case.things)

    def _kind(self, thing: int) -> str:
        """How a thing is drawn."""
        return self._marks.get(thing, ASKED if self._part else "")

    def _having(self, value: int) -> Iterator[Entry]:
        """The things that have a value."""
        for thing in self.case.things:
            if self._values.get(thing.place) == value:
                yield Entry(thing.name, self._kind(thing.place), thing.place)

    def _of(self, thing: int) -> Cell:
        """The value of a thing, nothing where it has none."""
        if thing in self._values:
            return Cell((Entry(self.case.label(self._values[thing]), self._kind(thing), thing),))
        return Cell((Entry("", LEFT_OUT, thing),) if self._marks.get(thing) == LEFT_OUT else ())

    def things(self) -> dict[tuple[int, ...], Cell]:
        """A grid of things: each cell has the value of one."""
        return {thing.at: self._of(thing.place) for thing in self.case.things}

    def values(self) -> dict[tuple[int, ...], Cell]:
        """A grid of values: each cell has the things with this value."""
        return {
            self.case.value_at(value): Cell(tuple(self._having(value)))
            for value in range(len(self.case.values))
        }

    def by_value(self) -> Table:
        """A list by its values, so that what is together stands together."""
        rows = [
            Row(label, (Cell(tuple(self._having(value))),))
            for value, label in enumerate(self.case.values)
        ]
        return Table("value", ("what has it",), tuple(rows))

    def by_thing(self) -> Table:
        """A list of things with their values; in a part of a plan those alone that have one."""
        rows = [
            Row(self.case.things[thing].name, (self._of(thing),))
            for thing in range(len(self.case.things))
            if thing in self._values or thing in self._marks
        ]
        return Table("what", ("value",), tuple(rows))
