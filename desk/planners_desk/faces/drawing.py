"""Pictures on a terminal, drawn with the library rich: a table or a calendar, or a list where that
doesn't fit.

A picture never leaves a cell out. Where the table is too wide it is turned, and where that is too
wide or too high as well, a list in columns stands in, on several pages if it has to.
"""

from __future__ import annotations

import itertools
from dataclasses import dataclass

from rich import box
from rich.cells import cell_len
from rich.console import Console
from rich.segment import Segment
from rich.table import Table
from rich.text import Text

from ..case.model import Case, Values
from ..case.picture import (
    ASKED,
    CHANGED,
    CHOSEN,
    CLASH,
    EMPTY,
    KEPT,
    Cell,
    Grid,
    Picture,
    grid_of,
    shape,
)

Lines = list[list[Segment]]

STYLE = {
    CHANGED: "bold black on bright_yellow",
    CLASH: "bold white on red",
    KEPT: "bold black on bright_green",
    CHOSEN: "bold white on red",
    ASKED: "bold",
    EMPTY: "dim",
    "": "",
}


def utf8(console: Console) -> bool:
    """Whether more than ASCII can be drawn."""
    return not console.options.ascii_only


def drawn(cell: Cell) -> Text:
    """A cell in its colours."""
    return Text(cell.text, style=STYLE[cell.kind])


@dataclass(frozen=True)
class Look:
    """How a grid is drawn: with lines between its rows or without, and how wide each column is at
    least."""

    ruled: bool
    least: int


def size_of(grid: Grid, look: Look) -> tuple[int, int]:
    """The width and the height of a grid's table."""
    first = max(cell_len(head) for head, _ in grid.rows)
    widths = [
        max(
            [look.least, cell_len(head)]
            + [cell_len(cell.text) for _, cells in grid.rows for cell in cells[at]]
        )
        for at, head in enumerate(grid.heads)
    ]
    high = sum(max(len(cell) for cell in cells) for _, cells in grid.rows)
    return first + sum(widths) + 3 * len(widths) + 4, high + 4 + (
        len(grid.rows) - 1 if look.ruled else 0
    )


def table_of(grid: Grid, look: Look, unicode: bool) -> Table:
    """The table of a grid."""
    table = Table(box=box.ROUNDED if unicode else box.ASCII2, show_lines=look.ruled)
    table.add_column("", no_wrap=True)
    for head in grid.heads:
        table.add_column(Text(head), justify="center", no_wrap=True, min_width=look.least)
    for head, cells in grid.rows:
        table.add_row(
            Text(head), *(Text("\n").join(drawn(cell) for cell in place) for place in cells)
        )
    return table


def listed(picture: Picture, width: int, height: int | None) -> list[list[Text]]:
    """The picture as a list, in as many columns as the height asks for and the width allows; its
    pages."""
    entries = entries_of(picture, width)
    if not entries:
        return [[]]
    wide = max(cell_len(entry.plain) for entry in entries)
    most = max(1, (width + 3) // (wide + 3))
    high = len(entries) if height is None else max(1, height)
    columns = min(most, -(-len(entries) // high))
    a_page = columns * high
    return [
        in_columns(entries[at : at + a_page], columns, wide)
        for at in range(0, len(entries), a_page)
    ]


def entries_of(picture: Picture, width: int) -> list[Text]:
    """`Mon early  Ann` for each cell; one that is wider than the whole takes several lines."""
    case, entries = picture.case, []
    things = sorted(picture.values)
    names = max((cell_len(case.things[thing].name) for thing in things), default=0)
    labels = max((cell_len(picture.label(thing)) for thing in things), default=0)
    pad = names if names + 2 + labels <= width else 0
    for thing in things:
        name = case.things[thing].name
        entry = Text(name + " " * (max(0, pad - cell_len(name)) + 2))
        entry.append(picture.label(thing), style=STYLE[picture.kind(thing)])
        entries += chopped(entry, width)
    return entries


def chopped(entry: Text, width: int) -> list[Text]:
    """A text in pieces of at most this width."""
    if cell_len(entry.plain) <= width:
        return [entry]
    cuts, room = [], 0
    for at, letter in enumerate(entry.plain):
        room += cell_len(letter)
        if room > width:
            cuts.append(at)
            room = cell_len(letter)
    return list(entry.divide(cuts))


def in_columns(entries: list[Text], columns: int, wide: int) -> list[Text]:
    """Entries one below the other, column after column."""
    rows = -(-len(entries) // columns)
    lines = []
    for row in range(rows):
        line = Text()
        for entry in entries[row::rows]:
            line.append_text(entry)
            line.append(" " * (wide - cell_len(entry.plain) + 3))
        line.rstrip()
        lines.append(line)
    return lines


def pages(console: Console, picture: Picture, width: int, height: int | None = None) -> list[Lines]:
    """The picture within this width and height, on as few pages as it takes; no height means
    any."""
    unicode = utf8(console)
    grid = grid_of(picture, "·" if unicode else ".", "–" if unicode else "-")
    # all columns as wide as a cell may get, so that nothing moves from question to question;
    # without room for that, as narrow as can be
    widest = 1 + max(
        map(
            cell_len,
            (
                picture.case.values
                if shape(picture.case) == "things"
                else [thing.name for thing in picture.case.things]
            ),
        )
    )
    for way, ruled, least in itertools.product(
        (grid, grid.turned()) if grid else (), (True, False), (widest, 0)
    ):
        look = Look(ruled, least)
        wide, high = size_of(way, look)
        if wide <= width and (height is None or high <= height):
            return [
                console.render_lines(
                    table_of(way, look, unicode), console.options.update(width=wide), pad=False
                )
            ]
    flat = console.options.update(width=max(width, 1), no_wrap=True)
    return [
        [line for text in page for line in console.render_lines(text, flat, pad=False)]
        for page in listed(picture, width, height)
    ]


def plan_lines(case: Case, values: Values, width: int) -> list[str]:
    """A plan in plain text without colour."""
    console = Console(width=width, color_system=None, highlight=False, markup=False)
    return [
        "".join(part.text for part in line).rstrip()
        for line in pages(console, Picture(case, values), width)[0]
    ]
