"""Sheets on one screen of a terminal, drawn anew and never scrolled."""

from __future__ import annotations

import contextlib
import locale
import sys
import termios
import time
from collections.abc import Iterator
from dataclasses import dataclass, replace

from rich.console import Console
from rich.control import Control
from rich.segment import Segment, SegmentLines
from rich.text import Text

from ..case.picture import Picture
from .drawing import Lines, pages
from .face import Block, Sheet, keys_text
from .keys import ENDED, RESIZED, Keyboard

LEAST_BODY = 3  # lines of the body that a page has room for at least, where the whole takes more
# what stands on a screen that is too small for a sheet: the first of these that fits
TOO_SMALL = (
    "The window is too small. Make it larger, or press q to stop.",
    "The window is too small; q stops.",
    "too small",
    "small",
)


@dataclass(frozen=True)
class Layout:
    """A sheet at the size of a screen. It has no pages where the screen is too small for it."""

    size: tuple[int, int]  # columns and lines
    head: Lines
    pages: list[Lines]  # the body, cut where the screen ends
    under: Lines
    foot: Lines  # above the keys; a message takes its place


class Screen:
    """The face of a terminal that can move its cursor."""

    stays = False

    def __init__(self, console: Console, keyboard: Keyboard) -> None:
        self.console, self.keyboard = console, keyboard
        self.keyboard.leave, self.keyboard.enter = self._leave, self._enter
        self.keyboard.__enter__()
        self._enter()
        self.closed = False

    def close(self) -> None:
        """Leaves the terminal as it was."""
        if not self.closed:
            self.closed = True
            with contextlib.suppress(OSError, termios.error):  # the terminal may be gone
                self._leave()
                self.keyboard.__exit__()

    def _enter(self) -> None:
        """On to the screen that is drawn on."""
        self.console.set_alt_screen(True)
        self.console.show_cursor(False)

    def _leave(self) -> None:
        """Back to what stood in the terminal before."""
        self.console.show_cursor(True)
        self.console.set_alt_screen(False)

    def wait(self, text: str) -> None:
        """Says in the last line that something takes a while."""
        _, height = self.console.size
        self.console.control(Control.move_to(0, height - 1))
        self.console.print(Text(text, style="dim", no_wrap=True), end="", overflow="ellipsis")

    def put(self, sheet: Sheet) -> str:
        """Shows a sheet, page by page where it doesn't fit, and waits for one of its keys.

        A key counts for what is drawn when it comes. On a screen that is too small for the sheet
        none but q counts.
        """
        page, seen, message = 0, set[int](), ""
        shown = time.monotonic()
        layout = self._layout(sheet)
        while True:
            if layout.size != self.console.size:
                layout, seen = self._layout(sheet), set()
            count = len(layout.pages)
            page = min(page, max(count - 1, 0))
            seen.add(page)
            self._draw(sheet, layout, page, message)
            key, message = self.keyboard.read_after(shown), ""
            if key == ENDED or (not count and key == "q"):
                return "q"
            if key == RESIZED:
                seen = set()
            elif count and key in " \t" and (count > 1 or "" not in dict(sheet.keys)):
                page = (page + 1) % count
            elif count:
                taken, message = self._taken(sheet, key, len(seen) >= count)
                if taken is not None:
                    return taken

    def _taken(self, sheet: Sheet, key: str, all_seen: bool) -> tuple[str | None, str]:
        """The key of the sheet that was pressed, or None and why it isn't taken."""
        keys = dict(sheet.keys)
        if "" in keys:
            return "", ""
        key = key if key in keys else key.lower()
        if key not in keys:
            return None, f"{key if key.isprintable() else 'that'} isn't one of the keys"
        if key in sheet.whole and not all_seen:
            return None, "look at all first: space shows more"
        return key, ""

    # ---- drawing

    def _draw(self, sheet: Sheet, layout: Layout, page: int, message: str) -> None:
        """One page of a sheet, over whatever the screen shows; a message stands in the place of the
        foot."""
        width, height = layout.size
        if not layout.pages:
            self._print(self._too_small(height), width, height)
            return
        lines = layout.head + layout.pages[page]
        said = self._text(message, "bold")[: len(layout.foot)] if message else layout.foot
        blank: Lines = [[] for _ in layout.foot[len(said) :]]
        foot = blank + said + self._text(self._keys(sheet, page, len(layout.pages)), "reverse")
        spare = height - len(lines) - len(layout.under) - len(foot)
        above: Lines = [[]] if spare > 1 and layout.under else []
        lines = lines + above + layout.under
        self._print(
            lines + [[] for _ in range(height - len(lines) - len(foot))] + foot, width, height
        )

    def _print(self, lines: Lines, width: int, height: int) -> None:
        """Exactly so many lines of this width."""
        shaped = Segment.set_shape(lines[:height], width, height)
        with self.console:
            self.console.control(Control.home())
            self.console.print(SegmentLines(shaped[:-1], new_lines=True), end="")
            self.console.print(SegmentLines(shaped[-1:]), end="")

    def _too_small(self, height: int) -> Lines:
        """That the window is too small, in as many words as it has room for."""
        said = [self._text(text, "bold") for text in TOO_SMALL]
        return next((lines for lines in said if len(lines) <= height), said[-1])

    def _layout(self, sheet: Sheet) -> Layout:
        """A sheet at the size of the screen. What stands around the body gives way where it has no
        room: the foot first, then what marks mean, then what happened. The last text below the
        body, which says what is asked, and the head stay.
        """
        head, under = self._text(sheet.head, "bold"), [
            self._text(text) for text in (*filter(None, [sheet.legend]), *sheet.under)
        ]
        foot = [line for text in sheet.foot for line in self._text(text)]
        least: Lines = [] if "" in dict(sheet.keys) else [[]]  # a message has a line
        for first, below in [(foot or least, 0)] + [
            (least, gone) for gone in range(max(1, len(under)))
        ]:
            made = Layout(
                self.console.size,
                head,
                [],
                [line for lines in under[below:] for line in lines],
                first,
            )
            cut = self._pages(sheet, made)
            if cut:
                return replace(made, pages=cut)
        return Layout(self.console.size, [], [], [], [])

    def _pages(self, sheet: Sheet, around: Layout) -> list[Lines]:
        """The body of a sheet, cut where the screen ends; a picture is cut only where it is higher
        than the screen. No pages where the whole isn't one and they would have less than the least
        room."""
        width, height = around.size
        rest = height - len(around.head) - len(around.under) - len(around.foot)
        count = 1
        while True:  # what is said of further pages takes room itself
            room = rest - len(self._text(self._keys(sheet, count - 1, count)))
            if room < (LEAST_BODY if count > 1 else 1):
                return []
            cut = self._cut(sheet, width, room)
            if len(cut) <= count:
                return cut
            count = len(cut)

    def _cut(self, sheet: Sheet, width: int, room: int) -> list[Lines]:
        """The body of a sheet on pages of so many lines."""
        cut: list[Lines] = [[]]
        for block in sheet.blocks:
            for unit in self._units(block, width, room, len(cut[-1])):
                if cut[-1] and len(cut[-1]) + len(unit) > room:
                    cut.append([])
                cut[-1] = cut[-1] + unit
        return cut

    def _units(self, block: Block, width: int, room: int, used: int) -> Iterator[Lines]:
        """What isn't cut any further: single lines of text, and pages of a picture, which begins on
        a page of which so many lines are used where it takes no more pages so."""
        if not isinstance(block, Picture):
            yield from ([line] for line in self._text(block))
            return
        anew = pages(self.console, block, width, room)
        here = (
            pages(self.console, block, width, room - used)
            if 0 < used <= room - LEAST_BODY
            else anew
        )
        yield from here if len(here) <= len(anew) else anew

    def _text(self, text: str, style: str = "") -> Lines:
        return self.console.render_lines(Text(text, style=style), self.console.options, pad=False)

    def _keys(self, sheet: Sheet, page: int, count: int) -> str:
        """What the keys do, shortly where the line is short."""
        more = f"space more ({page + 1} of {count})" if count > 1 else ""
        if "" in dict(sheet.keys):
            return "  ".join(
                filter(None, [more, "any other key goes on" if more else "any key goes on"])
            )
        words = keys_text(sheet.keys) + [more] * bool(more)
        for between in ("   ", "  ", " "):
            if len(between.join(words)) <= self.console.width:
                return between.join(words)
        return "  ".join(keys_text(sheet.keys, 2) + [f"space {page + 1}/{count}"] * bool(more))


def opened() -> Screen:
    """The screen of the terminal that is there, which is drawn in ASCII where the locale has no
    more."""
    plain = not locale.nl_langinfo(locale.CODESET).upper().replace("-", "").startswith("UTF8")
    console = (AsciiConsole if plain else Console)(highlight=False, markup=False, emoji=False)
    return Screen(console, Keyboard(sys.stdin.fileno()))


class AsciiConsole(Console):
    """A console that draws lines in ASCII. Names are printed as they are all the same."""

    @property
    def encoding(self) -> str:
        """What can be drawn."""
        return "ascii"
