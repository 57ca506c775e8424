"""How questions look, without a terminal: random cases at random sizes, pages, marks, keys and what they do.

A picture is drawn at every width from 40 columns on, and each of its cells has to stand there, whatever it takes: a table, the
table turned, a list in columns, further pages.
"""

from __future__ import annotations

import io
import random
import re
import types

import hands        # desk's folder is on the path now
from planners_desk.case import casefile
from planners_desk.faces import drawing
from planners_desk.faces import face
from planners_desk.faces import questions
from planners_desk.sitting import asking
from planners_desk.case import model
from planners_desk.case import picture
from planners_desk.faces import plain
from planners_desk.faces import screen
from rich.cells import cell_len
from rich.console import Console

DRAWN = 40
NAMES = ("Ann", "Bär", "Çelik", "Łukasz Nowak", "李小龍", "Ōno", "a-very-long-name-for-one-cell-of-a-table", "[bold]x[/bold]", "&lt;", "Zoë",
         "x", "🚲")

PLANTED = [
    # a cell is dropped where a list stands in
    ("faces/drawing.py",
     "in_columns(entries[at : at + a_page], columns, wide)",
     "in_columns(entries[at : at + a_page - 1], columns, wide)"),
    # a table that is too wide isn't turned or listed, but cut off
    ("faces/drawing.py", "first + sum(widths) + 3 * len(widths) + 4", "first + sum(widths)"),
    # what has stayed is marked, and what has changed isn't
    ("sitting/asking.py", "if before.values.get(thing) != value", "if before.values.get(thing) == value"),
    # a window that is too small for a page takes answers
    ("faces/screen.py", "            if room < (LEAST_BODY if count > 1 else 1):\n                return []\n", ""),
    ("faces/screen.py", "            elif count:\n                taken", "            else:\n                taken"),
    # what stands around a page never gives way, or the last line, which says what is asked, does
    ("faces/screen.py",
     "for first, below in [(foot or least, 0)] + [\n"
     "            (least, gone) for gone in range(max(1, len(under)))\n"
     "        ]:",
     "for first, below in [(foot or least, 0)] + [(least, gone) for gone in range(1)]:"),
    ("faces/screen.py",
     "(least, gone) for gone in range(max(1, len(under)))",
     "(least, gone) for gone in range(1 + len(under))"),
    # a message takes room of its own, so that what was looked at isn't what is counted
    ("faces/screen.py",
     'said = self._text(message, "bold")[: len(layout.foot)] if message else layout.foot',
     'said = self._text(message, "bold") + layout.foot if message else layout.foot'),
    # after another size of the window the old pages count
    ("faces/screen.py", "                layout, seen = self._layout(sheet), set()\n", "                layout = self._layout(sheet)\n"),
    ("faces/screen.py", "            page = min(page, max(count - 1, 0))\n", ""),
    # of keys that do one thing only the last is named
    ("faces/face.py", "said.setdefault(does, []).append(key)", "said[does] = [key]"),
]


def run(program: str) -> list[str]:
    """The faults that were found."""
    faults: list[str] = []
    draw = random.Random(11)
    looked = 0
    for turn in range(DRAWN):
        case = drawn_case(draw)
        values = drawn_values(draw, case)
        marks = {thing.place: draw.choice((picture.CHANGED, picture.CLASH, picture.LEFT_OUT)) for thing in case.things if draw.random() < 0.3}
        marks = {thing: mark for thing, mark in marks.items() if (thing in values) != (mark == picture.LEFT_OUT)}
        it = picture.Picture(case, values, marks)
        for width in (40, 41, 47, 60, 80, 132, 200):
            for height in (3, 6, 12, 40, None):
                looked += 1
                faults += [f"screens: case {turn} at {width}x{height}: {fault}" for fault in lost(it, width, height)]
    for row in (whole_screens, every_window, changes, notes, lines_of_plan, markup_is_text, keys_together, figures_fit):
        faults += [f"screens: {row.__name__}: {fault}" for fault in row()]
    print(f"screens: {looked} pictures of {DRAWN} drawn cases")
    return faults[:20]


def drawn_case(draw: random.Random) -> model.Case:
    """A case with a list or a grid of things or values."""
    kind = draw.choice(("list", "things", "values", "both", "cube"))
    def part(count: int, what: str) -> model.Part:
        some = draw.sample(NAMES, min(count, len(NAMES)))
        return model.Part(what, tuple(some))
    def product(parts: tuple[model.Part, ...]) -> list[tuple[str, tuple[int, ...]]]:
        found: list[tuple[str, tuple[int, ...]]] = [("", ())]
        for one in parts:
            found = [(f"{name} {member}".strip(), (*at, place)) for name, at in found for place, member in enumerate(one.members)]
        return found
    thing_parts = {"things": (part(7, "day"), part(3, "shift")), "both": (part(4, "day"), part(2, "shift")),
                   "cube": (part(4, "day"), part(3, "shift"), part(2, "ward"))}.get(kind, ())
    value_parts = (part(5, "day"), part(4, "hour")) if kind in ("values", "both") else ()
    values = tuple(name for name, _ in product(value_parts)) if value_parts else tuple(draw.sample(NAMES, draw.randint(2, 6)))
    every = tuple(range(len(values)))
    listed = [(f"{name} {k}", ()) for k in range(draw.randint(1, 3)) for name in draw.sample(NAMES, draw.randint(1, 9))]
    named = product(thing_parts) if thing_parts else listed
    things = tuple(model.Thing(place, name, at, every) for place, (name, at) in enumerate(dict(named).items()))
    return model.Case("drawn", "", "Drawn", things, thing_parts, values, value_parts, (), (), (), None)


def drawn_values(draw: random.Random, case: model.Case) -> model.Values:
    """Values of some things or of all."""
    share = draw.choice((0.1, 0.5, 1.0))
    some = [thing.place for thing in case.things if draw.random() < share] or [0]
    return {thing: draw.randrange(len(case.values)) for thing in some}


def console(width: int, height: int = 24) -> Console:
    """A console that writes to nowhere."""
    return Console(width=width, height=height, file=io.StringIO(), force_terminal=True, color_system=None, legacy_windows=False)


def text_of(page: drawing.Lines) -> list[str]:
    """The lines of a page without colours."""
    return ["".join(part.text for part in line) for line in page]


def lost(it: picture.Picture, width: int, height: int | None) -> list[str]:
    """What is wrong with a picture at this size: a line too wide, a page too high, a cell that isn't there."""
    pages = [text_of(page) for page in drawing.pages(console(width), it, width, height)]
    found = [f"a line is wider: {line!r}" for page in pages for line in page if cell_len(line) > width]
    if height is not None and any(len(page) > height for page in pages):
        found.append(f"a page has {max(map(len, pages))} lines")
    whole = "\n".join(line for page in pages for line in page)
    flat = re.sub(r"\s+", "", whole)
    letter = {picture.CHANGED: "*", picture.CLASH: "!"}
    grid = picture.shape(it.case) == "values" and "─" in whole
    for thing, value in it.values.items():
        mark = letter.get(it.marks.get(thing, ""), "")
        name, label = it.case.things[thing].name, it.case.values[value]
        wanted = name + mark if grid else label + mark
        if re.sub(r"\s+", "", wanted) not in flat:
            found.append(f"{name} {label} isn't there")
        elif "─" in whole and not cell_at(whole, it, thing, wanted, grid):
            found.append(f"{wanted} doesn't stand at {label if grid else name}")
    if "─" not in whole:
        said = [f"{it.case.things[t].name}{it.case.values[v]}{letter.get(it.marks.get(t, ''), '')}" for t, v in sorted(it.values.items())]
        entries = re.sub(r"\s+", "", "".join(said))
        if len(flat) != len(entries) or sorted(flat) != sorted(entries):
            found.append("the list isn't exactly its entries")
    return found


def cell_at(whole: str, it: picture.Picture, thing: int, wanted: str, grid: bool) -> bool:
    """Whether a cell of the table stands below and beside the right heads."""
    rows = [[cell.strip() for cell in line.strip().strip("│").split("│")] for line in whole.split("\n") if "│" in line]
    place = it.case.values[it.values[thing]] if grid else it.case.things[thing].name
    row = ""
    for cells in rows[1:]:
        row = cells[0] or row
        for head, cell in zip(rows[0][1:], cells[1:]):
            if cell == wanted and place in (f"{head} {row}", f"{row} {head}"):
                return True
    return False


def whole_screens() -> list[str]:
    """A whole screen has exactly its lines at each size, and its pages together hold all that it shows."""
    found = []
    case = casefile.parse(hands.WARD, "ward.case")
    values = {thing.place: thing.place % 5 for thing in case.things}
    blocks = ("Some words before the picture, which may take a line or two.", picture.Picture(case, values))
    sheet = face.Sheet("Ward: question 3", blocks, "a legend", ("Judge it.",), ("settled 3 of 9",), (("y", "yes"), ("n", "no"), ("q", "stop")))
    for width, height in ((200, 50), (80, 24), (60, 20), (40, 12), (40, 10)):
        it = screen.Screen.__new__(screen.Screen)
        it.console = console(width, height)
        layout = it._layout(sheet)
        pages = layout.pages
        text = "\n".join("\n".join(text_of(page)) for page in pages)
        for page in range(len(pages)):
            it.console.file = io.StringIO()
            it._draw(sheet, layout, page, "")
            drawn = it.console.file.getvalue().removeprefix("\x1b[H").split("\n")
            if len(drawn) != height or any(cell_len(re.sub(r"\x1b\[[0-9;?]*[A-Za-z]", "", line)) != width for line in drawn):
                found.append(f"{width}x{height}: {len(drawn)} lines")
            if "y yes" not in drawn[-1]:
                found.append(f"{width}x{height}: page {page} doesn't end with the keys")
            if "Judge it." not in "".join(drawn) or "settled 3 of 9" not in "".join(drawn):
                found.append(f"{width}x{height}: page {page} doesn't say what is asked")
        missing = [name for name in ("Mon early", "Sun night") if name not in text and not all(part in text for part in name.split())]
        if missing or sum(text.count(value) for value in case.values) != len(values):
            found.append(f"{width}x{height}: {missing}, {sum(text.count(value) for value in case.values)} values")
    return found


class Script:
    """A keyboard whose keys are written down."""

    def __init__(self, keys: str) -> None:
        self.keys: list[str | tuple[tuple[int, int], str]] = list(keys)     # a key, or a new size of the window and then a key
        self.leave = self.enter = self.screen = None

    def __enter__(self) -> Script:
        return self

    def __exit__(self, *_: object) -> None:
        """Nothing has to be put back."""

    def read_after(self, shown: float) -> str:
        """The next key, and a stop behind the last."""
        key = self.keys.pop(0) if self.keys else "q"
        if isinstance(key, tuple):
            (width, height), key = key
            self.screen.console = console(width, height)    # type: ignore[attr-defined]
        return key


class Shown(screen.Screen):
    """A screen that remembers what it has shown."""

    def __init__(self, width: int, height: int, keys: str) -> None:
        super().__init__(console(width, height), Script(keys))     # type: ignore[arg-type]
        self.frames: list[list[str]] = []

    def _print(self, lines: drawing.Lines, width: int, height: int) -> None:
        self.console.file = io.StringIO()
        super()._print(lines, width, height)
        self.frames.append(re.sub(r"\x1b\[[0-9;?]*[A-Za-z]", "", self.console.file.getvalue()).split("\n"))


SIZES = tuple((width, height) for width in (4, 9, 20, 33, 40, 60, 80) for height in (2, 3, 5, 6, 7, 8, 10, 12, 14, 18, 24))


def swept(sheet: face.Sheet, keys: str, width: int, height: int) -> tuple[str, Shown]:
    """Which key a sheet takes of some that are pressed, and what was shown meanwhile."""
    it = Shown(width, height, keys)
    return it.put(sheet), it


def every_window() -> list[str]:
    """At each size of a window, with wrong keys and turned pages: a screen has exactly its lines; a yes is taken where each cell
    was shown before, and nowhere else; a window that is too small says so, and takes nothing but q."""
    names = "abcdefghijklmnopqrstu"
    case = casefile.parse(f"title: Test\nthings: {' '.join(names)}\nvalues: {' '.join(names.upper())}\nask: all\nwords: same\n", "test.case")
    found = []
    for count in (1, 3, 21):
        values = {thing: thing for thing in range(count)}
        it = picture.Picture(case, values, {0: picture.CHANGED})
        sheet = face.Sheet("Test: question 1, a part of the one before", (it,), "* has changed", ("A note of some words.", "Judge it."), ("settled 1 of 9",),
                           (("y", "yes"), ("n", "no"), ("b", "back"), ("w", "why"), ("q", "stop")), frozenset("y"))
        for width, height in SIZES:
            for keys in ("y" + " y" * 9, "\x1b y y" + " y" * 9):
                key, shown = swept(sheet, keys, width, height)
                text = "\n".join("\n".join(frame) for frame in shown.frames)
                missing = [name for name in names[:count] if not re.search(rf"\b{name} +{name.upper()}\b", text)]
                small = "small" in re.sub(r"\s", "", text)
                whole = ["".join("".join(frame).split()) for frame in shown.frames]
                if any("small" not in text and not ("Judgeit." in text and "yyes" in text) for text in whole) and height * width > 8:
                    found.append(f"{count} cells at {width}x{height}: a screen doesn't say what is asked, or has no keys")
                if any(len(frame) != height or any(cell_len(line) != width for line in frame) for frame in shown.frames):
                    found.append(f"{count} cells at {width}x{height}: a screen hasn't its lines")
                if (key == "y") == bool(missing or small) or missing and not small:
                    found.append(f"{count} cells at {width}x{height}: {key!r} is taken, {missing} were never shown, too small: {small}")
        if swept(sheet, "n", 4, 2)[0] != "q" or swept(sheet, "n", 40, 12)[0] != "n":
            found.append(f"{count} cells: a no is taken at 4x2, or not at 40x12")
        if count < 4 and swept(sheet, "y", 40, 6)[0] != "y":
            found.append(f"{count} cells: what stands around them doesn't give way at 40x6")
    return found[:9] + pages_that_go() + other_sizes(case)


def other_sizes(case: model.Case) -> list[str]:
    """The window gets another size, and the key that comes next is the word for that or one of the person's: pages count from there on."""
    found = []
    sheet = face.Sheet("Test: question 1", (picture.Picture(case, {thing: thing for thing in range(21)}),), under=("Judge it.",),
                       keys=(("y", "yes"), ("q", "stop")), whole=frozenset("y"))
    for before, behind in (((20, 8), (33, 7)), ((33, 8), (80, 24)), ((33, 24), (33, 8)), ((60, 8), (33, 8)), ((33, 7), (60, 7))):
        for key in (screen.RESIZED, " ", "x"):
            it = Shown(*before, "")
            it.keyboard.keys = [" "] * 6 + [(behind, key), *"y " * 12]      # type: ignore[attr-defined]
            it.keyboard.screen = it     # type: ignore[attr-defined]
            try:
                taken = it.put(sheet)
            except IndexError as error:
                found.append(f"{before} to {behind}, then {key!r}: {error!r}")
                continue
            text = "\n".join("\n".join(frame) for frame in it.frames if len(frame) == behind[1] and cell_len(frame[0]) == behind[0])
            missing = [thing.name for thing in case.things if not re.search(rf"\b{thing.name} +{thing.name.upper()}\b", text)]
            if taken != "y" or missing:
                found.append(f"{before} to {behind}, then {key!r}: {taken!r} is taken, {missing} weren't shown since")
    return found


def pages_that_go() -> list[str]:
    """A wrong key whose message takes a line, and then space, on sheets around each number of lines that fills a window."""
    found = []
    for width, height in (size for size in SIZES if size[0] in (20, 60)):
        for lines in (1, *range(max(2, height - 8), height + 1)):
            sheet = face.Sheet("Your answers clash", tuple(f"line {k}" for k in range(lines)), keys=(("b", "back"), ("a", "go back to it"), ("q", "stop")))
            for keys in ("y ", "y y ", "  y "):
                try:
                    swept(sheet, keys, width, height)
                except IndexError as error:
                    found.append(f"{lines} lines at {width}x{height}, {keys!r}: {error!r}")
    return found[:9]


def keys_together() -> list[str]:
    """At the bottom all keys stand, those that do one thing beside each other."""
    sheet = face.Sheet("Your answers clash", ("line",), keys=(("a", "go back to it"), ("c", "go back to it"), ("q", "stop")))
    bottom = swept(sheet, "a", 60, 12)[1].frames[0][-1]
    return [] if re.search(r"a c go back to it +q stop", bottom) else [f"at the bottom is {bottom!r}"]


def figures_fit() -> list[str]:
    """Figures that are too wide for a table are a list, whose lines break between words."""
    from planners_desk.commands import check
    lines = list(check.table([("way", "questions"), ("scopes", "more than 12 when the time was over")], 24))
    wanted = ["  scopes", "    questions: more than", "      12 when the time", "      was over"]
    return [] if lines == wanted else [f"{lines} and not {wanted}"]


def changes() -> list[str]:
    """The marks are what differs from the last question, and nothing else."""
    found = []
    for last, now, wanted in (
            (None, {0: 1}, {}),
            ({0: 1, 1: 1}, {0: 1, 1: 2}, {1: picture.CHANGED}),
            ({0: 1, 1: 1, 2: 1}, {0: 1, 1: 1}, {2: picture.LEFT_OUT}),
            ({0: 1}, {0: 1, 3: 2}, {3: picture.CHANGED}),
            ({0: 1, 1: 1}, {2: 1, 3: 1}, {}),
            ({0: 1, 1: 1}, {0: 1, 1: 1}, {})):
        got = asking.marks(now, None if last is None else model.Question(1, last))
        if got != wanted:
            found.append(f"from {last} to {now}: {got}")
    return found


def notes() -> list[str]:
    """A part of a plan has the note that only what is filled in counts; a whole one hasn't, and changes are explained."""
    case = casefile.parse(hands.WARD, "ward.case")
    class Still:
        """A session that is asked how far it is."""
        progress = "6 of 21 groups finished; at most 114 more questions"
    class Quiet:
        """What a sheet is made of."""
        possible = Still()
    Quiet.case = case       # type: ignore[attr-defined]
    def sheet(asked: model.Question) -> face.Sheet:
        """A question after the first one."""
        it = asking.Asking(Quiet(), types.SimpleNamespace(question=asked))    # type: ignore[arg-type]
        it.before = model.Question(1, {0: 0, 1: 0})
        return questions.sheet(it)
    part = sheet(model.Question(2, {0: 0, 1: 1}))
    whole = sheet(model.Question(3, {thing.place: 0 for thing in case.things}))
    found = []
    if part.under[-1] != "Judge what is filled in, don't think of the rest." or "*" not in part.legend:
        found.append(f"a part: {part}")
    if "don't think of the rest" in " ".join(whole.under):
        found.append("a whole plan has the note for a part")
    if part.foot != (Still.progress,) or part.whole != frozenset("y"):
        found.append(f"how far: {part.foot}")
    said = io.StringIO()
    plain.Lines(io.StringIO("y\n"), said).put(part)
    if "Mon early: Ann\nMon late: Ben (changed)\n" not in said.getvalue():
        found.append(f"plain lines: {said.getvalue()}")
    lines = plain.picture_lines(picture.Picture(case, {thing.place: thing.place % 5 for thing in case.things}, {1: picture.CLASH}))
    said.truncate(0)
    plain.Lines(io.StringIO("q\n"), said).put(whole)
    if lines != [f"{thing.name}: {case.values[thing.place % 5]}" + " (this breaks it)" * (thing.place == 1) for thing in case.things]:
        found.append(f"plain lines of a picture: {lines}")
    if said.getvalue().count(": Ann") != len(case.things):
        found.append(f"plain lines of a whole plan: {said.getvalue()}")
    return found


def lines_of_plan() -> list[str]:
    """A plan in plain text: no escape, no line too wide, all values."""
    case = casefile.parse(hands.SCHOOL, "school.case")
    values = {thing.place: thing.place * 2 for thing in case.things}
    found = []
    for width in (30, 40, 80):
        lines = drawing.plan_lines(case, values, width)
        shown = all(any(thing.name in line for line in lines) for thing in case.things)
        if not shown or any("\x1b" in line or cell_len(line) > width for line in lines):
            found.append(f"at {width}: {lines}")
    return found


def markup_is_text() -> list[str]:
    """Names that look like rich's markup are names."""
    case = model.Case("x", "", "[red]T[/red]", (model.Thing(0, "[bold]x[/bold]", (), (0,)),), (), (":smile:",), (), (), (), (), None)
    text = "\n".join(drawing.plan_lines(case, {0: 0}, 80))
    return [] if "[bold]x[/bold]" in text and ":smile:" in text else [text]
