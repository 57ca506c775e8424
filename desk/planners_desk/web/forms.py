"""The fields of a form and the text of a case, each made from the other.

A text is read line by line, whatever faults it has: what no field has room for is kept as a line of
its own, so that nothing of a text is lost. A form is written into the text that was there before:
lines whose fields haven't changed stay as they stand, with their comments and in their order.
"""

from __future__ import annotations

import difflib
import re
from collections.abc import Iterable, Sequence
from dataclasses import dataclass

from ..case import letters, names
from ..case.model import Fault

MOST_MATCHED = 1000  # rows: with more, each is written anew
WIDE = 100  # columns of a line, up to which pieces are added to it

# the fields in the order in which a new text has them, each with the key of its lines
KEY_OF = {
    "title": "title",
    "things": "things",
    "own": "thing",
    "values": "values",
    "only": "only",
    "ask": "ask",
    "words": "words",
    "always": "always",
    "known": "known",
    "notes": "note",
    "plan": "plan",
}
FIELD_OF = {key: name for name, key in KEY_OF.items()}
ORDER = tuple(KEY_OF)
OTHER = "other"  # the field of lines that no other field has room for
ONCE = ("title", "plan")
NAMED = ("own", "only")  # whose key has a name behind it
PIECES = ("ask", "words", "always", "known")  # what stands between two commas is one of several
ON_A_LINE = ("ask", "words")  # of which several are written on one line
MOST_SIDES = 4  # of a grid


@dataclass(frozen=True)
class Row:
    """A name and what is said of it: a side of a grid and its members, `only Mon: Ann`."""

    name: str
    text: str


@dataclass(frozen=True)
class Listed:
    """Names as a list, or as the sides of a grid."""

    text: str = ""  # of a list, as its line has it
    sides: tuple[Row, ...] = ()  # of a grid; () where it is a list


@dataclass(frozen=True)
class Form:
    """What the fields hold."""

    title: str = ""
    things: Listed = Listed()
    own: tuple[Row, ...] = ()  # things with values of their own
    values: Listed = Listed()
    only: tuple[Row, ...] = ()
    ask: tuple[str, ...] = ()
    words: tuple[str, ...] = ()
    always: tuple[str, ...] = ()
    known: tuple[str, ...] = ()
    notes: tuple[str, ...] = ()
    plan: str = ""
    other: tuple[str, ...] = ()  # lines that no field has room for, as they stand


@dataclass(frozen=True)
class Line:
    """A line of a text."""

    raw: str  # as it stands
    field: str = ""  # that it says something of; "" where it says nothing
    name: str = ""  # that its key is about
    text: str = ""  # behind its key; the whole line where it is of no field
    comment: str = ""

    @property
    def row(self) -> Row:
        """What it says."""
        return Row(self.name, self.text)

    @property
    def pieces(self) -> tuple[str, ...]:
        """What stands between its commas."""
        return pieces_of(self.text)


def plain(text: str) -> str:
    """The text with one blank where several are, and none around it."""
    return " ".join(letters.composed(text).split())


def pieces_of(text: str) -> tuple[str, ...]:
    """What stands between the commas of a text."""
    return tuple(filter(None, map(plain, text.split(","))))


# ---------------------------------------------------------------- from a text to fields


def read(text: str) -> Form:
    """The fields of a text, whatever faults it has."""
    return _form_of(lines_of(text))


def lines_of(text: str) -> list[Line]:
    """The lines of a text with the fields that they belong to."""
    found: list[Line] = []
    for raw in letters.lines_of(text):
        line = _line(raw)
        found.append(line if _has_room(line, found) else Line(raw, OTHER, text=raw.strip()))
    if not found[-1].raw:  # behind the end of the last line
        found.pop()
    return found


def _line(raw: str) -> Line:
    """A line by itself."""
    comment = re.search(r"(^|\s)#.*", raw)
    said = letters.composed(raw[: comment.start()] if comment else raw).strip()
    told = comment[0].strip() if comment else ""
    if not said:
        return Line(raw, comment=told)
    head, colon, rest = said.partition(":")
    key, *name = head.split() or [""]
    field = FIELD_OF.get(key, "") if colon else ""
    if not field or (field in NAMED) != bool(name):
        return Line(raw, OTHER, text=raw.strip())
    return Line(raw, field, " ".join(name), plain(rest), told)


def _has_room(line: Line, before: Sequence[Line]) -> bool:
    """Whether the form has room for a line beside those that stand above it: a title stands once,
    and a grid alone."""
    if line.field not in (*ONCE, "things", "values"):
        return True
    same = [one for one in before if one.field == line.field]
    if line.field in ONCE:
        return bool(line.text) and not same
    return not (same and any(names.sides(one.text) for one in (*same, line)))


def _form_of(lines: Sequence[Line]) -> Form:
    """What lines say."""
    of: dict[str, list[Line]] = {name: [] for name in (*ORDER, OTHER)}
    for line in lines:
        if line.field and (line.text or line.name):
            of[line.field].append(line)
    several = {
        name: tuple(dict.fromkeys(piece for line in of[name] for piece in line.pieces))
        for name in PIECES
    }
    return Form(
        title="".join(line.text for line in of["title"]),
        things=_listed([line.text for line in of["things"]]),
        own=tuple(line.row for line in of["own"]),
        values=_listed([line.text for line in of["values"]]),
        only=tuple(line.row for line in of["only"]),
        **several,
        notes=tuple(line.text for line in of["notes"]),
        plan="".join(line.text for line in of["plan"]),
        other=tuple(line.text for line in of[OTHER]),
    )


def _listed(texts: Sequence[str]) -> Listed:
    """The names of some lines; those of several are one list."""
    if len(texts) == 1:
        sides = names.sides(texts[0])
        if sides:
            return Listed(sides=tuple(Row(name, members) for name, members in sides))
        return Listed(texts[0])
    return Listed(", ".join(name for text in texts for name in names_of(text)))


def names_of(text: str) -> list[str]:
    """The names of a list; the text itself where it has a fault."""
    try:
        return names.listed(text)
    except Fault:
        return [text]


# ---------------------------------------------------------------- from fields to a text


def written(form: Form, before: str = "") -> str:
    """The text of a form, which keeps what it can of the text before it."""
    lines = lines_of(before)
    old = _form_of(lines)
    if form == old:
        return before
    for name in (*ORDER, OTHER):
        now = getattr(form, name)
        if now == getattr(old, name):
            continue
        if name in PIECES:
            lines = _with_pieces(lines, name, now)
        else:
            lines = _with_rows(lines, name, _rows(now))
    end = "\r\n" if "\r\n" in before else "\n"
    return "".join(line.raw + end for line in lines)


def _rows(now: str | Listed | tuple[Row | str, ...]) -> list[Row]:
    """What the lines of a field are to say."""
    if isinstance(now, tuple):
        return [one if isinstance(one, Row) else Row("", one) for one in now]
    text = text_of(now) if isinstance(now, Listed) else now
    return [Row("", text)] if text else []


def text_of(listed: Listed) -> str:
    """Names as a line has them."""
    if listed.sides:
        return " x ".join(f"{side.name} {side.text}" for side in listed.sides)
    return listed.text


def _with_rows(lines: list[Line], name: str, rows: Sequence[Row]) -> list[Line]:
    """The lines, with these rows in place of those of a field. What stays the same stays where it
    is, and what is changed stands where it stood."""
    at = [place for place, line in enumerate(lines) if line.field == name]
    if not at:
        return _inserted(lines, name, [_made(name, row) for row in rows])
    instead = {place: [lines[place]] for place in at}
    front: list[Line] = []
    have = [lines[place].row for place in at]
    for tag, first, last, begin, end in _steps(have, rows):
        new = [_made(name, row) for row in rows[begin:end]] if tag != "equal" else []
        for place in at[first:last] if tag != "equal" else ():
            comment = lines[place].comment
            instead[place] = [_made(name, new.pop(0).row, comment)] if new else _comment(comment)
        if new:
            (instead[at[last - 1]] if last else front).extend(new)
    return [
        one
        for place, line in enumerate(lines)
        for one in (*(front if place == at[0] else ()), *instead.get(place, [line]))
    ]


def _steps(have: Sequence[Row], rows: Sequence[Row]) -> list[tuple[str, int, int, int, int]]:
    """Which rows stay, and which are put in place of which, as difflib says it."""
    if max(len(have), len(rows)) > MOST_MATCHED:
        return [("replace", 0, len(have), 0, len(rows))]
    matcher = difflib.SequenceMatcher(None, have, rows, False)
    return [(tag, i, j, m, n) for tag, i, j, m, n in matcher.get_opcodes()]


def _with_pieces(lines: list[Line], name: str, pieces: Sequence[str]) -> list[Line]:
    """The lines, with these pieces as those of a field: the old ones among them stay where they
    stand, and new ones come behind."""
    new, wanted = list(pieces), set(pieces)
    kept: list[Line] = []
    for line in lines:
        if line.field != name:
            kept.append(line)
            continue
        left = dict.fromkeys(piece for piece in line.pieces if piece in wanted)
        new = [piece for piece in new if piece not in left]
        if left and wanted.issuperset(line.pieces):
            kept.append(line)
        else:
            kept += (
                [_made(name, Row("", ", ".join(left)), line.comment)]
                if left
                else _comment(line.comment)
            )
    last = max((place for place, line in enumerate(kept) if line.field == name), default=None)
    if last is None:
        return _inserted(kept, name, list(_of_pieces(name, "", new)))
    line = kept[last]
    if line.comment or name not in ON_A_LINE:
        return [*kept[: last + 1], *_of_pieces(name, "", new), *kept[last + 1 :]]
    return [*kept[:last], *(_of_pieces(name, line.text, new) if new else [line]), *kept[last + 1 :]]


def _of_pieces(name: str, text: str, pieces: Iterable[str]) -> Iterable[Line]:
    """Lines with pieces, the first behind a text; no wider than it takes."""
    for piece in pieces:
        longer = f"{text}, {piece}" if text else piece
        if text and (name not in ON_A_LINE or len(KEY_OF[name]) + 2 + len(longer) > WIDE):
            yield _made(name, Row("", text))
            longer = piece
        text = longer
    if text:
        yield _made(name, Row("", text))


def _made(name: str, row: Row, comment: str = "") -> Line:
    """A line that says this."""
    behind = f"  {comment}" if comment else ""
    if name == OTHER:
        return Line(row.text, OTHER, text=row.text)
    head = f"{KEY_OF[name]} {row.name}" if name in NAMED else KEY_OF[name]
    return Line(f"{head}: {row.text}{behind}", name, row.name, row.text, comment)


def _comment(comment: str) -> list[Line]:
    """A comment whose line is gone."""
    return [Line(comment, comment=comment)] if comment else []


def _inserted(lines: list[Line], name: str, new: list[Line]) -> list[Line]:
    """The lines with new ones of a field that had none, where a new text would have them."""
    rank = len(ORDER) if name == OTHER else ORDER.index(name)
    before = [place for place, line in enumerate(lines) if line.field in ORDER[:rank]]
    behind = [place for place, line in enumerate(lines) if line.field]
    at = before[-1] + 1 if before else behind[0] if behind and name != OTHER else len(lines)
    return [*lines[:at], *new, *lines[at:]]
