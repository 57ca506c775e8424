"""The faults of a case, each at the field of the form and at the line of the text where it is."""

from __future__ import annotations

import dataclasses
import re
from collections.abc import Iterator, Sequence
from dataclasses import dataclass

from ..case import casefile
from ..case.model import Case, Fault
from ..program.vocabulary import Vocabulary
from . import forms
from .forms import OTHER, PIECES, Form, Line, Row

WHOLE = "case"  # the field of a fault that no other field has
MOST_LOOKS = 100  # at a piece by itself, to find the one that has the fault

# what the reader says that is of no one line: the field that it is about, and what is said there;
# "" where that is the same
MISSING = (
    (r"there are no things", "things", "nothing is named yet that gets a value"),
    (r"there are no values|`.*` has no values", "values", "no values are named yet"),
    (r"there are no words", "words", "no word is ticked yet"),
    (r"nothing is asked about", "ask", "nothing is ticked yet: which of them go together?"),
    (r"things with values of their own", "own", ""),
    (r"there are \d+ values in all", "values", ""),
)
# what is said of a case that the program can't take, and the field by which that is mended
TOO_MUCH = (
    (r"`.*` puts \d+ things? together, and no word", "ask"),
    (r"\d+ groups are asked about", "ask"),
    (r"the (\d+ )?words combine to|`.*` speaks of", "words"),
    (r"groups of \d+ things take", "values"),
)


@dataclass(frozen=True)
class At:
    """A fault where it is."""

    field: str
    place: int | None  # among what the field has several of
    line: int  # of the text, from 1; 0 where no line has it
    text: str
    missing: bool = False  # whether it is only that nothing is filled in yet
    builder: str = ""  # fields of which only some are filled in, by their name


@dataclass(frozen=True)
class Judged:
    """A text, as far as it is a case."""

    text: str
    form: Form
    case: Case | None = None
    words: Vocabulary | None = None  # None also where the program can't take the case
    faults: tuple[At, ...] = ()

    def of(self, field: str, place: int | None = None) -> list[At]:
        """The faults at a field, or at one of what it has several of."""
        return [one for one in self.faults if one.field == field and place in (None, one.place)]


def judged(text: str, name: str) -> Judged:
    """What a text comes to, under the name of its file."""
    form = forms.read(text)
    try:
        case = casefile.parse(text, name)
    except Fault as fault:
        found = list(_placed(text, name, form, fault.texts))
        return Judged(text, form, faults=(*found, *_behind(text, name, form, found)))
    try:
        return Judged(text, form, case, Vocabulary(case))
    except Fault as fault:
        told = fault.texts[0].removeprefix(f"{name}: ")
        field, place = _of_words(text, name, form, told)
        return Judged(text, form, case, faults=(At(field, place, 0, told),))


def _behind(text: str, name: str, form: Form, found: Sequence[At]) -> Iterator[At]:
    """The faults that the reader doesn't come to, since lines stand there that it doesn't know."""
    if any(one.field != OTHER for one in found):
        return
    bare = "\n".join("" if line.field == OTHER else line.raw for line in forms.lines_of(text))
    try:
        casefile.parse(bare, name)
    except Fault as fault:
        yield from _placed(bare, name, form, fault.texts)


def unwritable(form: Form) -> list[At]:
    """The faults of fields whose text would say something else: they can't be written."""
    found = [
        *_of_sides("things", form.things.sides),
        *_of_sides("values", form.values.sides),
        *_of_rows("own", form.own),
        *_of_rows("only", form.only),
    ]
    if found:
        return found
    alone = dataclasses.replace(form, other=())  # among those a field may have room for some now
    back = forms.read(forms.written(alone))
    for field in dataclasses.fields(Form):
        one, other = getattr(alone, field.name), getattr(back, field.name)
        if one == other or field.name == OTHER:
            continue
        place = _first_other(one, other) if isinstance(one, tuple) else None
        found.append(At(field.name, place, 0, _not_read(one if place is None else one[place])))
    return found


def _of_sides(field: str, sides: Sequence[Row]) -> Iterator[At]:
    """What is wrong with the sides of a grid."""
    if len(sides) == 1:
        yield At(field, None, 0, "a grid has two sides or more; with one it is a list")
    for place, side in enumerate(sides):
        if not side.name:
            yield At(field, place, 0, f"a side has no name: what are {side.text}?")
        elif not side.text:
            yield At(field, place, 0, f"the side `{side.name}` has no members")
        elif " " in side.name:
            yield At(field, place, 0, f"the name of a side is one word, and `{side.name}` is more")


def _of_rows(field: str, rows: Sequence[Row]) -> Iterator[At]:
    """What is wrong with the names of lines about one."""
    for place, row in enumerate(rows):
        if not row.name:
            yield At(field, place, 0, f"a name is missing: whose values are {row.text}?")
        elif ":" in row.name:
            yield At(field, place, 0, f"`{row.name}`: a name in this place has no `:`")


def _first_other(one: Sequence[object], other: Sequence[object]) -> int:
    """The first place at which two sequences differ, of those that the first has."""
    pairs = (place for place, (a, b) in enumerate(zip(one, other)) if a != b)
    return min(next(pairs, len(other)), len(one) - 1)


def _not_read(one: object) -> str:
    """Why something would be read as something else."""
    if isinstance(one, forms.Listed):
        text = forms.text_of(one)
    else:
        text = f"{one.name} {one.text}" if isinstance(one, Row) else str(one)
    if re.search(r"(^|\s)#", text):
        return "a `#` behind a blank begins a comment: leave it out, or take the blank away"
    return f"`{text}` can't be written so: the text of the case would say something else"


# ---------------------------------------------------------------- from lines to fields


def _placed(text: str, name: str, form: Form, told: Sequence[str]) -> Iterator[At]:
    """The faults of the reader at their fields."""
    lines = forms.lines_of(text)
    looks = MOST_LOOKS
    for one in told:
        found = re.fullmatch(r":(\d+): (.*)|: (.*)", one.removeprefix(name), re.DOTALL)
        if found is None or found[1] is None:
            yield _missing(found[3] if found else one)
            continue
        number = int(found[1])
        line = lines[number - 1]
        pieces = line.pieces if line.field in PIECES else ()
        piece = pieces[0] if pieces else ""
        if 1 < len(pieces) <= looks:
            looks -= len(pieces)
            piece = _guilty(text, name, number, line, found[2])
        yield At(line.field or WHOLE, _place(form, lines, number - 1, piece), number, found[2])


def _missing(told: str) -> At:
    """A fault that no line has."""
    found = ((field, said) for pattern, field, said in MISSING if re.match(pattern, told))
    field, said = next(found, (WHOLE, told))
    return At(field, None, 0, said or told, bool(said))


def _place(form: Form, lines: Sequence[Line], at: int, piece: str) -> int | None:
    """Which of what a field has several of a line or its piece is."""
    field = lines[at].field
    if field in PIECES:
        some: tuple[str, ...] = getattr(form, field)
        return some.index(piece) if piece in some else None
    if field in ("own", "only", "notes", OTHER):
        return sum(one.field == field for one in lines[:at])
    return None


def _guilty(text: str, name: str, number: int, line: Line, told: str) -> str:
    """The piece of a line that has a fault when it stands there alone."""
    raw = text.splitlines(keepends=False) if "\r" not in text else re.split("\r\n|\n|\r", text)
    for piece in line.pieces:
        raw[number - 1] = f"{forms.KEY_OF[line.field]}: {piece}"
        try:
            casefile.parse("\n".join(raw), name)
        except Fault as fault:
            if f"{name}:{number}: {told}" in fault.texts:
                return piece
    return line.pieces[0]


def _of_words(text: str, name: str, form: Form, told: str) -> tuple[str, int | None]:
    """The field of what is said of a case that the program can't take."""
    if told.startswith("always: "):
        return "always", _guilty_always(text, name, form, told)
    field = next((field for pattern, field in TOO_MUCH if re.match(pattern, told)), WHOLE)
    named = re.match(r"`(.*?)` (?:puts|speaks)", told)
    some = getattr(form, field) if field in PIECES else ()
    return field, some.index(named[1]) if named and named[1] in some else None


def _guilty_always(text: str, name: str, form: Form, told: str) -> int | None:
    """The rule said beforehand that can't be learned: the one of which that is said when no other
    is there."""
    for place, piece in enumerate(form.always[:MOST_LOOKS]):
        alone = forms.written(dataclasses.replace(form, always=(piece,)), text)
        try:
            Vocabulary(casefile.parse(alone, name))
        except Fault as fault:
            if f"{name}: {told}" in fault.texts:
                return place
    return None
