"""What a browser sends of the form of a case, as the form's fields."""

from __future__ import annotations

import re
from collections.abc import Iterable, Mapping, Sequence
from dataclasses import dataclass

from ..case import letters
from . import choices
from .faults import At
from .forms import MOST_SIDES, OTHER, Form, Listed, Row, names_of, pieces_of, plain

MOST_ROWS = 256  # of things with values of their own, and of `only`
MOST_IN_GROUP = 4
HOW_MANY = ("at most", "at least", "exactly")

Sent = Mapping[str, Sequence[str]]


@dataclass(frozen=True)
class Builder:
    """Fields that together make one more of what a field of the form has several of."""

    name: str  # with which the names of its fields begin
    field: str
    parts: tuple[str, ...]
    templates: tuple[
        str, ...
    ]  # among which the first of its fields chooses; of one there is no field
    least: int  # parts that have to be filled in

    def name_of(self, part: str) -> str:
        """The name of one of its fields."""
        return f"{self.name}-{part}"

    def made(self, sent: Sent) -> str | None:
        """What it makes; "" where nothing is filled in, and None where something is missing."""
        given = [_one(sent, self.name_of(part)) for part in self.parts]
        template = (
            self.templates[0] if len(self.templates) == 1 else _one(sent, self.name_of("form"))
        )
        if not any(given):
            return ""
        filled = [part for part in given if part]
        if template not in self.templates or not all(given[: self.least]):
            return None
        return template.format(*filled) if self.name != "group" else " - ".join(filled)


BUILDERS = (
    Builder("group", "ask", ("a", "b", "c", "d"), ("",), 2),
    Builder("pair", "words", ("v", "w"), choices.PAIRED, 2),
    Builder("chosen", "words", ("v", "w"), choices.CHOSEN, 2),
    Builder("either", "words", ("v", "w"), choices.EITHER, 2),
    Builder("count", "words", ("v",), choices.COUNTS, 1),
    Builder("rule", "always", ("word", "on"), ("{0} on {1}",), 2),
    Builder("number", "known", ("how", "count", "v", "on"), ("{0} {1} of them {2} on {3}",), 4),
)


def posted(sent: Sent) -> tuple[Form, list[At]]:
    """The form that a browser has sent, and the faults of what is filled in by half."""
    several: dict[str, list[str]] = {
        name: [
            piece
            for text in _all(sent, name, f"{name}-other")
            for piece in pieces_of(_joined(text))
        ]
        for name in ("ask", "words", "always", "known")
    }
    faults = []
    for builder in BUILDERS:
        made = builder.made(sent)
        if made is None:
            faults.append(
                At(
                    builder.field,
                    None,
                    0,
                    "something is chosen by half: choose the rest of it as well, or nothing",
                    builder=builder.name,
                )
            )
        elif made:
            several[builder.field].append(made)
    form = Form(
        title=plain(_one(sent, "title")),
        things=_listed(sent, "things"),
        own=_ticked(sent, "own", MOST_ROWS),
        values=_listed(sent, "values"),
        only=_ticked(sent, "only", MOST_ROWS),
        **{name: tuple(dict.fromkeys(some)) for name, some in several.items()},
        notes=tuple(filter(None, map(plain, _lines(_one(sent, "notes"))))),
        plan=plain(_one(sent, "plan")),
        other=tuple(filter(None, (line.strip() for line in _lines(_one(sent, OTHER))))),
    )
    return form, faults


def _all(sent: Sent, *names: str) -> Iterable[str]:
    """What is sent under some names."""
    for name in names:
        yield from sent.get(name, ())


def _one(sent: Sent, name: str) -> str:
    """What is sent under a name; "" where nothing is."""
    return next(iter(sent.get(name, ())), "").strip()


def _lines(text: str) -> list[str]:
    """The lines of a field."""
    return letters.lines_of(text)


def _joined(text: str) -> str:
    """The lines of a list as one, with commas between them."""
    lines = [line.strip().strip(",").strip() for line in _lines(text)]
    return ", ".join(filter(None, lines))


def _listed(sent: Sent, name: str) -> Listed:
    """A list or a grid, whichever is chosen."""
    if _one(sent, f"{name}-kind") == "grid":
        rows = _rows(sent, f"{name}-side", MOST_SIDES)
        return Listed(sides=tuple(Row(row.name, _quoted(row.text)) for row in rows))
    lines = _lines(_one(sent, f"{name}-text"))
    text = _one(sent, f"{name}-text") if len(lines) == 1 else _joined("\n".join(lines))
    return Listed(_quoted(plain(text)))


def _quoted(text: str) -> str:
    """A list in which a name `x` can't be read as the sign between the sides of a grid."""
    return text if "," in text else re.sub(r"(?<=\s)x(?=\s)", '"x"', text)


def _rows(sent: Sent, name: str, most: int) -> tuple[Row, ...]:
    """Rows of a name and a text, those that are filled in."""
    rows = (
        Row(
            plain(_one(sent, f"{name}-{place}-name")),
            plain(_joined(_one(sent, f"{name}-{place}-text"))),
        )
        for place in range(most)
    )
    return tuple(row for row in rows if row.name or row.text)


def _ticked(sent: Sent, name: str, most: int) -> tuple[Row, ...]:
    """Rows of a name and of names that are ticked, or one more of which is typed; where no ticks
    were shown, what was typed. What was ticked already is left as it is written."""
    rows = []
    for place in range(most):
        key = f"{name}-{place}"
        row = Row(plain(_one(sent, f"{key}-name")), plain(_joined(_one(sent, f"{key}-text"))))
        had, ticks = sent.get(f"{key}-had", ()), sent.get(f"{key}-tick", ())
        more = names_of(plain(_joined(_one(sent, f"{key}-more")))) if name == "own" else []
        if had or ticks or more:
            kept = [one for one in had if one in ticks]
            now = list(dict.fromkeys([*kept, *ticks, *more]))
            if now != list(had):
                row = Row(row.name, together(now, name == "own"))
        if row.name or row.text:
            rows.append(row)
    return tuple(rows)


def together(some: Sequence[str], new: bool) -> str:
    """Names as a line has them. A single one with blanks in it is quoted, where it is new."""
    if not any(" " in name for name in some):
        return " ".join(some)
    return f'"{some[0]}"' if new and len(some) == 1 else ", ".join(some)


def sent_of(form: Form) -> dict[str, list[str]]:
    """What a browser sends of a form in which nothing was changed."""
    sent = {
        "title": [form.title],
        "plan": [form.plan],
        "notes": ["\n".join(form.notes)],
        OTHER: ["\n".join(form.other)],
    }
    for name, listed in (("things", form.things), ("values", form.values)):
        sent[f"{name}-kind"] = ["grid" if listed.sides else "list"]
        sent[f"{name}-text"] = [listed.text]
        sent |= _sent_rows(f"{name}-side", listed.sides)
    for name in ("ask", "words", "always", "known"):
        sent[name] = list(getattr(form, name))
    return sent | _sent_rows("own", form.own) | _sent_rows("only", form.only)


def left(sent: Sent, form: Form) -> dict[str, list[str]]:
    """What fields hold that were sent and read: the form, and what is chosen by half."""
    halves = (
        builder.name_of(part)
        for builder in BUILDERS
        if not builder.made(sent)
        for part in ("form", *builder.parts)
    )
    return {**sent_of(form), **{name: list(sent.get(name, ())) for name in halves}}


def _sent_rows(name: str, rows: Sequence[Row]) -> dict[str, list[str]]:
    """The fields of some rows."""
    return {
        f"{name}-{place}-{part}": [text]
        for place, row in enumerate(rows)
        for part, text in (("name", row.name), ("text", row.text))
    }
