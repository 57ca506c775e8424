"""Reads a case: a plain text of lines `key: text`, in which everything behind a `#` is a comment.

    title: Ward roster, one week
    things: day Mon .. Sun x shift early late night
    values: Ann Ben Cas Dee Eve
    only Mon early: Ann Ben
    ask: same day, night to next day early
    words: different, never Ann
    always: different on same day
    plan: scopes

Each fault is told with file and line, and with the nearest right form where one is near.
"""

from __future__ import annotations

import functools
import itertools
import math
import os
import re
from collections import Counter
from collections.abc import Callable, Iterable
from collections.abc import Sized as HasLength
from dataclasses import dataclass
from typing import TypeVar

from . import catalogue, counts, files, groups, letters, names
from .model import MOST_VALUES, PLANS, Case, Fault, Group, Known, Part, Rule, Thing, Way, Word

KEYS = (
    "title",
    "things",
    "values",
    "ask",
    "words",
    "always",
    "known",
    "note",
    "plan",
    "thing NAME",
    "only NAME",
)
MOST_THINGS = 128  # of the program
MOST_BYTES = 1_000_000
MOST_TITLE = 200  # letters
MOST_WORDS = 256  # more have no room: the program takes 64 rules for groups of each of four sizes
MOST_FAULTS = 20  # that are told at once
Read = TypeVar("Read")
Sized = TypeVar("Sized", bound=HasLength)


@dataclass(frozen=True)
class Line:
    """A line of a case: its number, its key, what its key is about, and its text."""

    number: int
    key: str
    name: str
    text: str


@dataclass(frozen=True)
class Piece:
    """What stands between two commas of a line."""

    line: Line
    text: str


@dataclass(frozen=True)
class Told:
    """A fault of the case, with its line; 0 where a line is missing."""

    line: int
    text: str
    way: Way | None = None


def read(path: str) -> Case:
    """The case in a file; a fault where it isn't one."""
    with files.opened(path) as file:
        if os.fstat(file.fileno()).st_size > MOST_BYTES:
            raise Fault(f"{path}: a case has at most {MOST_BYTES} bytes")
        with files.told(path):
            raw = file.read(MOST_BYTES)
    try:
        return parse(raw.decode("utf-8-sig"), path)
    except UnicodeDecodeError as error:
        line = len(letters.lines_of(raw[: error.start].decode()))
        raise Fault(f"{path}:{line}: this isn't UTF-8; save the file as UTF-8") from None


def parse(text: str, path: str) -> Case:
    """The case of a text; `path` is for faults, and for where the session is kept."""
    return _Reader(text, path).case()


class _Reader:
    """One reading of one text."""

    def __init__(self, text: str, path: str) -> None:
        self.text, self.path, self.line_number = text, path, 0
        self.lines: list[Line] = []
        self.things: list[Thing] = []
        self.values: list[str] = []
        self.thing_parts: tuple[Part, ...] = ()
        self.value_parts: tuple[Part, ...] = ()
        self.faults: list[Told] = []

    def case(self) -> Case:
        """Reads all lines, the things first, since others name them; one fault that has all that
        can be told at once."""
        self._cut()
        self._tell()  # a key that isn't read may be any: what is missing isn't known then
        self._missing()
        title, plan = self._try(self._title), self._try(self._plan)
        if self._try(self._things):
            self._try(self._only)
        self._try(self._few_words)
        setting = catalogue.Setting(tuple(self.things), tuple(self.values), self.value_parts)
        if not self.things or self.faults:
            self._tell()
        words = self._words(setting)
        asked = self._groups(words)
        always = self._always(setting)
        known: list[Known] = []
        self._each(
            "known", lambda piece: known.append(counts.known(setting, self.thing_parts, piece.text))
        )
        self._tell()
        title = title or letters.composed(re.sub(r"\.case$", "", os.path.basename(self.path)))
        return Case(
            self.path,
            self.text,
            title,
            tuple(self.things),
            self.thing_parts,
            tuple(self.values),
            self.value_parts,
            tuple(asked),
            tuple(words),
            tuple(always),
            plan,
            tuple(known),
            tuple(line.text for line in self._of("note")),
        )

    def _tell(self) -> None:
        """One fault that has all that were found so far, by their lines; what is missing comes
        last."""
        if self.faults:
            some = sorted(self.faults, key=lambda fault: fault.line or len(self.text))
            raise Fault(
                *(
                    (
                        f"{self.path}:{one.line}: {one.text}"
                        if one.line
                        else f"{self.path}: {one.text}"
                    )
                    for one in some
                ),
                ways=[one.way for one in some],
            )

    def _try(self, read: Callable[[], Read]) -> Read | None:
        """Reads something; its fault is kept, so that others can be told with it."""
        try:
            return read()
        except Fault as fault:
            self.faults.append(Told(self.line_number, str(fault), fault.ways[0]))
            if len(self.faults) == MOST_FAULTS:
                self._tell()
            return None
        finally:
            self.line_number = 0

    def _cut(self) -> None:
        """The lines, without comments and empty ones."""
        for number, raw in enumerate(letters.lines_of(self.text), 1):
            self._try(functools.partial(self._line, number, raw))

    def _line(self, number: int, raw: str) -> None:
        """Adds one line to those of the case."""
        self.line_number = number
        if wrong := letters.unseen(raw):
            raise Fault(wrong)
        line = re.sub(r"(^|\s)#.*", "", letters.composed(raw)).strip()
        if not line:
            return
        head, colon, rest = line.partition(":")
        words = head.split()
        if not colon or not words:
            raise Fault(f"a line is `key: text`{names.nearest(line.split()[0], KEYS)}")
        key, name = words[0], " ".join(words[1:])
        with_name = key in ("thing", "only")
        if key not in [known.split()[0] for known in KEYS] or with_name != bool(name):
            there = names.nearest(head.strip(), KEYS) or f"; there are {', '.join(KEYS)}"
            raise Fault(f"no such key: {head.strip()}{there}")
        self.lines.append(Line(number, key, name, rest.strip()))

    def _of(self, *keys: str) -> list[Line]:
        """The lines with these keys."""
        return [line for line in self.lines if line.key in keys]

    def _at(self, line: Line) -> Line:
        """Says where a fault that comes now is."""
        self.line_number = line.number
        return line

    def _one(self, key: str) -> str | None:
        """The text of a line that stands once at most."""
        lines = self._of(key)
        if len(lines) > 1:
            self._at(lines[1])
            raise Fault(f"`{key}` stands twice; the first is in line {lines[0].number}")
        if lines:
            return self._at(lines[0]).text
        return None

    def _title(self) -> str | None:
        """The title, where there is one."""
        title = self._one("title")
        if title is not None and len(title) > MOST_TITLE:
            raise Fault(f"a title has at most {MOST_TITLE} letters")
        return title

    def _plan(self) -> str | None:
        """The plan, where there is one."""
        plan = self._one("plan")
        if plan is not None and plan not in PLANS:
            raise Fault(f"no such plan: {plan}; there are {', '.join(PLANS)}")
        return plan

    def _missing(self) -> None:
        """Adds a fault for each key without which there is no case."""
        if not self._of("things", "thing"):
            self.faults.append(
                Told(
                    0,
                    "there are no things: a line such as `things: maths english sport` is missing",
                )
            )
            if not self._of("values"):
                self.faults.append(
                    Told(0, "there are no values: a line such as `values: Ann Ben Cas` is missing")
                )
        if not self._of("words"):
            self.faults.append(
                Told(
                    0,
                    "there are no words: a line such as `words: different, before` is missing",
                    Way.WORDS,
                )
            )
        if not self._of("ask") and not any("=" in line.text for line in self._of("words")):
            self.faults.append(
                Told(0, "nothing is asked about: a line such as `ask: all` is missing")
            )

    def _pieces(self, key: str) -> list[Piece]:
        """What stands between commas in all lines of a key."""
        return [
            Piece(line, part.strip())
            for line in self._of(key)
            for part in line.text.split(",")
            if part.strip()
        ]

    # ---- things and values

    def _things(self) -> bool:
        """Things and values, each a list or a grid, or things with lists of their own."""
        own: list[tuple[str, list[str]]] = []
        count = 0  # of those whose names were compared
        for line in self._of("things", "thing", "values"):
            self._at(line)
            if line.key == "values":
                self._values(line)
            elif line.key == "thing":
                self._no_grid()
                own.append(
                    (
                        names.checked(line.name),
                        self._unique(self._few(self._listed(line), MOST_VALUES, "values"), "value"),
                    )
                )
            else:
                self._listed_things(line, own)
            self._few(own, MOST_THINGS, "things")
            if len(own) > count:  # a line that adds nothing costs nothing
                self._unique([name for name, _ in own], "thing")
                count = len(own)
        self.line_number = 0
        self._labels(own)
        return bool(own)

    def _few(self, some: Sized, most: int, what: str) -> Sized:
        """The same things or values; a fault where they are more than the program takes."""
        if len(some) > most:
            raise Fault(self._too_many(len(some), most, what))
        return some

    def _too_many(self, count: int, most: int, what: str) -> str:
        """That there are too many things or values."""
        return (
            f"there are {count} {what}, and the program takes {most}: leave some out, or split the "
            "case"
        )

    def _listed_things(self, line: Line, own: list[tuple[str, list[str]]]) -> None:
        """A `things` line: a list, or the one grid."""
        parts = self._grid(line, MOST_THINGS, "things")
        if parts:
            if own or self.thing_parts:
                raise Fault("a grid of things stands alone: there are other things already")
            self.thing_parts = parts
            own += [(name, []) for name in self._cells(parts)]
        else:
            self._no_grid()
            own += [(name, []) for name in self._listed(line)]

    def _no_grid(self) -> None:
        """A fault where things are a grid already."""
        if self.thing_parts:
            raise Fault("a grid of things stands alone: its line is above")

    def _listed(self, line: Line) -> list[str]:
        """The names of a list; a fault where the first is likely meant as a heading of the
        others."""
        heading = names.heading(line.text)
        if heading is not None:
            raise Fault(f"is `{heading.name}` a heading, or one of the names? {heading.way_out()}")
        return names.listed(line.text)

    def _values(self, line: Line) -> None:
        """A `values` line: a list, or the one grid."""
        parts = self._grid(line, MOST_VALUES, "values")
        if self.value_parts or (parts and self.values):
            raise Fault("a grid of values stands alone")
        self.value_parts = parts
        more = self._cells(parts) if parts else self._listed(line)
        self.values += more
        if more or not self.values:
            self._unique(self._few(self.values, MOST_VALUES, "values"), "value")

    def _labels(self, own: list[tuple[str, list[str]]]) -> None:
        """Gives each thing its values: its own, or those of the `values` lines."""
        shared = len(self.values)
        if self.value_parts and any(labels for _, labels in own):
            raise Fault("things with values of their own don't go with a grid of values")
        for name, labels in own:
            if not labels and not shared:
                raise Fault(
                    f"`{name}` has no values: a line such as `values: Ann Ben Cas` is missing"
                )
            self.values += [label for label in labels if label not in self.values]
        self._few(self.values, MOST_VALUES, "values in all")
        cells = (
            list(itertools.product(*(range(len(part.members)) for part in self.thing_parts)))
            if self.thing_parts
            else []
        )
        for place, (name, labels) in enumerate(own):
            allowed = (
                sorted(self.values.index(label) for label in labels) if labels else range(shared)
            )
            self.things.append(Thing(place, name, cells[place] if cells else (), tuple(allowed)))

    def _unique(self, some: list[str], what: str) -> list[str]:
        """The same names; a fault where one stands twice or there is none."""
        if not some:
            raise Fault(f"a {what} at least has to be named")
        self._once(some, f"the {what} `{{}}` stands twice")
        return some

    def _once(self, some: Iterable[str], told: str) -> None:
        """A fault where a name stands twice; two that look the same are one."""
        name, count = Counter(map(letters.bare, some)).most_common(1)[0]
        if count > 1:
            raise Fault(told.format(name))

    def _grid(self, line: Line, most: int, what: str) -> tuple[Part, ...]:
        """`day Mon .. Sun x shift early late` as its parts; none where it is a list. The cells are
        counted before there are any."""
        listed = []
        for name, members in names.sides(line.text):
            if not members:
                raise Fault(
                    f"a side of a grid is its name and its members, as `day Mon Tue`; `{name}` has "
                    "no members"
                )
            listed.append((names.checked(name), names.listed(members)))
        if not listed:
            return ()
        cells = math.prod(len(members) for _, members in listed)
        if cells > most:
            raise Fault(self._too_many(cells, most, what))
        parts = tuple(
            Part(name, tuple(self._unique(members, "member"))) for name, members in listed
        )
        self._unique([part.name for part in parts], "side")
        self._once(
            (member for part in parts for member in part.members),
            "`{}` stands in two sides of the grid",
        )
        return parts

    def _cells(self, parts: tuple[Part, ...]) -> list[str]:
        """The names of a grid's cells: `Mon early`."""
        return [" ".join(cell) for cell in itertools.product(*(part.members for part in parts))]

    # ---- what the other lines say of them

    def _only(self) -> None:
        """`only NAME: values`: NAME is a thing or a member of a side, and the values may have `..`
        between them."""
        for line in self._of("only"):
            self._at(line)
            allowed = self._allowed(line.text)
            for thing in self._meant(line.name):
                left = tuple(value for value in thing.allowed if value in allowed)
                if not left:
                    raise Fault(f"`{thing.name}` would have no value left")
                self.things[thing.place] = Thing(thing.place, thing.name, thing.at, left)
        self.line_number = 0

    def _meant(self, name: str) -> list[Thing]:
        """The things that `only NAME` is about."""
        found = [thing for thing in self.things if thing.name == name]
        for k, part in enumerate(self.thing_parts):
            if not found and name in part.members:
                found = [thing for thing in self.things if thing.at[k] == part.members.index(name)]
        if not found:
            every = [thing.name for thing in self.things] + [
                member for part in self.thing_parts for member in part.members
            ]
            raise Fault(f"no such thing: {name}{names.nearest(name, every)}")
        return found

    def _allowed(self, text: str) -> set[int]:
        """The values of a list, in which `..` stands between two of them."""
        setting = catalogue.Setting((), tuple(self.values), self.value_parts)
        known = self.values + [member for part in self.value_parts for member in part.members]
        pieces = text.split("..")
        if len(pieces) > MOST_VALUES:
            raise Fault(
                f"`..` stands {len(pieces) - 1} times here, and there are {len(self.values)} values"
            )
        sides = [names.told_apart(piece, known, "value") for piece in pieces]
        if not all(sides):
            raise Fault(
                "`..` stands between two values"
                if len(sides) > 1
                else "a value at least has to be named"
            )
        allowed = set().union(*(setting.value_set(name) or () for side in sides for name in side))
        for before, behind in itertools.pairwise(sides):
            low, high = min(setting.value_set(before[-1]) or ()), max(
                setting.value_set(behind[0]) or ()
            )
            if low > high:
                raise Fault(f"`{before[-1]} .. {behind[0]}` goes backwards")
            allowed.update(range(low, high))  # both ends are named
        return allowed

    def _few_words(self) -> None:
        """A fault where there are more words than any case has room for."""
        for line in self._of("words")[:1]:
            self._at(line)
        self._few({piece.text for piece in self._pieces("words")}, MOST_WORDS, "words")

    def _words(self, setting: catalogue.Setting) -> list[Word]:
        """The words, each once."""
        found: dict[str, Word] = {}

        def one(piece: Piece) -> None:
            word = catalogue.word(setting, piece.text)
            found[word.text] = word

        self._each("words", one)
        return list(found.values())

    def _each(self, key: str, read: Callable[[Piece], None]) -> None:
        """Reads all pieces of a key, also those behind one with a fault."""
        for piece in self._pieces(key):
            self._try(functools.partial(read, Piece(self._at(piece.line), piece.text)))

    def _groups(self, words: list[Word]) -> list[Group]:
        """What is asked about: the `ask` lines, and the pairs of words that name their things."""
        found: dict[tuple[int, ...], Group] = {}

        def one(piece: Piece) -> None:
            for things in groups.meant(self.things, self.thing_parts, piece.text):
                key = tuple(sorted(things))
                found.setdefault(key, Group(key, piece.text))

        self._each("ask", one)
        for word in words:
            if word.things:
                key = tuple(sorted(word.things))
                found.setdefault(
                    key, Group(key, " - ".join(self.things[thing].name for thing in key))
                )
        return list(found.values())

    def _always(self, setting: catalogue.Setting) -> list[Rule]:
        """The rules that are said beforehand: `WORD on PHRASE`, or a word that names its things."""
        found: dict[tuple[str, tuple[int, ...]], Rule] = {}

        def one(piece: Piece) -> None:
            for word, things in self._said(setting, piece.text):
                text = word.said_of(tuple(self.things[thing].name for thing in things))
                found.setdefault((word.text, things), Rule(word, things, text))

        self._each("always", one)
        return list(found.values())

    def _said(self, setting: catalogue.Setting, text: str) -> list[tuple[Word, tuple[int, ...]]]:
        """The rules of one piece of an `always` line."""
        head, on, phrase = text.rpartition(" on ")
        word = catalogue.word(setting, head if on else text)
        if word.things and not on:
            return [(word, word.things)]
        if word.things:
            raise Fault(f"`{word.text}` names its things: leave `on {phrase}` out")
        if not on:
            raise Fault(
                f"of which things? Write `{text} on same day`, `{text} on all`, or name them, as "
                f"`{text} on "
                + " - ".join(thing.name for thing in self.things[: word.arity])
                + "`"
            )
        found = []
        for things in groups.meant(self.things, self.thing_parts, phrase):
            if len(things) < word.arity:
                raise Fault(
                    f"`{word.text}` is about {word.arity} things, and `{phrase}` puts "
                    f"{len(things)} together"
                )
            found += [(word, some) for some in itertools.combinations(things, word.arity)]
        return found
