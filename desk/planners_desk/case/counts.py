"""What a person knows and isn't asked about: the lines `known` of a case. Sample plans keep it, and
nothing of it is learned.

`at most 2 of them Ann on same day` counts on each day, `at most 2 alike on all` counts for each
value, and a word of the catalogue may be about more things than are asked about together.
"""

from __future__ import annotations

import itertools
import re
from collections.abc import Sequence

from . import catalogue, groups, names
from .model import Count, Fault, Known, Part, Rule, Thing

NUMBERS = {
    word: number
    for number, word in enumerate(
        "no one two three four five six seven eight nine ten eleven twelve".split()
    )
}
FORMS = (
    "`known: at most 2 of them V`, `at least`, `exactly`, `known: at most 2 alike`, each with "
    "`on same day`, `on all` or things behind it, or a word as in `always`"
)


def known(setting: catalogue.Setting, parts: Sequence[Part], text: str) -> Known:
    """What one piece of a `known` line says; a fault where it can't be tested in a plan."""
    head, on, phrase = text.rpartition(" on ")
    counted = _counted(setting, parts, head, phrase) if on else None
    counted = counted or _counted(setting, parts, text, "all")
    if counted is not None:
        return Known(text, counts=counted)
    if not on:
        raise Fault(
            f"`{text}` can't be looked for in a plan: there are {FORMS}. What can't be looked for "
            "goes into a line `note`"
        )
    try:
        word = catalogue.word(setting, head)
    except Fault as fault:
        raise Fault(
            f"{fault}; what can't be looked for in a plan goes into a line `note`", ways=fault.ways
        ) from None
    if word.things:
        raise Fault(f"`{word.text}` names its things: leave `on {phrase}` out")
    rules = []
    for things in groups.meant(setting.things, parts, phrase):
        for some in itertools.combinations(things, word.arity):
            rules.append(
                Rule(word, some, word.said_of(tuple(setting.things[thing].name for thing in some)))
            )
    if not rules:
        raise Fault(
            f"`{word.text}` is about {word.arity} things, and `{phrase}` puts fewer together"
        )
    return Known(text, tuple(rules))


def _counted(
    setting: catalogue.Setting, parts: Sequence[Part], text: str, phrase: str
) -> tuple[Count, ...] | None:
    """The counts of `at most 2 of them V` and `at most 2 alike`; None where it isn't one of
    these."""
    of_them = re.fullmatch(r"(at most|at least|exactly) (\w+) of them (.+)", text)
    alike = re.fullmatch(r"(at most) (\w+) (?:.+ )?alike", text)
    found = of_them or alike
    number = _number(found[2]) if found else None
    if found is None or number is None:
        return None
    values = setting.value_set(of_them[3]) if of_them else None
    if of_them and not values:
        raise Fault(f"no such value: {of_them[3]}{names.nearest(of_them[3], setting.values)}")
    sets = (
        [values]
        if values is not None
        else [frozenset([value]) for value in range(len(setting.values))]
    )
    return tuple(
        Count(
            row,
            some,
            0 if found[1] == "at most" else number,
            len(row) if found[1] == "at least" else number,
        )
        for row in rows(setting.things, parts, phrase)
        for some in sets
    )


def _number(text: str) -> int | None:
    """A number in digits or letters."""
    return int(text) if re.fullmatch(r"\d{1,3}", text) else NUMBERS.get(text)


def rows(things: Sequence[Thing], parts: Sequence[Part], phrase: str) -> list[tuple[int, ...]]:
    """The things within which is counted: all, those of each day, those of Sunday, or some by their
    names."""
    if phrase == "all":
        return [tuple(thing.place for thing in things)]
    same = re.fullmatch(r"same (.+)", phrase)
    for k, part in enumerate(parts):
        if same and same[1] in (part.name, part.name + "s"):
            return [
                tuple(thing.place for thing in things if thing.at[k] == member)
                for member in range(len(part.members))
            ]
        if phrase in part.members:
            return [
                tuple(thing.place for thing in things if thing.at[k] == part.members.index(phrase))
            ]
    place = {thing.name: thing.place for thing in things}
    named = [name.strip() for name in phrase.split(" - ")]
    for name in named:
        if name not in place:
            raise Fault(
                f"`{phrase}`: counted is `on all`, `on same {parts[0].name if parts else 'day'}` "
                "or on things, as "
                f"`on {things[0].name} - {things[-1].name}`{names.nearest(name, place)}"
            )
    return [tuple(place[name] for name in dict.fromkeys(named))]
