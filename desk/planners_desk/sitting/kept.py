"""What desk keeps beside a journal, and what it reads at a journal's head.

The journal is made, read and written by the program alone; desk looks at its first bytes, in which
the plan and the vocabulary stand, to see whether they are still those of the case. What desk keeps
beside it, in JSON: the text of the case when the session began, and the old answers that may answer
for the person.
"""

from __future__ import annotations

import json
import os
from collections.abc import Sequence
from typing import TypedDict

from ..case import casefile, files, letters
from ..case.files import kept_of
from ..case.model import Case, Fault, Values
from ..hints.foreseen import AGAIN, CARRIED, Old, old

PLAN_OF_BYTE = {1: "scopes", 2: "quacq", 3: "multi"}
BACK = (
    "Put back a copy of the file; without one, move it away: where the case is as it was, the "
    "session goes on"
)


class Named(TypedDict):
    """An old answer by the names of things and values, so that it outlives a change of the case."""

    yes: bool
    by: str
    values: dict[str, str]


class Kept(TypedDict):
    """What desk keeps beside a journal."""

    case: str  # the text for which the session stands
    before: list[Named]


def head_of(journal: str) -> tuple[str, bytes] | None:
    """The plan and the vocabulary of a journal; None where it has no session.

    By the form of journals: a magic of 8 bytes, a gate, a kind, a length of 4 bytes, the plan, the
    vocabulary.
    """
    with files.opened(journal) as file:
        head = file.read(15)
        if len(head) < 15 or head[8] != 1:
            return None
        return PLAN_OF_BYTE.get(head[14], "?"), file.read(int.from_bytes(head[10:14], "big") - 1)


def read_kept(journal: str) -> Kept | None:
    """What desk keeps beside a journal; None where it isn't there."""
    path = kept_of(journal)
    if not os.path.lexists(path):
        return None
    try:
        with files.opened(path) as file:
            kept = json.loads(file.read().decode())
    except (OSError, ValueError, RecursionError) as error:
        raise Fault(f"{path} can't be read: {error}. {BACK}") from None
    if (
        not isinstance(kept, dict)
        or not isinstance(kept.get("case"), str)
        or not isinstance(kept.get("before"), list)
        or not all(map(_is_named, kept["before"]))
    ):
        raise Fault(f"{path} isn't what desk keeps beside a session. {BACK}")
    return Kept(case=kept["case"], before=kept["before"])


def case_in(journal: str, kept: Kept) -> Case:
    """The case for which a session stands; a fault where this desk doesn't take its text any
    more."""
    path = kept_of(journal)
    try:
        return casefile.parse(kept["case"], "line")
    except Fault as fault:
        raise Fault(
            f"{path}: this desk doesn't take the text of the case in it, with which the session "
            f"began ({fault}). Where the case says the same in another way now, move {path} away, "
            "and the session goes on"
        ) from None


def _is_named(one: object) -> bool:
    """Whether this is an old answer by names."""
    return (
        isinstance(one, dict)
        and isinstance(one.get("yes"), bool)
        and one.get("by") in (CARRIED, AGAIN)
        and isinstance(one.get("values"), dict)
        and all(isinstance(label, str) for label in one["values"].values())
    )


def named(case: Case, values: Values, yes: bool, by: str) -> Named:
    """An answer by names, in the order of these, so that the same answer reads the same."""
    return {
        "yes": yes,
        "by": by,
        "values": dict(
            sorted((case.things[thing].name, case.values[value]) for thing, value in values.items())
        ),
    }


def write_kept(journal: str, case: Case, before: Sequence[Old]) -> None:
    """Puts down what desk keeps, as a whole or not at all."""
    kept = Kept(
        case=case.text, before=[named(case, dict(one.values), one.yes, one.by) for one in before]
    )
    files.write(kept_of(journal), json.dumps(kept, ensure_ascii=False, indent=1).encode())


def old_answers(case: Case, some: Sequence[Named]) -> list[Old]:
    """Old answers, of what the case has of their things and values.

    What is left of an accepted one is accepted as well. A refused one that names what isn't there
    any more says nothing.
    """
    thing_of = {thing.name: thing for thing in case.things}
    value_of = {name: value for value, name in enumerate(case.values)}
    found = []
    for one in some:
        values: Values = {}
        for name, label in one["values"].items():
            thing, value = thing_of.get(letters.composed(name)), value_of.get(
                letters.composed(label)
            )
            if thing is not None and value is not None and value in thing.allowed:
                values[thing.place] = value
        if values and (one["yes"] or len(values) == len(one["values"])):
            found.append(old(values, one["yes"], one["by"]))
    return found


def changed(before: Case, now: Case) -> str | None:
    """What of a case has changed such that its answers mean something else; None where nothing
    has."""

    def groups(case: Case) -> list[tuple[int, ...]]:
        return [group.things for group in case.groups]

    for what, one, other in (
        (
            "its things are others",
            [(thing.name, thing.allowed) for thing in before.things],
            [(thing.name, thing.allowed) for thing in now.things],
        ),
        ("its values are others", before.values, now.values),
        ("other groups are asked about", groups(before), groups(now)),
        (
            "its words are others",
            [word.text for word in before.words],
            [word.text for word in now.words],
        ),
    ):
        if one != other:
            return what
    said = {(rule.word.text, rule.things) for rule in now.always}
    if any((rule.word.text, rule.things) not in said for rule in before.always):
        return "a rule that was said beforehand is gone"
    return None
