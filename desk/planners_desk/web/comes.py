"""What a case comes to at once: how large it is, and what it can't say."""

from __future__ import annotations

import itertools
from collections.abc import Sequence
from dataclasses import dataclass

from ..case.model import MOST_RELATIONS, Case, Part, Values
from ..commands.check import SIZES
from ..hints.along import and_list
from ..program.vocabulary import Vocabulary
from ..sitting import outlook
from .tables import Table, sentence_of, table_of

FEW = 4  # names of which all are told


@dataclass(frozen=True)
class Unsaid:
    """Something that no answers can bring about."""

    text: str
    table: Table | None = None  # that shows it


def overview(words: Vocabulary) -> list[str]:
    """How large a case is."""
    case, made = words.case, outlook.combined(words)
    groups = and_list([f"{one.groups} {SIZES[one.arity]}" for one in made])
    beforehand = f" {len(case.always)} rules are said beforehand." if case.always else ""
    said = [
        f"{len(case.things)} things, {len(case.values)} values, {len(case.words)} words. "
        f"You are asked about {groups}.{beforehand}"
    ]
    for one in made:
        if one.without:
            without = and_list([f"{rules} without {text}" for text, rules in one.without])
            said.append(
                f"On {SIZES[one.arity]} these words make {one.rules} rules, and "
                f"{MOST_RELATIONS} is the most: {without}."
            )
    return said


def cannot_say(words: Vocabulary) -> list[Unsaid]:
    """What no answers can bring about."""
    unsaid = outlook.unsaid(words)
    counts = f" It does say: {', '.join(unsaid.counts)}." if unsaid.counts else ""
    found = [
        Unsaid(
            "Counts above three, as \u201cat most five shifts each\u201d, and sums: no rule is "
            f"about more than four things.{counts}"
        )
    ]
    if unsaid.alone:
        who = _some(unsaid.alone)
        found.append(Unsaid(f"Nothing is learned of {who}: no tick puts that with anything."))
    if unsaid.apart is not None:
        found.append(
            Unsaid(
                f"Rules between things that don't go together: {unsaid.apart.pairs} of "
                f"{unsaid.apart.of} pairs, as {' and '.join(unsaid.apart.example)}."
            )
        )
    for weak in unsaid.weak:
        found += _weak(words.case, weak)
    end = (
        "At the end nothing is left open of the rules that these words can say. What they can't "
        "say was never asked: look at the sample plans."
    )
    return [*found, Unsaid(end)]


def _some(texts: Sequence[str]) -> str:
    """A few of them, and how many there are."""
    more = f" and {len(texts) - FEW} more" if len(texts) > FEW else ""
    return ", ".join(texts[:FEW]) + more


def _weak(case: Case, weak: outlook.Weak) -> list[Unsaid]:
    """What the words can't refuse on a group, and what they can't refuse alone."""
    who = and_list([case.things[thing].name for thing in weak.things])
    if not weak.refuses:
        return [Unsaid(f"Anything of {who}: no word forbids anything there.")]
    found = []
    if weak.example is not None:
        found.append(
            Unsaid(
                f"On {SIZES[len(weak.things)]} as {who}, {weak.never} of {weak.choices} choices "
                "can never be forbidden by these words. Is this one always all right? Else a word "
                "is missing:",
                table_of(case, weak.example),
            )
        )
    if weak.coarse is not None:
        others = weak.coarse.others
        found.append(
            Unsaid(
                f"{_said(case, weak.coarse.values)} alone: what forbids that forbids {others} "
                f"other choice{'s' if others > 1 else ''} too, at the least; as "
                f"{_said(case, weak.coarse.example)}."
            )
        )
    return found


def _said(case: Case, values: Values) -> str:
    """A choice in words."""
    return and_list(sentence_of(case, values).split(", "))


def down(parts: tuple[Part, ...]) -> list[str]:
    """The heads at the left of a grid, whose first side stands at the top."""
    return [" ".join(some) for some in itertools.product(*(part.members for part in parts[1:]))]
