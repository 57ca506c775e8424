"""Counts that a case could say and doesn't: by which word, on which groups, and for how many
questions.

That no more than K of any number of things are V is said on all groups of K + 1 of them; such a
group has that one candidate, so in plan `scopes` it takes exactly one question where the word
stands alone.
"""

from __future__ import annotations

import dataclasses
import re
from collections.abc import Iterator
from dataclasses import dataclass

from ..case import catalogue, groups
from ..case.model import Case, Fault, Group
from ..program.coding import MOST_BY_ARITY
from ..program.talk import Clock, Program, TimeOver
from ..program.vocabulary import MOST_SCOPES, Vocabulary
from . import trials

COUNTED = {1: "one", 2: "two", 3: "three"}
GROUPED = {2: "pairs", 3: "triples", 4: "fours"}
SAYS_A_COUNT = (
    r"at (most|least) (one|two|three) of .*|(at least )?all but .*|not all (three|four) the same.*"
    r"|not both .*|one of them .*"
)
MOST_BESIDE = 2  # words of a case beside which a count is tried: each is lifted to larger groups
MOST_VALUES_BESIDE = 12


@dataclass(frozen=True)
class Offer:
    """A count that could be said."""

    most: int  # of all the things
    word: str
    phrase: str  # of the `ask` line
    groups: int  # of so many things as the word speaks of
    beside: int | None  # questions with the other words, in the middle case; None: not reckoned


def counts_said(case: Case) -> list[str]:
    """The words of a case that say a count."""
    return [word.text for word in case.words if re.fullmatch(SAYS_A_COUNT, word.text)]


def offers(case: Case, program: Program, clock: Clock) -> Iterator[Offer]:
    """The counts of one, two and three, where the case says none on groups of that size."""
    have = {word.arity for word in case.words if word.text in counts_said(case)}
    for most, counted in COUNTED.items():
        phrase, some = _groups(case, most + 1)
        if most + 1 in have or not some or len(case.values) > MOST_BY_ARITY[most + 1]:
            continue
        word = f"at most {counted} of them {case.values[0]}"
        yield Offer(
            most, word, phrase, len(some), _beside(case, word, phrase, some, program, clock)
        )


def _groups(case: Case, size: int) -> tuple[str, list[tuple[int, ...]]]:
    """The way to put so many things together that makes fewest groups: within a row of the grid, or
    all; none where it makes too many."""
    phrases = [f"same {part.name} {GROUPED[size]}" for part in case.thing_parts] + [
        f"all {GROUPED[size]}"
    ]
    found = []
    for phrase in phrases:
        try:
            found.append(
                (phrase.removesuffix(" pairs"), groups.meant(case.things, case.thing_parts, phrase))
            )
        except Fault:
            continue
    found = [one for one in found if len(one[1]) <= MOST_SCOPES]
    return min(found, key=lambda one: len(one[1]), default=("", []))


def _beside(
    case: Case, word: str, phrase: str, some: list[tuple[int, ...]], program: Program, clock: Clock
) -> int | None:
    """How many questions come in the middle made-up case with the count beside the other words;
    None where that takes too long."""
    if (
        len(case.words) > MOST_BESIDE
        or len(case.values) > MOST_VALUES_BESIDE
        or len(some[0]) == max(GROUPED)
    ):
        return None
    setting = catalogue.Setting(case.things, case.values, case.value_parts)
    have = {group.things for group in case.groups}
    more = tuple(Group(things, phrase) for things in some if things not in have)
    try:
        words = Vocabulary(
            dataclasses.replace(
                case, groups=case.groups + more, words=(*case.words, catalogue.word(setting, word))
            )
        )
        clock.doing(f"reckoning what `{word}` costs")
        return trials.middle(words, program, clock)
    except (Fault, TimeOver):
        return None
