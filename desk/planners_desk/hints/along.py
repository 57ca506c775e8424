"""Patterns in a grid of things: groups that differ in one part alone, as early and late of each day
do."""

from __future__ import annotations

import itertools
from collections.abc import Iterable, Sequence
from dataclasses import dataclass

from ..case.model import Case

Things = tuple[int, ...]

PLACED = {
    "day": "on",
    "date": "on",
    "hour": "at",
    "time": "at",
    "room": "in",
    "week": "in",
    "month": "in",
}


@dataclass(frozen=True)
class Pattern:
    """Things along one part of the grid: the part, how far each thing is from the first in it, and
    its members in the others."""

    part: int
    steps: Things
    fixed: tuple[Things, ...]


def and_list(names: Sequence[str]) -> str:
    """`a`, `a and b`, `a, b and c`."""
    return names[0] if len(names) == 1 else ", ".join(names[:-1]) + " and " + names[-1]


class Along:
    """The patterns of a case."""

    def __init__(self, case: Case) -> None:
        self.case = case
        self.is_grid = len(case.thing_parts) > 1
        self.at = {thing.at: thing.place for thing in case.things} if self.is_grid else {}
        self.asked = {
            some
            for group in case.groups
            for size in range(1, len(group.things) + 1)
            for some in itertools.combinations(group.things, size)
        }

    def pattern(self, things: Things, part: int) -> Pattern:
        """The pattern of these things along a part."""
        at = [self.case.things[thing].at for thing in things]
        return Pattern(
            part,
            tuple(a[part] - at[0][part] for a in at),
            tuple(a[:part] + a[part + 1 :] for a in at),
        )

    def member(self, things: Things, part: int) -> int:
        """Where these things are along a part: the place of the first."""
        return self.case.things[things[0]].at[part]

    def places(self, pattern: Pattern, members: Iterable[int]) -> list[Things]:
        """The things at some places of a pattern."""
        return [
            tuple(
                self.at[fixed[: pattern.part] + (member + step,) + fixed[pattern.part :]]
                for step, fixed in zip(pattern.steps, pattern.fixed)
            )
            for member in members
        ]

    def fits(self, pattern: Pattern) -> Things:
        """The members of the part at which a pattern has all its things."""
        size = len(self.case.thing_parts[pattern.part].members)
        return tuple(
            member
            for member in range(size)
            if all(0 <= member + step < size for step in pattern.steps)
        )

    def asked_at(self, pattern: Pattern, member: int) -> bool:
        """Whether the things at this place are asked about together."""
        return tuple(sorted(self.places(pattern, [member])[0])) in self.asked

    def spoken(self, pattern: Pattern) -> tuple[str, ...]:
        """How the things of a pattern are called: `night`, `early on the next day`."""
        parts = self.case.thing_parts
        others = parts[: pattern.part] + parts[pattern.part + 1 :]
        name = parts[pattern.part].name
        place = PLACED.get(name, "of")
        far = {0: "", 1: f" {place} the next {name}", -1: f" {place} the {name} before"}
        spoken = []
        for step, fixed in zip(pattern.steps, pattern.fixed):
            text = " ".join(part.members[member] for part, member in zip(others, fixed))
            spoken.append(
                text + far.get(step, f" {abs(step)} {name}s {'later' if step > 0 else 'earlier'}")
            )
        return tuple(spoken)
