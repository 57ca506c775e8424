"""Answers that follow from what the person has said: they are given for the person, and marked.

Three kinds. A question that violates a rule said beforehand is refused. A part of what was accepted
is accepted, and what holds something refused is refused; this is said of answers of an earlier
session (carried) and of those from before a step back (again). Nothing else is ever answered, and
where two old answers disagree about a question, it is put to the person. An old yes that a rule
said beforehand contradicts answers nothing, as long as that rule is there.
"""

from __future__ import annotations

from collections.abc import Iterable
from dataclasses import dataclass
from functools import cached_property

from ..case.model import Case, Rule, Said, Values

CARRIED, AGAIN, ALWAYS = "carried", "again", "always"


@dataclass(frozen=True)
class Old:
    """An answer that isn't in the journal."""

    values: tuple[tuple[int, int], ...]  # things and values, rising
    yes: bool
    by: str  # CARRIED or AGAIN

    @cached_property
    def items(self) -> frozenset[tuple[int, int]]:
        """The pairs as a set."""
        return frozenset(self.values)


def old(values: Values, yes: bool, by: str) -> Old:
    """An old answer."""
    return Old(tuple(sorted(values.items())), yes, by)


class Foreseen:
    """What a person has said beside the journal."""

    def __init__(self, case: Case, before: Iterable[Old] = ()) -> None:
        """The rules of a case, and old answers."""
        self.case = case
        self._rules: dict[int, list[Rule]] = {}
        for rule in case.always:
            self._rules.setdefault(max(rule.things), []).append(rule)
        self.before = list(before)

    @property
    def before(self) -> list[Old]:
        """All old answers, also those that answer nothing for now."""
        return self._before

    @before.setter
    def before(self, some: list[Old]) -> None:
        self._before = some
        idle = {one for one, _ in self.contradicted()}
        self._accepted = [one for one in some if one.yes and one not in idle]
        self._refused = [one for one in some if not one.yes]

    def answer(self, values: Values) -> Said | None:
        """The answer to these values that the person has given already, if they have."""
        rule = self.violated(values)
        if rule is not None:
            return Said(False, ALWAYS, rule.text)
        asked = set(values.items())
        yes = next((one for one in self._accepted if asked <= one.items), None)
        no = next((one for one in self._refused if one.items <= asked), None)
        said = yes or no
        if said is None or (yes and no):
            return None
        return Said(said.yes, said.by, self._because(said, len(asked)))

    def violated(self, values: Values) -> Rule | None:
        """The first rule said beforehand that the values violate."""
        return next(
            (
                rule
                for thing in sorted(values)
                for rule in self._rules.get(thing, ())
                if rule.violated(values)
            ),
            None,
        )

    def contradicted(self) -> list[tuple[Old, Rule]]:
        """The old accepted examples that a rule said beforehand contradicts, each with the rule."""
        found = ((one, self.violated(dict(one.values))) for one in self.before if one.yes)
        return [(one, rule) for one, rule in found if rule is not None]

    def _because(self, said: Old, asked: int) -> str:
        """The answer behind it, for people."""
        when = "in the earlier session" if said.by == CARRIED else "before you went back"
        shown = ", ".join(
            f"{self.case.things[thing].name} {self.case.values[value]}"
            for thing, value in said.values[:4]
        )
        shown += " .." if len(said.values) > 4 else ""
        what = (
            "this"
            if len(said.values) == asked
            else "a plan with this in it" if said.yes else "a part of this"
        )
        return f"you {'accepted' if said.yes else 'refused'} {what} {when}" + (
            "" if what == "this" else f": {shown}"
        )

    def forget(self, values: Values, yes: bool) -> bool:
        """Drops the old answers that a new one contradicts; whether there were some."""
        said = set(values.items())
        kept = [
            one
            for one in self.before
            if one.yes == yes or not (one.items <= said if yes else said <= one.items)
        ]
        changed = len(kept) < len(self.before)
        self.before = kept
        return changed

    def remember(self, some: Iterable[Old]) -> None:
        """Adds old answers, the newest first, each once."""
        self.before = list(dict.fromkeys([*some, *self.before]))
