"""What the answers leave open, group by group: counts, bounds and hints, and never a result.

A candidate is a relation on a scope. It is possible as long as no accepted example violates it,
and, where the scope alone was refused, it rejects what was refused there. On each scope the
possible candidates are the bits of a number. An answer changes the numbers of the scopes that it is
about, and the sums over all scopes are kept in step, so nothing is counted anew.
"""

from __future__ import annotations

from collections.abc import Iterable, Iterator
from dataclasses import dataclass

from ..case.model import Rule, Values
from ..program.vocabulary import Vocabulary


@dataclass
class _Scope:
    """A scope and what is possible on it."""

    things: tuple[int, ...]
    every: int  # the candidates, a bit each, without those that accept everything
    left: int  # those that are possible
    needed: bool  # whether an example of this scope alone was refused


class Possible:
    """The candidates that the answers leave, kept from answer to answer.

    **The bound.** After any answers, `most` is at least the number of questions that can still
    come, in each plan. Let L be the number of possible candidates on a scope, a its length, and n
    the number of things.

    - A scope of which an example alone was refused needs one of its L candidates. Each question
    that is about it alone takes one away at least, by either answer, and one stays: L - 1
    questions. - Another scope takes L questions about it in plan `scopes`: each yes takes a
    candidate away, and the first no leaves at least as many questions fewer. - In plans `quacq` and
    `multi` an accepted example takes away a candidate of some scope. A refused one begins a search,
    which is one question and at most a times the halvings of n until one is left, and ends at a
    scope which is then refused alone. So a scope that isn't needed yet costs L + a * lg n + 1, and
    a scope without possible candidates nothing.

    A search that is under way ends at a scope that isn't needed yet, whose whole share still
    counts.
    """

    def __init__(self, vocabulary: Vocabulary, plan: str) -> None:
        """Before any answer."""
        self.vocabulary, self.plan = vocabulary, plan
        self.answers: list[tuple[Values, bool]] = []
        self._undo: list[list[tuple[_Scope, int, bool]]] = []
        self._lg = (len(vocabulary.case.things) - 1).bit_length()
        self._number_of = vocabulary.coding.number_of
        self._size = vocabulary.coding.size
        self._accepting: dict[int, dict[int, int]] = {arity: {} for arity in vocabulary.closings}
        self._every: dict[tuple[tuple[int, int], ...], int] = {}
        self._scopes = [self._scope(things) for things in vocabulary.scopes]
        self._by_last: dict[int, list[_Scope]] = {}
        for scope in self._scopes:
            self._by_last.setdefault(scope.things[-1], []).append(scope)
        self.total = sum(scope.every.bit_count() for scope in self._scopes)
        self._unsettled = self.total
        self._unfinished = sum(self._share(scope)[0] > 0 for scope in self._scopes)
        self.most = sum(self._share(scope)[1] for scope in self._scopes)

    @property
    def finished(self) -> int:
        """On how many of the groups nothing is open any more."""
        return len(self._scopes) - self._unfinished

    @property
    def progress(self) -> str:
        """How far it is, for people."""
        return (
            f"{self.finished} of {len(self._scopes)} groups finished; at most {self.most} more "
            f"question{'s' if self.most != 1 else ''}"
        )

    @property
    def settled(self) -> int:
        """How many of the candidates aren't open any more."""
        return self.total - self._unsettled

    def _scope(self, things: tuple[int, ...]) -> _Scope:
        """A scope with all its candidates."""
        ranges = tuple(self.vocabulary.coding.ranges[thing] for thing in things)
        if ranges not in self._every:
            self._every[ranges] = self.vocabulary.closings[len(things)].different_within(
                self.vocabulary.inside(things)
            )
        return _Scope(things, self._every[ranges], self._every[ranges], False)

    def _share(self, scope: _Scope) -> tuple[int, int]:
        """What a scope adds to the open candidates, and to the questions that can come."""
        left = scope.left.bit_count()
        if scope.needed:
            return max(left - 1, 0), max(left - 1, 0)
        if self.plan == "scopes" or not left:
            return left, left
        return left, left + len(scope.things) * self._lg + 1

    def _within(self, values: Values) -> Iterator[tuple[_Scope, int]]:
        """The scopes that values are about, each with the candidates that accept them."""
        size, number_of = self._size, self._number_of
        digit = {thing: number_of[thing][value] - 1 for thing, value in values.items()}
        for last in values:
            for scope in self._by_last.get(last, ()):
                place = 0
                for thing in scope.things:
                    if thing not in digit:
                        break
                    place = place * size + digit[thing]
                else:
                    yield scope, self._accepts(len(scope.things), place)

    def _accepts(self, arity: int, place: int) -> int:
        """The candidates of an arity that accept the tuple at a place."""
        known = self._accepting[arity]
        if place not in known:
            known[place] = self.vocabulary.closings[arity].accepting(place)
        return known[place]

    def take(self, values: Values, yes: bool) -> None:
        """An answer was given."""
        changes: list[tuple[_Scope, int, bool]] = []
        if yes:
            for scope, accepting in self._within(values):
                if scope.left & ~accepting:
                    self._change(scope, scope.left & accepting, scope.needed, changes)
        else:
            for scope, accepting in self._within(values):
                if len(scope.things) == len(values):
                    self._change(scope, scope.left & ~accepting, True, changes)
        self.answers.append((values, yes))
        self._undo.append(changes)

    def _change(
        self, scope: _Scope, left: int, needed: bool, changes: list[tuple[_Scope, int, bool]]
    ) -> None:
        """Sets what is possible on a scope, and keeps the sums in step."""
        changes.append((scope, scope.left, scope.needed))
        self._set(scope, left, needed)

    def _set(self, scope: _Scope, left: int, needed: bool) -> None:
        """The same without a note."""
        unsettled, most = self._share(scope)
        scope.left, scope.needed = left, needed
        now_unsettled, now_most = self._share(scope)
        self._unsettled += now_unsettled - unsettled
        self._unfinished += (now_unsettled > 0) - (unsettled > 0)
        self.most += now_most - most

    def back(self) -> None:
        """The last answer was taken back."""
        self.answers.pop()
        for scope, left, needed in reversed(self._undo.pop()):
            self._set(scope, left, needed)

    def taught(self, places: Iterable[int]) -> Iterator[tuple[tuple[int, ...], int]]:
        """The scopes on which refused answers at these places have settled a rule, each with what
        the rule accepts there. It looks at what these answers have changed and at nothing else."""
        before: dict[tuple[int, ...], tuple[_Scope, int, bool]] = {}
        for place in places:
            if not self.answers[place][1]:
                for scope, left, needed in self._undo[place]:
                    before.setdefault(scope.things, (scope, left, needed))
        for things, (scope, left, needed) in before.items():
            if _says(scope.left, scope.needed) and not _says(left, needed):
                yield things, self._rule(scope)

    def said(self) -> Iterator[tuple[tuple[int, ...], int]]:
        """The scopes on which a rule is settled, each with what the rule accepts there."""
        for scope in self._scopes:
            if _says(scope.left, scope.needed):
                yield scope.things, self._rule(scope)

    def _rule(self, scope: _Scope) -> int:
        """What the last candidate of a scope accepts there."""
        tables = self.vocabulary.closings[len(scope.things)].tables
        return tables[scope.left.bit_length() - 1] & self.vocabulary.inside(scope.things)

    def open(self, things: tuple[int, ...]) -> bool:
        """Whether it isn't settled yet which candidate holds on a scope, or whether one does."""
        scope = next(scope for scope in self._by_last[things[-1]] if scope.things == things)
        return self._share(scope)[0] > 0

    def at_stake(self, values: Values, most: int = 8) -> list[Rule]:
        """The plainest rules that a yes to these values rules out, and that are open; at most so
        many."""
        found: dict[tuple[str, tuple[int, ...]], Rule] = {}
        for scope, accepting in self._within(values):
            if not scope.left & ~accepting or (scope.needed and scope.left.bit_count() == 1):
                continue
            tables = self.vocabulary.closings[len(scope.things)].tables
            inside = self.vocabulary.inside(scope.things)
            open_tables = [tables[k] & inside for k in range(len(tables)) if scope.left >> k & 1]
            for rule, table in self.vocabulary.rules_on(scope.things):
                if rule.violated(values) and any(one & table == one for one in open_tables):
                    found.setdefault((rule.word.text, rule.things), rule)
                    if len(found) == most:
                        return list(found.values())
        return list(found.values())

    # ---- after a collapse

    def clash(self) -> list[int]:
        """The refused answers that no possible rule explains, by their places.

        Candidates of a scope are closed under intersection, so of those that no accepted example
        violates the strongest rejects all that any of them rejects. Some network agrees with all
        answers exactly where on each refused example some scope has a candidate left that rejects
        it.
        """
        open_by = self._open_by_yes()
        return [
            k
            for k, (values, yes) in enumerate(self.answers)
            if not yes and not self._explained(values, open_by)
        ]

    def _open_by_yes(self) -> dict[tuple[int, ...], int]:
        """On each scope the candidates that no accepted example violates."""
        open_by = {scope.things: scope.every for scope in self._scopes}
        for values, yes in self.answers:
            if yes:
                for scope, accepting in self._within(values):
                    open_by[scope.things] &= accepting
        return open_by

    def _explained(self, values: Values, open_by: dict[tuple[int, ...], int]) -> bool:
        """Whether some candidate of these rejects the values."""
        return any(open_by[scope.things] & ~accepting for scope, accepting in self._within(values))

    def suspects(self) -> list[int]:
        """The answers of which one alone, turned round, lets some network agree with all; the
        latest first.

        A no that isn't explained is accepted by each candidate that is left, so turned into a yes
        it takes none away: it is a suspect where it is the only such one, and no other no is. A yes
        that becomes a no gives back on each scope the candidates that it alone had ruled out; these
        have to explain it and each unexplained one.
        """
        clash = self.clash()
        found = self._guilty_yes(clash) if clash else []
        return sorted(found + (clash if len(clash) == 1 else []), reverse=True)

    def _guilty_yes(self, clash: list[int]) -> list[int]:
        """The accepted answers that may be turned round."""
        alone = self._ruled_out_once()
        rejecting = [
            {
                scope.things: scope.every & ~accepting
                for scope, accepting in self._within(self.answers[k][0])
            }
            for k in clash
        ]
        found = []
        for k, (values, yes) in enumerate(self.answers):
            if not yes:
                continue
            regained = {
                scope.things: alone[scope.things] & ~accepting
                for scope, accepting in self._within(values)
            }
            if any(regained.values()) and all(
                any(regained.get(things, 0) & bits for things, bits in one.items())
                for one in rejecting
            ):
                found.append(k)
        return found

    def _ruled_out_once(self) -> dict[tuple[int, ...], int]:
        """On each scope the candidates that exactly one accepted example violates."""
        once = {scope.things: 0 for scope in self._scopes}
        again = dict(once)
        for values, yes in self.answers:
            if yes:
                for scope, accepting in self._within(values):
                    gone = scope.every & ~accepting
                    again[scope.things] |= once[scope.things] & gone
                    once[scope.things] |= gone
        return {things: bits & ~again[things] for things, bits in once.items()}


def _says(left: int, needed: bool) -> bool:
    """Whether a scope has a rule, and it is known which."""
    return needed and left.bit_count() == 1
