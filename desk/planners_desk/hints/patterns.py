"""The odd one out: groups whose rule is another than that of most groups of their pattern.

In a grid, groups make a pattern where they differ in one part of it alone, as early and late of
each day do. In a list, those make one that one sentence is about, as each of some things with each
of others. That most of them have one rule and a few another may be right, as on a Sunday, and may
be a slip; so it is shown, with the answers behind it, and no answer is changed.
"""

from __future__ import annotations

from collections import Counter, defaultdict
from collections.abc import Callable, Iterable, Iterator, Sequence
from dataclasses import dataclass

from ..case.model import Answer, Constraint, Rule
from ..program.vocabulary import Vocabulary
from . import sentences
from .along import Along, Pattern, Things
from .sentences import Sentence

LEAST_GROUPS = 3  # settled ones of a pattern, from which on one can be odd
MANY = 5  # rules that a sentence says for each pair that it excepts, where this is odd
Said = tuple[str, Things]  # a rule's word, and the places of its things in the group


@dataclass(frozen=True)
class Odd:
    """A group whose rules are others than those of most of its pattern."""

    scope: Things
    has: tuple[Rule, ...]
    most: tuple[Rule, ...]  # what it would have if it were as most are
    of: int  # how many groups of the pattern are as most are; 0 where none is like it
    behind: Things  # places of the answers that made it so

    def text(self, names: Sequence[str]) -> str:
        """What is odd, for people."""
        who = ", ".join(names[thing] for thing in self.scope)
        here = "; ".join(rule.text for rule in self.has) or "no rule"
        if not self.of:
            return (
                f"{who}: {here}. It stands alone, and the other rules of this kind are between sets"
                " of things."
            )
        there = "; ".join(rule.text for rule in self.most) or "no rule"
        return f"{who}: {here}. As {self.of} others of its pattern it would be: {there}."


def odd(
    vocabulary: Vocabulary,
    learned: Iterable[Constraint],
    answers: Sequence[Answer],
    is_open: Callable[[Things], bool],
) -> list[Odd]:
    """The odd ones among the groups on which all is settled."""
    if len(vocabulary.case.thing_parts) < 2:
        return _odd_in_list(vocabulary, learned, answers, is_open)
    on = {constraint.scope: vocabulary.claims(constraint) for constraint in learned}
    settled = [scope for scope in vocabulary.scopes if scope in on or not is_open(scope)]
    found: dict[Things, Odd] = {}
    for scopes in _patterns(Along(vocabulary.case), settled).values():
        said = {
            scope: frozenset(_said(rule, scope) for rule in on.get(scope, ())) for scope in scopes
        }
        (most, count), *_ = Counter(said.values()).most_common(1)
        if len(scopes) < LEAST_GROUPS or 2 * count <= len(scopes):
            continue
        model = next(scope for scope in scopes if said[scope] == most)
        for scope in scopes:
            if said[scope] != most and scope not in found:
                would = tuple(_moved(rule, model, scope, vocabulary) for rule in on.get(model, ()))
                has = on.get(scope, ())
                found[scope] = Odd(scope, has, would, count, behind(scope, has, would, answers))
    return [found[scope] for scope in sorted(found)]


def _odd_in_list(
    vocabulary: Vocabulary,
    learned: Iterable[Constraint],
    answers: Sequence[Answer],
    is_open: Callable[[Things], bool],
) -> list[Odd]:
    """The groups that a sentence about many excepts, and those whose rule stands alone where the
    others of its word don't."""
    learned = list(learned)
    on = {constraint.scope: vocabulary.claims(constraint) for constraint in learned}
    names = [thing.name for thing in vocabulary.case.things]
    scopes, found = set(vocabulary.scopes), {}
    by_word: dict[str, list[Sentence]] = defaultdict(list)
    for said in sentences.grouped(vocabulary, learned):
        by_word[said.rules[0].word.text].append(said)
        for things in said.out if len(said.rules) >= MANY * len(said.out) else ():
            scope, word = tuple(sorted(things)), said.rules[0].word
            if scope in scopes and (scope in on or not is_open(scope)):
                would = (Rule(word, things, word.said_of(tuple(names[thing] for thing in things))),)
                has = on.get(scope, ())
                made = behind(scope, has, would, answers)
                found[scope] = Odd(scope, has, would, len(said.rules), made)
    for some in by_word.values():
        for scope in _alone(some):
            if scope in on:
                made = behind(scope, on[scope], (), answers)
                found.setdefault(scope, Odd(scope, on[scope], (), 0, made))
    return [found[scope] for scope in sorted(found)]


def _alone(some: Sequence[Sentence]) -> Iterator[Things]:
    """The pairs of a word's rules that stand alone: few of many, and no thing that is like one of
    the pair, in that it has the rule with a third one as well, has it with the other one of the
    pair."""
    if some[0].rules[0].word.arity != 2:
        return
    beside: dict[int, set[int]] = defaultdict(set)
    for one, other in (rule.things for said in some for rule in said.rules):
        beside[one].add(other)
        beside[other].add(one)
    alone = [said.rules[0].things for said in some if len(said.rules) == 1]
    if 4 * len(alone) > sum(len(said.rules) for said in some):
        return
    for pair in alone:
        thirds = (beside[pair[0]] | beside[pair[1]]) - set(pair)
        like = {thing for thing in beside if beside[thing] & thirds} - set(pair)
        if not any(beside[thing] & set(pair) for thing in like):
            yield tuple(sorted(pair))


def _patterns(along: Along, scopes: Iterable[Things]) -> dict[Pattern, list[Things]]:
    """Groups by pattern, along each part of the grid."""
    found: dict[Pattern, list[Things]] = defaultdict(list)
    for scope in scopes:
        for part in range(len(along.case.thing_parts)):
            found[along.pattern(scope, part)].append(scope)
    return found


def _said(rule: Rule, scope: Things) -> Said:
    return rule.word.text, tuple(scope.index(thing) for thing in rule.things)


def _moved(rule: Rule, scope: Things, to: Things, vocabulary: Vocabulary) -> Rule:
    """The same rule about the things of another group of the pattern."""
    things = tuple(to[scope.index(thing)] for thing in rule.things)
    return Rule(
        rule.word,
        things,
        rule.word.said_of(tuple(vocabulary.case.things[thing].name for thing in things)),
    )


def behind(
    scope: Things, has: Sequence[Rule], would: Sequence[Rule], answers: Sequence[Answer]
) -> Things:
    """The answers that made a group's rules what they are: each no about exactly this group that
    one of its own rules explains and none of the others does, and each yes that breaks one of the
    others."""
    found = []
    for place, answer in enumerate(answers):
        values = answer.question.values
        breaks = any(rule.violated(values) for rule in would)
        if answer.yes and breaks:
            found.append(place)
        elif (
            not answer.yes
            and set(values) == set(scope)
            and not breaks
            and any(rule.violated(values) for rule in has)
        ):
            found.append(place)
    return tuple(found)


# ---------------------------------------------------------------- all patterns side by side


@dataclass(frozen=True)
class Cell:
    """What holds at one place of a pattern."""

    text: str
    odd: bool


@dataclass(frozen=True)
class Row:
    """A pattern, and what holds at its places along its part."""

    part: int
    name: str
    cells: dict[int, Cell]


def rows(
    vocabulary: Vocabulary,
    learned: Sequence[Constraint],
    answers: Sequence[Answer],
    is_open: Callable[[Things], bool],
) -> list[Row]:
    """Each pattern of two groups and more, with the rules of its groups; each group stands in one
    row alone."""
    along = Along(vocabulary.case)
    if not along.is_grid:
        return []
    on = {constraint.scope: vocabulary.claims(constraint) for constraint in learned}
    strange = {one.scope for one in odd(vocabulary, learned, answers, is_open)}
    left, made = set(vocabulary.scopes), []
    for pattern, scopes in sorted(
        _patterns(along, vocabulary.scopes).items(),
        key=lambda it: (-len(it[1]), it[0].part, it[0].fixed, it[0].steps),
    ):
        mine = [scope for scope in scopes if scope in left]
        if len(mine) < 2:
            continue
        left -= set(mine)
        cells = {
            along.member(scope, pattern.part): Cell(
                _shown(scope, on.get(scope, ()), is_open), scope in strange
            )
            for scope in mine
        }
        made.append(Row(pattern.part, ", ".join(along.spoken(pattern)), cells))
    return made


def _shown(scope: Things, rules: Sequence[Rule], is_open: Callable[[Things], bool]) -> str:
    """The rules of a group, shortly."""
    if rules:
        return "; ".join(dict.fromkeys(rule.word.text for rule in rules))
    return "open" if is_open(scope) else "no rule"
