"""From a case to what the program `acquire` reads, and back from what it prints.

The program takes no scope that lies within another one. So a word about fewer things than a group
has is lifted: it becomes a relation on the larger group that looks at some of its places alone.
Words that name their things are put together in one relation wherever no group can meet two of
them, since the program takes 64 combined relations of an arity and no more.
"""

from __future__ import annotations

import dataclasses
import itertools
import json
from collections.abc import Callable, Iterable, Iterator

from ..case import catalogue, names
from ..case.model import (
    MOST_RELATIONS,
    Case,
    Constraint,
    Fault,
    Group,
    Question,
    Rule,
    Values,
    Word,
)
from . import closing, coding
from .closing import Closing, Relation
from .coding import MOST_BY_ARITY, Coding
from .talk import is_question, something_else

MOST_SCOPES = 8192  # of the program
MOST_BYTES = 4_194_304  # of the program
ALL_OF = {2: "all", 3: "all triples", 4: "all fours"}
MOST_TRIED = 20  # words of which it is looked for which to drop
SPEAKS_OF = {1: "never V", 2: "different", 3: "all three different", 4: "all four different"}

NOT_ASKED = (
    "write `known` in place of `always`: sample plans keep it then, and it isn't asked about"
)

# a word at places of a group, as `never Ann` at its second place
Lifted = tuple[Word, tuple[int, ...]]


class Vocabulary:
    """A case in the program's terms."""

    def __init__(self, case: Case) -> None:
        """Takes a case; a fault where the program can't take it."""
        self.scopes = outermost(case)
        self.coding = coding.coded(case, max(map(len, self.scopes)))
        self.case = with_loose(case, self.coding)
        self.names = tuple(
            names.unique(
                names.plain(thing.name, f"thing_{thing.place + 1}") for thing in case.things
            )
        )
        self._place = {name: place for place, name in enumerate(self.names)}
        self.arities = sorted({len(scope) for scope in self.scopes})
        self._lifts = {arity: self._lifted(arity) for arity in self.arities}
        self._named = {arity: self._together(arity) for arity in self.arities}
        self._fits()
        self.closings = self._closed()
        self._not_too_many()
        self._by_name = {
            (relation.arity, relation.name): relation.table
            for made in self.closings.values()
            for relation in made.relations
        }
        self._holding: dict[tuple[int, ...], list[tuple[int, ...]]] = {}
        self._boxes: dict[tuple[tuple[int, int], ...], int] = {}
        self._tables: dict[tuple[Lifted, int], int] = {}
        self.json = self._json()
        if len(self.json.encode()) > MOST_BYTES:
            raise Fault(
                f"{case.path}: in the program's form the case has more than {MOST_BYTES} bytes: "
                "fewer values or words make it shorter"
            )
        self._always_are_asked()

    @property
    def lifted(self) -> tuple[str, ...]:
        """The words that are asked about on groups with more things than they speak of.

        In plan `scopes` each question is about a whole group, so a no has a rule of that group
        behind it. The other plans also ask about parts, and a no to a part because of such a word
        has none where no group that holds the word's things lies within the part: the session then
        collapses, though no answer was wrong.
        """
        return tuple(
            dict.fromkeys(
                word.text
                for arity, lifts in self._lifts.items()
                for word, places in lifts
                if len(places) < arity
            )
        )

    # ---- to and fro

    def tokens_of(self, values: Values) -> list[str]:
        """`Mon_early=1` for each thing with a value."""
        return [
            f"{self.names[thing]}={self.number(thing, value)}"
            for thing, value in sorted(values.items())
        ]

    def values_of(self, tokens: list[str]) -> Values:
        """The way back; a fault where a token isn't one that the program has."""
        found = {}
        for token in tokens:
            name, _, number = token.rpartition("=")
            if (
                name not in self._place
                or not number.isdecimal()
                or not 1 <= int(number) <= self.coding.size
            ):
                raise something_else(f"`{token}`")
            found[self._place[name]] = self.coding.value_of[int(number) - 1]
        return found

    def asked(self, line: str) -> Question | None:
        """The question of a line, without an answer behind it; None of another line."""
        head, *tokens = line.split() or [""]
        return Question(int(head[1:]), self.values_of(tokens)) if is_question(head) else None

    def answered(self, line: str) -> tuple[Question, bool] | None:
        """The question of a line and the answer behind it; None of another line."""
        head, _, answer = line.rpartition(" ")
        question = self.asked(head)
        if question is not None and answer not in ("yes", "no"):
            raise something_else(f"`{line}`")
        return None if question is None else (question, answer == "yes")

    def number(self, thing: int, value: int) -> int:
        """The program's number for a value of a thing."""
        return self.coding.number_of[thing][value]

    def constraint(self, line: str) -> Constraint:
        """A learned line."""
        head, *variables = line.split() or [""]
        names_of = tuple(head.split("&"))
        if not all(name in self._place for name in variables) or not all(
            (len(variables), name) in self._by_name for name in names_of
        ):
            raise something_else(f"`{line}`")
        return Constraint(line, tuple(self._place[name] for name in variables), names_of)

    def table(self, constraint: Constraint) -> int:
        """What a constraint accepts, within the ranges of its things."""
        table = self.inside(constraint.scope)
        for name in constraint.names:
            table &= self._by_name[len(constraint.scope), name]
        return table

    def place(self, scope: tuple[int, ...], values: Values) -> int:
        """The place in a table of the values on a scope, all of whose things have one."""
        place = 0
        for thing in scope:
            place = place * self.coding.size + self.coding.number_of[thing][values[thing]] - 1
        return place

    def accepts(self, constraint: Constraint, values: Values) -> bool:
        """Whether a constraint allows the values; what leaves a thing of its scope out is
        allowed."""
        if any(thing not in values for thing in constraint.scope):
            return True
        return bool(self.table(constraint) >> self.place(constraint.scope, values) & 1)

    def inside(self, scope: tuple[int, ...]) -> int:
        """The table of all tuples within the ranges of a scope."""
        ranges = tuple(self.coding.ranges[thing] for thing in scope)
        if ranges not in self._boxes:
            self._boxes[ranges] = closing.box(ranges, self.coding.size)
        return self._boxes[ranges]

    def strictest(self, scope: tuple[int, ...]) -> int:
        """What every candidate of a scope accepts."""
        inside = table = self.inside(scope)
        for relation in self.closings[len(scope)].relations:
            table &= relation.table
        return table & inside

    def choices(self, scope: tuple[int, ...]) -> int:
        """How many candidates a scope has, but for one that accepts everything."""
        return self.closings[len(scope)].different_within(self.inside(scope)).bit_count()

    # ---- rules in the case's words

    def rules_on(self, scope: tuple[int, ...]) -> Iterator[tuple[Rule, int]]:
        """The rules that words can say on a scope, plain ones first, each with its table there;
        none that accepts all."""
        inside = self.inside(scope)
        seen = {inside}
        for word, places in self._said_on(scope):
            things = tuple(scope[place] for place in places)
            table = self._word_table(word, places, len(scope)) & inside
            if table not in seen:
                seen.add(table)
                yield Rule(
                    word,
                    things,
                    word.said_of(tuple(self.case.things[thing].name for thing in things)),
                ), table

    def _said_on(self, scope: tuple[int, ...]) -> Iterator[Lifted]:
        """The words of a scope with their places in it, those first that name its things."""
        for word in self.case.words:
            if word.things and set(word.things) <= set(scope):
                yield word, tuple(scope.index(thing) for thing in word.things)
        yield from self._lifts[len(scope)]

    def claims(self, constraint: Constraint) -> tuple[Rule, ...]:
        """The fewest rules in the case's words that together say a constraint."""
        return self.fewest(constraint.scope, self.table(constraint))

    def fewest(self, scope: tuple[int, ...], target: int) -> tuple[Rule, ...]:
        """The fewest rules in the case's words that together accept on a scope what a table does.

        Of each size the first choice is taken, in the order of the words; from five rules on it is
        whatever is left after each rule has been dropped that the others say as well.
        """
        some = [(rule, table) for rule, table in self.rules_on(scope) if table & target == target]
        inside = self.inside(scope)
        for count in range(5):
            for chosen in itertools.combinations(some, count):
                if _all_of(chosen, inside) == target:
                    return tuple(rule for rule, _ in chosen)
        kept = list(some)
        for one in reversed(some):
            others = [other for other in kept if other is not one]
            if _all_of(others, inside) == target:
                kept = others
        return tuple(rule for rule, _ in kept)

    def network(self, rules: Iterable[Rule]) -> list[list[str]]:
        """Rules as a network for `play`: on each scope the relations that together say those of
        them that may be learned there."""
        return [
            self.item(scope, table)
            for scope, table in self.together(rules).items()
            if table != self.inside(scope)
        ]

    def together(self, rules: Iterable[Rule]) -> dict[tuple[int, ...], int]:
        """On each scope what those of some rules accept together that may be learned there."""
        said: dict[tuple[int, ...], int] = {}
        choices: dict[tuple[int, ...], set[int]] = {}
        for rule in rules:
            for scope in self._around(rule.things):
                if self._may_be_learned(rule, scope, choices):
                    places = tuple(scope.index(thing) for thing in rule.things)
                    said[scope] = said.get(scope, self.inside(scope)) & self._word_table(
                        rule.word, places, len(scope)
                    )
        return said

    def item(self, scope: tuple[int, ...], table: int) -> list[str]:
        """An item of a network: the relations that hold this table, and the scope."""
        inside = self.inside(scope)
        names_of = [
            relation.name
            for relation in self.closings[len(scope)].relations
            if relation.table & table & inside == table & inside
        ]
        return ["&".join(names_of), *(self.names[thing] for thing in scope)]

    # ---- how it is made

    def _lifted(self, arity: int) -> list[Lifted]:
        """The words about any things, at the places of a group of this arity at which something is
        asked about.

        Those that name two things are among them where things share their numbers: the program then
        asks about them on other groups too.
        """
        found: dict[tuple[str, tuple[int, ...]], Lifted] = {}
        for word in self.case.words:
            if word.things and self.coding.owner_of:
                continue
            about = (
                dataclasses.replace(
                    word, things=(), shown=word.sentence.format("the first", "the second")
                )
                if word.things
                else word
            )
            for places in self._places(word, arity):
                found.setdefault((word.text, places), (about, places))
        return list(found.values())

    def _places(self, word: Word, arity: int) -> list[tuple[int, ...]]:
        """At which places of groups of this arity a word may hold."""
        within = [scope for scope in self.scopes if len(scope) == arity]
        if word.things:
            return list(
                dict.fromkeys(
                    tuple(scope.index(thing) for thing in word.things)
                    for scope in within
                    if set(word.things) <= set(scope)
                )
            )
        if word.arity > arity:
            return []
        asked = {group.things for group in self.case.groups if len(group.things) == word.arity}
        every = list(itertools.combinations(range(arity), word.arity))
        if not asked or word.arity == arity:
            return every
        return [
            places
            for places in every
            if any(tuple(scope[place] for place in places) in asked for scope in within)
        ]

    def _together(self, arity: int) -> list[list[Word]]:
        """Where things are apart: words that name things, put together so that no group of this
        arity meets two of one list."""
        if not self.coding.owner_of:
            return []
        lists: list[tuple[list[Word], set[tuple[int, ...]]]] = []
        for word in self.case.words:
            met = {
                scope
                for scope in self.scopes
                if len(scope) == arity and word.things and set(word.things) <= set(scope)
            }
            if not met:
                continue
            free = next((one for one in lists if not one[1] & met), None)
            if free is None:
                free = ([], set())
                lists.append(free)
            free[0].append(word)
            free[1].update(met)
        return [some for some, _ in lists]

    def _closed(self) -> dict[int, Closing]:
        """The relations of all arities, no two with one name."""
        named = [
            (arity, name, accepts)
            for arity in self.arities
            for name, accepts in self._relations(arity)
        ]
        relations = [
            Relation(name, arity, closing.table_of(arity, self.coding.size, accepts))
            for name, (arity, _, accepts) in zip(
                names.unique(name for _, name, _ in named), named, strict=True
            )
        ]
        return {
            arity: Closing(
                arity, self.coding.size, tuple(one for one in relations if one.arity == arity)
            )
            for arity in self.arities
        }

    def _relations(self, arity: int) -> Iterator[tuple[str, Callable[[tuple[int, ...]], bool]]]:
        """The relations of an arity: their names, which may come again, and their tests."""
        for word, places in self._lifts[arity]:
            whole = places == tuple(range(arity))
            name = names.plain(word.text, "word") + (
                "" if whole else "@" + "".join(str(place + 1) for place in places)
            )
            yield name, self._test(word, places)
        for words in self._named[arity]:
            yield (
                names.plain(words[0].text, "word") if len(words) == 1 else "named_things"
            ), self._named_test(words)

    def _test(self, word: Word, places: tuple[int, ...]) -> Callable[[tuple[int, ...]], bool]:
        """A word at places of a tuple of numbers."""
        value_of, holds = self.coding.value_of, word.holds
        return lambda some: holds(*(value_of[some[place] - 1] for place in places))

    def _named_test(self, words: list[Word]) -> Callable[[tuple[int, ...]], bool]:
        """Words that name things, wherever numbers of these stand in a tuple."""
        owner_of, value_of = self.coding.owner_of, self.coding.value_of

        def accepts(some: tuple[int, ...]) -> bool:
            at = {owner_of[number - 1]: value_of[number - 1] for number in some}
            return all(
                word.holds(*(at[thing] for thing in word.things))
                for word in words
                if all(thing in at for thing in word.things)
            )

        return accepts

    def _word_table(self, word: Word, places: tuple[int, ...], arity: int) -> int:
        """The table of one word at places; of one that names things which have numbers of their
        own, wherever these stand."""
        key = ((word, places), arity)
        if key not in self._tables:
            apart = bool(word.things and self.coding.owner_of)
            accepts = self._named_test([word]) if apart else self._test(word, places)
            self._tables[key] = closing.table_of(arity, self.coding.size, accepts)
        return self._tables[key]

    def _json(self) -> str:
        """What `new` reads."""
        whole = (1, self.coding.size)
        relations = [
            {
                "name": relation.name,
                "arity": arity,
                "tuples": closing.tuples_of(relation.table, arity, made.size),
            }
            for arity, made in self.closings.items()
            for relation in made.relations
        ]
        said: dict[str, object] = {
            "variables": list(self.names),
            "domain": list(whole),
            "relations": relations,
            "scopes": [[self.names[thing] for thing in scope] for scope in self.scopes],
        }
        ranges = [
            [self.names[thing], *ends]
            for thing, ends in enumerate(self.coding.ranges)
            if ends != whole
        ]
        if ranges:
            said["ranges"] = ranges
        return json.dumps(said, separators=(",", ":"))

    # ---- what the program can't take

    def _fits(self) -> None:
        """Each word speaks of some group, each group has a word, and the tables aren't too
        large."""
        path, case = self.case.path, self.case
        for arity in self.arities:
            if self.coding.size > MOST_BY_ARITY[arity]:
                raise Fault(
                    f"{path}: groups of {arity} things take {MOST_BY_ARITY[arity]} values at most, "
                    f"and there are {self.coding.size}"
                )
            if not self._lifts[arity] and not self._named[arity]:
                group = next(group for group in case.groups if len(group.things) == arity)
                raise Fault(
                    f"{path}: `{group.phrase}` puts "
                    f"{arity} thing{'s' if arity > 1 else ''} together, and no word speaks of so "
                    f"many; one that does is `{SPEAKS_OF[arity]}`"
                )
        for word in case.words:
            if not word.things and word.arity > max(self.arities):
                raise Fault(
                    f"{path}: `{word.text}` speaks of {word.arity} things, and `ask` puts no more "
                    f"than {max(self.arities)} together: ask about `{ALL_OF[word.arity]}`, or, if "
                    "it is known, write it on a line `known`"
                )

    def _not_too_many(self) -> None:
        """At most 64 combined relations of each arity; else a fault that says which word to
        drop."""
        for arity, made in self.closings.items():
            if len(made.tables) > MOST_RELATIONS:
                raise Fault(f"{self.case.path}: {self.too_many(arity)}")

    def cost(self, arity: int, without: tuple[str, ...] = ()) -> int:
        """How many combined relations the words of an arity are, without some words."""
        tables = [
            self._word_table(word, places, arity)
            for word, places in self._lifts[arity]
            if word.text not in without
        ]
        for words in self._named[arity]:
            left = [word for word in words if word.text not in without]
            if left:
                tables.append(closing.table_of(arity, self.coding.size, self._named_test(left)))
        return len(closing.closed(tables))

    def too_many(self, arity: int) -> str:
        """Which words to drop, one after the other, until the others are few enough."""
        self._tables = {}
        texts = [word.text for word in self.case.words]
        if len(texts) > MOST_TRIED:
            return (
                f"the {len(texts)} words combine to more rules on groups of {arity} than the "
                f"{MOST_RELATIONS} that the program takes: keep the few that matter most. With "
                f"{MOST_TRIED} or fewer desk says which to drop"
            )
        dropped: tuple[str, ...] = ()
        count = first = self.cost(arity)
        while count > MOST_RELATIONS and len(dropped) < len(texts):
            costs = {
                text: self.cost(arity, (*dropped, text)) for text in texts if text not in dropped
            }
            best = min(
                costs, key=lambda text: (max(costs[text], MOST_RELATIONS), -texts.index(text))
            )
            dropped, count = (*dropped, best), costs[best]
        few = f"more than {closing.COUNTED_TO}" if first > closing.COUNTED_TO else str(first)
        return (
            f"the words combine to {few} rules on groups of {arity}, and the program takes "
            f"{MOST_RELATIONS}; without {' and '.join(f'`{text}`' for text in dropped)} they are "
            f"{count}"
        )

    def _always_are_asked(self) -> None:
        """Each rule said beforehand is one that may be learned; else a fault that says why it
        isn't."""
        choices: dict[tuple[int, ...], set[int]] = {}
        for rule in self.case.always:
            around = self._around(rule.things)
            if around and all(self._may_be_learned(rule, scope, choices) for scope in around):
                continue
            who = " - ".join(self.case.things[thing].name for thing in sorted(rule.things))
            head = f'{self.case.path}: always: "{rule.text}" can\'t be learned: '
            if not around or (
                rule.word in self.case.words and tuple(sorted(rule.things)) == rule.things
            ):
                raise Fault(
                    f"{head}`ask` doesn't put {who} together; add `{who}` to `ask`, or {NOT_ASKED}"
                )
            if rule.word in self.case.words:
                raise Fault(
                    f"{head}words read things in the order of the case: {who}; add the word that "
                    "says it so"
                )
            raise Fault(
                f"{head}`{rule.word.text}` isn't among the words; add it to `words`, or {NOT_ASKED}"
            )

    def _around(self, things: tuple[int, ...]) -> list[tuple[int, ...]]:
        """The scopes that hold some things."""
        if not self._holding:
            for scope in self.scopes:
                for size in range(1, len(scope) + 1):
                    for some in itertools.combinations(scope, size):
                        self._holding.setdefault(some, []).append(scope)
        return self._holding.get(tuple(sorted(things)), [])

    def _may_be_learned(
        self, rule: Rule, scope: tuple[int, ...], choices: dict[tuple[int, ...], set[int]]
    ) -> bool:
        """Whether a rule is a candidate on a scope, or forbids nothing there."""
        inside = self.inside(scope)
        if scope not in choices:
            choices[scope] = {table & inside for table in self.closings[len(scope)].tables} | {
                inside
            }
        places = tuple(scope.index(thing) for thing in rule.things)
        return self._word_table(rule.word, places, len(scope)) & inside in choices[scope]


def _all_of(some: tuple[tuple[Rule, int], ...] | list[tuple[Rule, int]], inside: int) -> int:
    """What all of some rules accept."""
    table = inside
    for _, one in some:
        table &= one
    return table


def outermost(case: Case) -> tuple[tuple[int, ...], ...]:
    """The groups that lie in no other one, in their order."""
    within: set[tuple[int, ...]] = set()
    kept: set[tuple[int, ...]] = set()
    for group in sorted(case.groups, key=lambda group: -len(group.things)):
        if group.things in within:
            continue
        kept.add(group.things)
        for size in range(1, len(group.things)):
            within.update(itertools.combinations(group.things, size))
    scopes = tuple(group.things for group in case.groups if group.things in kept)
    if len(scopes) > MOST_SCOPES:
        raise Fault(
            f"{case.path}: {len(scopes)} groups are asked about, and the program takes "
            f"{MOST_SCOPES}; a narrower `ask` has fewer"
        )
    return scopes


def with_loose(case: Case, numbers: Coding) -> Case:
    """The case with a rule for each thing whose range holds values that it mustn't take: that it is
    one of those it may."""
    rules, words = list(case.always), list(case.words)
    setting = catalogue.Setting(case.things, case.values, case.value_parts)
    grouped = {thing for group in case.groups for thing in group.things}
    for place in numbers.loose:
        if place not in grouped:
            continue
        thing = case.things[place]
        word = catalogue.only(
            setting, [case.values[value] for value in thing.allowed], frozenset(thing.allowed)
        )
        words += [word] if word not in words else []
        rules.append(Rule(word, (place,), word.said_of((thing.name,))))
    return dataclasses.replace(case, words=tuple(words), always=tuple(rules))


def build(case: Case) -> Vocabulary:
    """The vocabulary of a case; a fault where the program can't take it."""
    return Vocabulary(case)


def asked_as(case: Case, scope: tuple[int, ...]) -> Group:
    """The group of the case that a scope is."""
    return next(group for group in case.groups if group.things == scope)
